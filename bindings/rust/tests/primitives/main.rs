//! MD4, MD5, HMAC-MD5 and RC4.

mod areas;
mod digests;
mod hmac;
mod limits;
mod rc4;
