//! Keys of passwords, usages, keyed checksums and encrypted messages.

mod areas;
mod checksums;
mod damaged;
mod encrypted;
mod limits;
mod password_keys;
mod refusal_order;
mod regions;
mod usages;
