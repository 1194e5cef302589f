//! Plain Rust that does what the library does, for the library to be measured
//! beside. Each function has the shape of its C counterpart and is one call.

// Each bench uses its own share of this module.
#![allow(dead_code, unused_imports)]

mod blocks;
mod hmac;
mod md4;
mod md5;
mod message;
mod rc4;
mod token;

pub use hmac::hmac_md5;
pub use md4::md4;
pub use md5::{md5, md5_table_driven};
pub use message::decrypt;
pub use rc4::{rc4, rc4_reading_ahead};
pub use token::{wrap_open, wrap_open_reading_ahead, wrap_write, wrap_write_reading_ahead};
