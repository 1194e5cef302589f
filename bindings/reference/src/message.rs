//! Encrypted messages, from RFC 4757, section 5.

use super::usage::salt;
use super::{hmac_md5, rc4};

/// The octets of the checksum, and of the checksum and the confounder.
const CHECKSUM: usize = 16;
pub const HEADER: usize = 24;

/// The key with `memset (K1+7, 0xAB, 9)`: 56 bits of it stay.
pub fn exportable(mut key: [u8; 16]) -> [u8; 16] {
    key[7..7 + 9].fill(0xab);
    key
}

/// Whose message it is, apart from its confounder and its data.
#[derive(Clone, Copy)]
pub struct Terms {
    pub key: [u8; 16],
    pub export: bool,
    pub usage: u32,
}

impl Terms {
    /// The strength and the usage, as `krbtoken` takes them.
    pub fn name(&self) -> (&'static str, u32) {
        (if self.export { "export" } else { "full" }, self.usage)
    }

    /// K1 and K2.
    fn keys(&self) -> ([u8; 16], [u8; 16]) {
        let k2 = hmac_md5(&self.key, &salt(self.export, self.usage));
        let k1 = if self.export { exportable(k2) } else { k2 };
        (k1, k2)
    }

    /// The message of a confounder and data.
    pub fn encrypt(&self, confounder: &[u8; 8], data: &[u8]) -> Vec<u8> {
        self.seal(&self.checksum(confounder, data), confounder, data)
    }

    /// The checksum in the message: of the confounder and the data, both plain.
    pub fn checksum(&self, confounder: &[u8; 8], data: &[u8]) -> [u8; 16] {
        let (_, k2) = self.keys();
        hmac_md5(&k2, &[confounder, data].concat())
    }

    /// The message with a given checksum: confounder and data, under one
    /// stream, come out of it right even if the checksum is not theirs.
    pub fn seal(&self, checksum: &[u8; 16], confounder: &[u8; 8], data: &[u8]) -> Vec<u8> {
        let (k1, _) = self.keys();
        let k3 = hmac_md5(&k1, checksum);
        let plain = [confounder, data].concat();
        [&checksum[..], &rc4(&k3, &plain)].concat()
    }

    /// The confounder and the data, if the checksum is theirs.
    pub fn decrypt(&self, message: &[u8]) -> Option<Vec<u8>> {
        let (k1, k2) = self.keys();
        let (checksum, secret) = message.split_at(CHECKSUM);
        let plain = rc4(&hmac_md5(&k1, checksum), secret);
        (hmac_md5(&k2, &plain) == checksum).then_some(plain)
    }
}
