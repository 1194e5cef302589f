//! MIC and Wrap tokens, written and read, from RFC 4757, section 7, but as they
//! are sent where its steps print something else:
//!
//! - SGN_CKSUM of a Wrap token begins with the 13 of the list in section 3; the
//!   steps have 15 for both kinds;
//! - the direction octets are those of RFC 1964; the steps have them the other
//!   way round;
//! - for export nine octets of Kseq and of Kcrypt are set, as section 5 sets
//!   them in K1; the steps have seven.

use super::message::exportable;
use super::{hmac_md5, md5, rc4};

/// The octets of a MIC token, and of a Wrap token before its message.
pub const MIC: usize = 24;
pub const FRONT: usize = 32;

/// TOK_ID, SGN_ALG and the filler, for Wrap with SEAL_ALG before it.
pub const MIC_HEADER: [u8; 8] = [0x01, 0x01, 0x11, 0x00, 0xff, 0xff, 0xff, 0xff];
pub const SEALED_HEADER: [u8; 8] = [0x02, 0x01, 0x11, 0x00, 0x10, 0x00, 0xff, 0xff];
pub const CLEAR_HEADER: [u8; 8] = [0x02, 0x01, 0x11, 0x00, 0xff, 0xff, 0xff, 0xff];

/// What SGN_CKSUM begins with: T of GSS MIC and of GSS Wrap in section 3.
pub const MIC_MESSAGE_TYPE: u32 = 15;
pub const WRAP_MESSAGE_TYPE: u32 = 13;

/// The one octet of padding says that it is one.
pub const PAD: u8 = 0x01;

/// Whose token it is: the key, the strength and the sender.
#[derive(Clone, Copy)]
pub struct TokenTerms {
    pub key: [u8; 16],
    pub export: bool,
    pub acceptor: bool,
}

/// What is put in a Wrap token.
pub struct Wrap {
    pub sequence: u32,
    pub confounder: [u8; 8],
    pub sealed: bool,
    pub message: Vec<u8>,
}

/// What a Wrap token opens to: confounder, message and pad as one.
pub(crate) struct Opening {
    pub sequence: u32,
    pub sealed: bool,
    pub plain: Vec<u8>,
}

impl Wrap {
    pub fn header(&self) -> [u8; 8] {
        if self.sealed {
            SEALED_HEADER
        } else {
            CLEAR_HEADER
        }
    }

    /// Confounder, message and, in the pad's place, `last`.
    pub fn plain(&self, last: u8) -> Vec<u8> {
        [&self.confounder, &self.message[..], &[last]].concat()
    }
}

impl TokenTerms {
    /// The strength and the sender, as `krbtoken` takes them.
    pub fn name(&self) -> (&'static str, &'static str) {
        (
            if self.export { "export" } else { "full" },
            if self.acceptor {
                "acceptor"
            } else {
                "initiator"
            },
        )
    }

    /// SND_SEQ before encryption: the number's octets, the highest first, and
    /// the direction's.
    pub fn plain_send_seq(&self, sequence: u32) -> [u8; 8] {
        let direction = if self.acceptor { 0xff } else { 0x00 };
        std::array::from_fn(|i| match i {
            0..4 => (sequence >> (24 - 8 * i)) as u8,
            _ => direction,
        })
    }

    /// What Kseq and Kcrypt share: the key salted with T = 0.
    fn salted(&self, key: &[u8; 16]) -> [u8; 16] {
        if self.export {
            exportable(hmac_md5(key, b"fortybits\0\0\0\0\0"))
        } else {
            hmac_md5(key, &[0, 0, 0, 0])
        }
    }

    fn kseq(&self, sgn_cksum: &[u8]) -> [u8; 16] {
        hmac_md5(&self.salted(&self.key), sgn_cksum)
    }

    /// Salted with the number as it stands in SND_SEQ.
    fn kcrypt(&self, sequence: u32) -> [u8; 16] {
        let klocal = self.key.map(|octet| octet ^ 0xf0);
        let number = &self.plain_send_seq(sequence)[..4];
        hmac_md5(&self.salted(&klocal), number)
    }

    /// SGN_CKSUM of a message type, a header and what follows it under the
    /// checksum.
    pub fn sgn_cksum(&self, message_type: u32, header: &[u8; 8], signed: &[u8]) -> [u8; 8] {
        let ksign = hmac_md5(&self.key, b"signaturekey\0");
        let message_type: [u8; 4] = std::array::from_fn(|i| (message_type >> (8 * i)) as u8);
        let digest = md5(&[&message_type, &header[..], signed].concat());
        let whole = hmac_md5(&ksign, &digest);
        std::array::from_fn(|i| whole[i])
    }

    /// Octets 0 to 23. SND_SEQ comes out right even if the checksum is not.
    pub fn first_24(&self, header: &[u8; 8], sequence: u32, sgn_cksum: &[u8; 8]) -> Vec<u8> {
        let send_seq = rc4(&self.kseq(sgn_cksum), &self.plain_send_seq(sequence));
        [&header[..], &send_seq, sgn_cksum].concat()
    }

    pub fn mic(&self, sequence: u32, data: &[u8]) -> Vec<u8> {
        self.mic_with(sequence, &self.mic_cksum(data))
    }

    /// SGN_CKSUM of the MIC token of `data`.
    pub fn mic_cksum(&self, data: &[u8]) -> [u8; 8] {
        self.sgn_cksum(MIC_MESSAGE_TYPE, &MIC_HEADER, data)
    }

    /// The MIC token with a given SGN_CKSUM.
    pub fn mic_with(&self, sequence: u32, sgn_cksum: &[u8; 8]) -> Vec<u8> {
        self.first_24(&MIC_HEADER, sequence, sgn_cksum)
    }

    pub fn wrap(&self, wrap: &Wrap) -> Vec<u8> {
        self.wrap_ending(wrap, PAD)
    }

    /// The Wrap token with `last` in the pad's place, under its checksum.
    pub fn wrap_ending(&self, wrap: &Wrap, last: u8) -> Vec<u8> {
        self.wrap_with(wrap, last, &self.wrap_cksum(wrap, last))
    }

    /// SGN_CKSUM of the Wrap token with `last` in the pad's place.
    pub fn wrap_cksum(&self, wrap: &Wrap, last: u8) -> [u8; 8] {
        self.sgn_cksum(WRAP_MESSAGE_TYPE, &wrap.header(), &wrap.plain(last))
    }

    /// The Wrap token with a given last octet and a given SGN_CKSUM.
    pub fn wrap_with(&self, wrap: &Wrap, last: u8, sgn_cksum: &[u8; 8]) -> Vec<u8> {
        let front = self.first_24(&wrap.header(), wrap.sequence, sgn_cksum);
        let plain = wrap.plain(last);
        let body = if wrap.sealed {
            rc4(&self.kcrypt(wrap.sequence), &plain)
        } else {
            plain
        };
        [front, body].concat()
    }

    /// The number in SND_SEQ, or 5 if the direction is not this sender's.
    fn sequence(&self, token: &[u8]) -> Result<u32, u32> {
        let send_seq = rc4(&self.kseq(&token[16..24]), &token[8..16]);
        let sequence = (send_seq[..4].iter()).fold(0, |number, &octet| number << 8 | octet as u32);
        if send_seq == self.plain_send_seq(sequence) {
            Ok(sequence)
        } else {
            Err(5)
        }
    }

    /// The sequence number of a MIC token of 24 octets, or 4, 5 or 6.
    pub(crate) fn read_mic(&self, token: &[u8], data: &[u8]) -> Result<u32, u32> {
        if token[..8] != MIC_HEADER {
            return Err(4);
        }
        let sequence = self.sequence(token)?;
        if token[16..] != self.mic_cksum(data) {
            return Err(6);
        }
        Ok(sequence)
    }

    /// A Wrap token of at least 33 octets opened, or 4, 5, 6 or 7.
    pub(crate) fn open_wrap(&self, token: &[u8]) -> Result<Opening, u32> {
        let header: [u8; 8] = std::array::from_fn(|i| token[i]);
        let sealed = match header {
            SEALED_HEADER => true,
            CLEAR_HEADER => false,
            _ => return Err(4),
        };
        let sequence = self.sequence(token)?;
        let plain = if sealed {
            rc4(&self.kcrypt(sequence), &token[24..])
        } else {
            token[24..].to_vec()
        };
        if token[16..24] != self.sgn_cksum(WRAP_MESSAGE_TYPE, &header, &plain) {
            return Err(6);
        }
        if plain.last() != Some(&PAD) {
            return Err(7);
        }
        Ok(Opening {
            sequence,
            sealed,
            plain,
        })
    }
}
