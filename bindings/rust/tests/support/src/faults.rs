//! Sets of faults in one call, the refusal number that they are given, and tokens
//! that have them.

use reference::{TokenTerms, Wrap, PAD};

use crate::Inputs;

/// Every set of `N` faults, each there or not.
pub fn fault_sets<const N: usize>() -> impl Iterator<Item = [bool; N]> {
    (0..1 << N).map(|set: u32| std::array::from_fn(|fault| set >> fault & 1 == 1))
}

/// The number of the first fault that is there.
pub fn first<const N: usize>(numbers: [u32; N], faults: [bool; N]) -> u32 {
    let mut numbers = numbers.into_iter().zip(faults);
    numbers
        .find(|(_, there)| *there)
        .map_or(0, |(number, _)| number)
}

/// Faults of a token, in the order of their refusals.
pub struct Faults {
    header: bool,
    direction: bool,
    checksum: bool,
    pad: bool,
}

impl Faults {
    /// In the same order.
    pub fn new([header, direction, checksum, pad]: [bool; 4]) -> Faults {
        Faults {
            header,
            direction,
            checksum,
            pad,
        }
    }

    /// A checksum, which is made wrong if it is to be.
    fn checksum(&self, mut sgn_cksum: [u8; 8]) -> [u8; 8] {
        sgn_cksum[6] ^= u8::from(self.checksum) << 5;
        sgn_cksum
    }

    /// The terms that the token is written under.
    fn writer(&self, reader: &TokenTerms) -> TokenTerms {
        TokenTerms {
            acceptor: reader.acceptor != self.direction,
            ..*reader
        }
    }

    /// Under a wrong checksum SND_SEQ and body come out right, so that each
    /// fault is there or not whatever the others are.
    pub fn wrap(&self, reader: &TokenTerms, wrap: &Wrap) -> Vec<u8> {
        let last = if self.pad { 0x02 } else { PAD };
        let writer = self.writer(reader);
        let sgn_cksum = self.checksum(writer.wrap_cksum(wrap, last));
        let mut token = writer.wrap_with(wrap, last, &sgn_cksum);
        token[7] ^= u8::from(self.header);
        token
    }

    /// With the number 6.
    pub fn mic(&self, reader: &TokenTerms, data: &[u8]) -> Vec<u8> {
        let writer = self.writer(reader);
        let sgn_cksum = self.checksum(writer.mic_cksum(data));
        let mut token = writer.mic_with(6, &sgn_cksum);
        token[7] ^= u8::from(self.header);
        token
    }
}

/// MIC tokens over the data "data" that are refused, each with its number.
pub fn refused_mic_tokens(
    inputs: &mut Inputs,
    terms: &TokenTerms,
    sequence: u32,
) -> [(u32, Vec<u8>); 9] {
    let token = terms.mic(sequence, b"data");
    let changed = |at: usize| {
        let mut token = token.clone();
        token[at] ^= 0x04;
        token
    };
    let (export, acceptor) = (!terms.export, !terms.acceptor);
    [
        (4, changed(0)),
        (4, changed(4)),
        (5, changed(15)),
        (5, changed(17)),
        (5, TokenTerms { export, ..*terms }.mic(sequence, b"data")),
        (5, TokenTerms { acceptor, ..*terms }.mic(sequence, b"data")),
        (6, terms.mic(sequence, b"datA")),
        (6, terms.mic(sequence, b"")),
        (6, terms.mic_with(sequence, &inputs.array())),
    ]
}
