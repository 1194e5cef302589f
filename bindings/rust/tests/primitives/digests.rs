//! MD4 and MD5, compared with the reference implementation.

use rc4hmac::Refusal;
use support::{counting, Inputs};

struct Algorithm {
    library: fn(&[u8]) -> Result<[u8; 16], Refusal>,
    reference: fn(&[u8]) -> [u8; 16],
}

const MD4: Algorithm = Algorithm {
    library: rc4hmac::md4,
    reference: reference::md4,
};

const MD5: Algorithm = Algorithm {
    library: rc4hmac::md5,
    reference: reference::md5,
};

impl Algorithm {
    fn compare(&self, data: &[u8]) {
        assert_eq!(
            (self.library)(data),
            Ok((self.reference)(data)),
            "{} octets, beginning {:02x?}",
            data.len(),
            &data[..data.len().min(16)]
        );
    }

    fn compare_every_short_length(&self, inputs: &mut Inputs) {
        for len in 0..=300 {
            for _ in 0..4 {
                self.compare(&inputs.octets(len));
            }
        }
    }

    /// Lengths where the padding begins a block, fills one, or takes one more.
    fn compare_around_the_padding(&self) {
        for len in [
            0, 1, 54, 55, 56, 57, 62, 63, 64, 65, 66, 118, 119, 120, 121, 126, 127, 128, 129, 183,
            184, 191, 192, 193, 65_463, 65_464, 65_471, 65_472, 65_473, 65_527, 65_528,
        ] {
            self.compare(&vec![0x00; len]);
            self.compare(&vec![0xff; len]);
            self.compare(&vec![0x80; len]);
            self.compare(&counting(len));
        }
    }

    fn compare_long_inputs(&self, inputs: &mut Inputs) {
        for _ in 0..400 {
            let len = inputs.number(301, 65_536);
            self.compare(&inputs.octets(len));
        }
        // Lengths in bits that fill one, two and three octets.
        for len in [31, 32, 8_191, 8_192, 8_193, 32_767, 32_768, 65_536] {
            self.compare(&inputs.octets(len));
        }
    }

    /// Every bit of a message of two blocks reaches the digest as it should.
    fn compare_single_bits(&self) {
        for bit in 0..8 * 80 {
            let mut data = [0; 80];
            data[bit / 8] = 1 << (bit % 8);
            self.compare(&data);
        }
    }
}

#[test]
fn md4_of_every_length_to_300_is_the_references() {
    MD4.compare_every_short_length(&mut Inputs::new(1));
}

#[test]
fn md4_around_the_padding_of_zeros_ones_and_counting_octets_is_the_references() {
    MD4.compare_around_the_padding();
}

#[test]
fn md4_of_long_data_is_the_references() {
    MD4.compare_long_inputs(&mut Inputs::new(2));
}

#[test]
fn md4_of_every_single_bit_is_the_references() {
    MD4.compare_single_bits();
}

#[test]
fn md5_of_every_length_to_300_is_the_references() {
    MD5.compare_every_short_length(&mut Inputs::new(3));
}

#[test]
fn md5_around_the_padding_of_zeros_ones_and_counting_octets_is_the_references() {
    MD5.compare_around_the_padding();
}

#[test]
fn md5_of_long_data_is_the_references() {
    MD5.compare_long_inputs(&mut Inputs::new(4));
}

#[test]
fn md5_of_every_single_bit_is_the_references() {
    MD5.compare_single_bits();
}
