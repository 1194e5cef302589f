//! Keys of passwords, compared with the reference implementation.

use rc4hmac::Refusal;
use support::{calls, Inputs};

fn compare(units: &[u16]) {
    let expected = reference::password_key(units);
    let beginning = &units[..units.len().min(8)];
    let what = format!("{} units, beginning {beginning:04x?}", units.len());
    assert!(rc4hmac::password_key(units) == Ok(expected), "{what}");
    assert!(calls::password_key(units) == (0, expected), "{what}");
}

#[test]
fn keys_of_every_password_length_to_256_are_the_references() {
    let mut inputs = Inputs::new(91);
    for len in 0..=256 {
        for _ in 0..4 {
            compare(&inputs.units(len));
        }
    }
}

#[test]
fn longer_passwords_are_refused_with_a_key_of_zeros() {
    let mut inputs = Inputs::new(92);
    for len in (257..=300).chain([511, 512, 513, 1000, 32_768, 65_536, 65_537, 65_792]) {
        let units = inputs.units(len);
        let before = units.clone();
        assert!(
            rc4hmac::password_key(&units) == Err(Refusal::Length),
            "{len}"
        );
        assert!(calls::password_key(&units) == (1, [0; 16]), "{len}");
        assert!(units == before, "{len}");
    }
}

/// The units are zeros that nobody touches: address space, hardly memory.
#[test]
fn a_length_that_is_within_the_limit_only_in_its_low_32_bits_is_refused() {
    for low in [0, 1, 256] {
        let units = vec![0; (1 << 32) + low];
        assert!(calls::password_key(&units) == (1, [0; 16]), "{low}");
    }
}

#[test]
fn every_bit_of_every_unit_reaches_the_key() {
    compare(&[0; 3]);
    let mut keys = vec![reference::password_key(&[0; 3])];
    for bit in 0..48 {
        let mut units = [0; 3];
        units[bit / 16] = 1 << (bit % 16);
        compare(&units);
        keys.push(reference::password_key(&units));
    }
    keys.sort();
    keys.dedup();
    assert_eq!(keys.len(), 49);
}

/// Zero units end nothing, surrogates need no partner, and no unit is special.
#[test]
fn zero_units_surrogates_and_the_largest_unit_are_ordinary() {
    let odd = [
        0x0000, 0x0001, 0x00ff, 0x0100, 0x7fff, 0x8000, 0xd7ff, 0xd800, 0xdbff, 0xdc00, 0xdfff,
        0xe000, 0xfeff, 0xfffd, 0xfffe, 0xffff,
    ];
    for first in odd {
        compare(&[first]);
        for len in [27, 28, 31, 32, 33, 255, 256] {
            compare(&vec![first; len]);
        }
        for second in odd {
            compare(&[first, second]);
            compare(&[0x66, first, second, 0x6f]);
        }
    }
    compare(&odd);
}

#[test]
fn a_closing_zero_makes_another_key() {
    let open: Vec<u16> = "foo".encode_utf16().collect();
    let closed = [&open[..], &[0]].concat();
    assert!(rc4hmac::password_key(&open) != rc4hmac::password_key(&closed));
    compare(&closed);
}

#[test]
fn passwords_in_several_scripts_are_the_references() {
    for password in ["", "foo", "Größe 7", "窯の温度", "печь", "🔥🔥🔥", "a\0b"] {
        compare(&password.encode_utf16().collect::<Vec<u16>>());
    }
}
