//! Whole encrypted messages, compared with the reference implementation.

use rc4hmac::{Strength, Usage};
use reference::{Terms, HEADER};
use support::{calls, counting, must_be_octets, AllTerms, Inputs};

fn strength(terms: &Terms) -> Strength {
    if terms.export {
        Strength::Export
    } else {
        Strength::Full
    }
}

/// The library writes what the reference implementation writes, and reads it.
fn compare(terms: &Terms, confounder: &[u8; 8], data: &[u8]) {
    let what = (terms.name(), data.len());
    let (strength, usage) = (strength(terms), Usage::new(terms.usage).unwrap());
    let message = terms.encrypt(confounder, data);

    let mut buf = [&[0x5a; HEADER], data].concat();
    let written = rc4hmac::encrypt(
        &terms.key,
        strength,
        usage,
        confounder,
        &mut buf,
        0,
        data.len(),
    );
    assert_eq!(written, Ok(HEADER + data.len()), "{what:?}");
    must_be_octets(&buf, &message, what);

    let data_len = rc4hmac::decrypt(&terms.key, strength, usage, &mut buf, 0, message.len());
    assert_eq!(data_len, Ok(data.len()), "{what:?}");
    must_be_octets(&buf, &[&message[..16], confounder, data].concat(), what);
}

#[test]
fn messages_of_every_usage_strength_and_length_to_300_are_the_references() {
    let mut inputs = Inputs::new(61);
    for terms in Terms::all(&mut inputs) {
        for len in 0..=300 {
            compare(&terms, &inputs.array(), &inputs.octets(len));
        }
    }
}

#[test]
fn long_messages_are_the_references() {
    let mut inputs = Inputs::new(62);
    for terms in Terms::all(&mut inputs) {
        for len in [32_767, 32_768] {
            compare(&terms, &inputs.array(), &inputs.octets(len));
        }
        for _ in 0..4 {
            let len = inputs.number(301, 32_766);
            compare(&terms, &inputs.array(), &inputs.octets(len));
        }
    }
}

#[test]
fn messages_of_zeros_ones_and_counting_octets_are_the_references() {
    for export in [false, true] {
        for key in [[0x00; 16], [0xff; 16], [0xab; 16]] {
            let terms = Terms {
                key,
                export,
                usage: 13,
            };
            for confounder in [[0x00; 8], [0xff; 8], [0xab; 8]] {
                for len in [0, 1, 8, 47, 48, 49, 1000] {
                    compare(&terms, &confounder, &vec![0x00; len]);
                    compare(&terms, &confounder, &vec![0xff; len]);
                    compare(&terms, &confounder, &counting(len));
                }
            }
        }
    }
}

/// Every bit of the key, the confounder and the data reaches the message.
#[test]
fn messages_of_every_single_bit_are_the_references() {
    for export in [false, true] {
        for bit in 0..8 * (16 + 8 + 40) {
            let mut octets = [0; 16 + 8 + 40];
            octets[bit / 8] = 1 << (bit % 8);
            let terms = Terms {
                key: octets[..16].try_into().unwrap(),
                export,
                usage: 7,
            };
            compare(&terms, &octets[16..24].try_into().unwrap(), &octets[24..]);
        }
    }
}

/// What stands where the checksum and the confounder go is not looked at.
#[test]
fn the_octets_before_the_data_do_not_reach_the_message() {
    let mut inputs = Inputs::new(63);
    for terms in Terms::all(&mut inputs) {
        let (confounder, data) = (inputs.array(), inputs.octets(40));
        let message = terms.encrypt(&confounder, &data);
        for before in [[0x00; HEADER], [0xff; HEADER], inputs.array()] {
            let outcome =
                calls::encrypt(&terms, &confounder, &[&before, &data[..]].concat(), 0, 40);
            assert_eq!((outcome.number, outcome.len), (0, 64));
            must_be_octets(&outcome.buf, &message, terms.name());
        }
    }
}

#[test]
fn an_empty_message_is_24_octets_and_comes_back_empty() {
    let mut inputs = Inputs::new(64);
    for terms in Terms::all(&mut inputs) {
        let confounder = inputs.array();
        let sealed = calls::encrypt(&terms, &confounder, &[0; 24], 0, 0);
        assert_eq!((sealed.number, sealed.len), (0, 24), "{:?}", terms.name());
        let message = terms.encrypt(&confounder, &[]);
        must_be_octets(&sealed.buf, &message, terms.name());

        let opened = calls::decrypt(&terms, &message, 0, 24);
        assert_eq!((opened.number, opened.len), (0, 0), "{:?}", terms.name());
        must_be_octets(&opened.buf[..16], &message[..16], terms.name());
        must_be_octets(&opened.buf[16..], &confounder, terms.name());
    }
}

#[test]
fn any_number_but_0_asks_for_export_strength() {
    let mut inputs = Inputs::new(65);
    let (key, confounder, data) = (inputs.array(), inputs.array(), inputs.octets(40));
    let buf = [&[0; HEADER], &data[..]].concat();
    for export_strength in [0, 1, 2, 3, 7, 8, 128, 255, 256, 65_536, 1 << 31, u32::MAX] {
        let export = export_strength != 0;
        for usage in [1, 9, 15] {
            let terms = Terms { key, export, usage };
            let message = terms.encrypt(&confounder, &data);
            let what = (export_strength, usage);

            let sealed = calls::encrypt_with(export_strength, &terms, &confounder, &buf, 0, 40);
            assert_eq!((sealed.number, sealed.len), (0, 64), "{what:?}");
            must_be_octets(&sealed.buf, &message, what);

            let opened = calls::decrypt_with(export_strength, &terms, &message, 0, 64);
            assert_eq!((opened.number, opened.len), (0, 40), "{what:?}");
            must_be_octets(&opened.buf[16..24], &confounder, what);
            must_be_octets(&opened.buf[24..], &data, what);
        }
    }
}

#[test]
fn messages_take_a_key_and_a_confounder_that_share_octets() {
    let octets: [u8; 20] = Inputs::new(66).array();
    for key_start in 0..=4 {
        for start in 0..=12 {
            let key: &[u8; 16] = octets[key_start..][..16].try_into().unwrap();
            let confounder: &[u8; 8] = octets[start..][..8].try_into().unwrap();
            let mut buf = [&[0; HEADER], &b"a record"[..]].concat();
            let usage = Usage::KRB_PRIV_ENCRYPTED_PART;
            let written = rc4hmac::encrypt(key, Strength::Full, usage, confounder, &mut buf, 0, 8);
            assert_eq!(written, Ok(32));

            let terms = Terms {
                key: *key,
                export: false,
                usage: 13,
            };
            let message = terms.encrypt(confounder, b"a record");
            must_be_octets(&buf, &message, (key_start, start));
        }
    }
}
