//! HMAC-MD5, compared with the reference implementation.

use support::{counting, Inputs};

fn compare(key: &[u8], text: &[u8]) {
    assert_eq!(
        rc4hmac::hmac_md5(key, text),
        Ok(reference::hmac_md5(key, text)),
        "key of {} octets, text of {}",
        key.len(),
        text.len()
    );
}

#[test]
fn hmac_md5_under_every_key_length_to_130_is_the_references() {
    let mut inputs = Inputs::new(11);
    for key_len in 0..=130 {
        for text_len in [
            0, 1, 8, 16, 20, 55, 56, 57, 63, 64, 65, 119, 120, 121, 128, 300,
        ] {
            compare(&inputs.octets(key_len), &inputs.octets(text_len));
        }
    }
}

#[test]
fn hmac_md5_of_every_text_length_to_300_is_the_references() {
    let mut inputs = Inputs::new(12);
    for text_len in 0..=300 {
        for key_len in [0, 1, 16, 63, 64, 65] {
            compare(&inputs.octets(key_len), &inputs.octets(text_len));
        }
    }
}

#[test]
fn hmac_md5_with_long_keys_and_long_texts_is_the_references() {
    let mut inputs = Inputs::new(13);
    for _ in 0..100 {
        let key_len = inputs.number(131, 65_536);
        let text_len = inputs.number(301, 65_472);
        compare(&inputs.octets(key_len), &inputs.octets(16));
        compare(&inputs.octets(16), &inputs.octets(text_len));
        compare(&inputs.octets(key_len), &inputs.octets(text_len));
    }
}

#[test]
fn hmac_md5_of_zeros_ones_and_counting_octets_is_the_references() {
    for (key_len, text_len) in [(0, 0), (16, 16), (64, 55), (64, 56), (65, 64), (100, 1000)] {
        let kinds = |len| [vec![0x00; len], vec![0xff; len], counting(len)];
        for key in kinds(key_len) {
            for text in kinds(text_len) {
                compare(&key, &text);
            }
        }
    }
}

#[test]
fn hmac_md5_under_a_long_key_is_that_under_the_keys_digest() {
    let mut inputs = Inputs::new(14);
    for key_len in [65, 66, 128, 1000, 65_536] {
        let (key, text) = (inputs.octets(key_len), inputs.octets(40));
        let digest = rc4hmac::md5(&key).unwrap();
        assert_eq!(
            rc4hmac::hmac_md5(&key, &text),
            rc4hmac::hmac_md5(&digest, &text)
        );
    }
}

#[test]
fn hmac_md5_takes_a_key_and_a_text_that_share_octets() {
    let octets = Inputs::new(15).octets(400);
    compare(&octets, &octets);
    compare(&octets[..16], &octets);
    compare(&octets, &octets[..16]);
    compare(&octets[100..164], &octets[150..]);
    compare(&octets[100..300], &octets[..101]);
    compare(&octets[100..100], &octets);
}
