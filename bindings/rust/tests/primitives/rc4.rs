//! RC4, compared with the reference implementation.

use support::{counting, Inputs};

fn compare(key: &[u8], data: &[u8]) {
    let mut combined = data.to_vec();
    assert_eq!(rc4hmac::rc4(key, &mut combined), Ok(()));
    let expected = reference::rc4(key, data);
    let differs = combined.iter().zip(&expected).position(|(a, b)| a != b);
    assert_eq!(
        differs,
        None,
        "the first wrong offset: key of {} octets, data of {}",
        key.len(),
        data.len()
    );
}

#[test]
fn rc4_under_every_key_length_from_1_to_256_is_the_references() {
    let mut inputs = Inputs::new(21);
    for key_len in 1..=256 {
        for data_len in [1, 16, 255, 256, 257, 1000] {
            compare(&inputs.octets(key_len), &inputs.octets(data_len));
        }
    }
}

#[test]
fn rc4_over_every_data_length_to_300_is_the_references() {
    let mut inputs = Inputs::new(22);
    for data_len in 0..=300 {
        for key_len in [1, 5, 16, 32, 256] {
            compare(&inputs.octets(key_len), &inputs.octets(data_len));
        }
    }
}

#[test]
fn rc4_over_long_data_is_the_references() {
    let mut inputs = Inputs::new(23);
    for _ in 0..200 {
        let key_len = inputs.number(1, 256);
        let data_len = inputs.number(301, 65_536);
        compare(&inputs.octets(key_len), &inputs.octets(data_len));
    }
    compare(&inputs.octets(16), &inputs.octets(65_536));
}

#[test]
fn rc4_under_keys_of_zeros_ones_and_counting_octets_is_the_references() {
    for key_len in [1, 2, 16, 255, 256] {
        for key in [vec![0x00; key_len], vec![0xff; key_len], counting(key_len)] {
            compare(&key, &[0x00; 2000]);
            compare(&key, &[0xff; 2000]);
            compare(&key, &counting(2000));
        }
    }
}

/// Under such a key the schedule begins by swapping an entry with itself.
#[test]
fn rc4_under_every_key_of_two_octets_that_begins_with_zero_is_the_references() {
    for second in 0..=255 {
        compare(&[0, second], &[0x00; 600]);
    }
}

#[test]
fn rc4_twice_under_one_key_gives_the_data_back() {
    let mut inputs = Inputs::new(24);
    for data_len in [16, 255, 4096, 65_536] {
        let (key, data) = (inputs.octets(16), inputs.octets(data_len));
        let mut combined = data.clone();
        rc4hmac::rc4(&key, &mut combined).unwrap();
        assert_ne!(combined, data);
        rc4hmac::rc4(&key, &mut combined).unwrap();
        assert_eq!(combined, data);
    }
}
