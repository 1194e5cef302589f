//! Keyed checksums, compared with the reference implementation, and their test.

use rc4hmac::{Refusal, Usage};
use reference::{message_type, USAGES};
use support::{calls, counting, Inputs};

fn compare(key: &[u8; 16], usage: u32, data: &[u8]) {
    let expected = reference::checksum(key, usage, data);
    let what = (usage, data.len());
    let name = Usage::new(usage).unwrap();
    assert_eq!(rc4hmac::checksum(key, name, data), Ok(expected), "{what:?}");
    assert_eq!(calls::checksum(key, usage, data), (0, expected), "{what:?}");
    let answer = rc4hmac::checksum_test(key, name, data, &expected);
    assert_eq!(answer, Ok(()), "{what:?}");
    let answer = calls::checksum_test(key, usage, data, &expected);
    assert_eq!(answer, 0, "{what:?}");
}

#[test]
fn checksums_of_every_usage_and_length_to_300_are_the_references() {
    let mut inputs = Inputs::new(101);
    for usage in USAGES {
        for len in 0..=300 {
            compare(&inputs.array(), usage, &inputs.octets(len));
        }
    }
}

#[test]
fn checksums_of_long_data_are_the_references() {
    let mut inputs = Inputs::new(102);
    for usage in USAGES {
        for len in [32_763, 32_764, 32_767, 32_768] {
            compare(&inputs.array(), usage, &inputs.octets(len));
        }
        for _ in 0..4 {
            let len = inputs.number(301, 32_766);
            compare(&inputs.array(), usage, &inputs.octets(len));
        }
    }
}

#[test]
fn checksums_of_zeros_ones_and_counting_octets_are_the_references() {
    for key in [[0x00; 16], [0xff; 16], [0x5c; 16], [0x36; 16]] {
        for len in [0, 1, 51, 52, 59, 60, 64, 1000] {
            compare(&key, 15, &vec![0x00; len]);
            compare(&key, 15, &vec![0xff; len]);
            compare(&key, 15, &counting(len));
        }
    }
}

#[test]
fn every_bit_of_the_key_and_the_data_reaches_the_checksum() {
    for bit in 0..8 * (16 + 20) {
        let mut octets = [0; 16 + 20];
        octets[bit / 8] = 1 << (bit % 8);
        compare(&octets[..16].try_into().unwrap(), 6, &octets[16..]);
    }
}

#[test]
fn every_damaged_bit_of_a_checksum_is_found() {
    let mut inputs = Inputs::new(103);
    for usage in USAGES {
        let (key, data): ([u8; 16], _) = (inputs.array(), inputs.octets(30));
        let checksum = reference::checksum(&key, usage, &data);
        assert_eq!(calls::checksum_test(&key, usage, &data, &checksum), 0);
        for bit in 0..128 {
            let mut damaged = checksum;
            damaged[bit / 8] ^= 1 << (bit % 8);
            let answer = calls::checksum_test(&key, usage, &data, &damaged);
            assert_eq!(answer, 6, "{usage}, {bit}");
            let name = Usage::new(usage).unwrap();
            let answer = rc4hmac::checksum_test(&key, name, &data, &damaged);
            assert_eq!(answer, Err(Refusal::Checksum), "{usage}, {bit}");
        }
        for other in [[0x00; 16], [0xff; 16], inputs.array()] {
            assert_eq!(calls::checksum_test(&key, usage, &data, &other), 6);
        }
    }
}

#[test]
fn every_damaged_bit_of_the_data_and_the_key_is_found() {
    let mut inputs = Inputs::new(104);
    let (key, data): ([u8; 16], _) = (inputs.array(), inputs.octets(70));
    let checksum = reference::checksum(&key, 10, &data);
    assert_eq!(calls::checksum_test(&key, 10, &data, &checksum), 0);
    for bit in 0..8 * data.len() {
        let mut damaged = data.clone();
        damaged[bit / 8] ^= 1 << (bit % 8);
        let answer = calls::checksum_test(&key, 10, &damaged, &checksum);
        assert_eq!(answer, 6, "{bit}");
    }
    for bit in 0..128 {
        let mut wrong = key;
        wrong[bit / 8] ^= 1 << (bit % 8);
        let answer = calls::checksum_test(&wrong, 10, &data, &checksum);
        assert_eq!(answer, 6, "{bit}");
    }
    for len in 0..data.len() {
        let answer = calls::checksum_test(&key, 10, &data[..len], &checksum);
        assert_eq!(answer, 6, "{len}");
    }
}

#[test]
fn a_usage_passes_the_checksums_of_its_own_message_type_and_no_other() {
    let mut inputs = Inputs::new(105);
    let (key, data) = (inputs.array(), inputs.octets(30));
    for maker in USAGES {
        let (number, checksum) = calls::checksum(&key, maker, &data);
        assert_eq!(number, 0);
        for tester in USAGES {
            let same = message_type(maker) == message_type(tester);
            let answer = calls::checksum_test(&key, tester, &data, &checksum);
            assert_eq!(answer, if same { 0 } else { 6 }, "{maker}, {tester}");
        }
    }
}

#[test]
fn a_checksum_of_another_length_is_refused_with_1() {
    let mut inputs = Inputs::new(106);
    let (key, data) = (inputs.array(), inputs.octets(30));
    let checksum = reference::checksum(&key, 15, &data);
    // The right octets first: only the length is wrong.
    let longer = [&checksum[..], &inputs.octets(300)].concat();
    for len in (0..=40).chain([255, 256, 272, 316]) {
        let answer = calls::checksum_test(&key, 15, &data, &longer[..len]);
        assert_eq!(answer, if len == 16 { 0 } else { 1 }, "{len}");
        let name = Usage::KRB_SAFE_CKSUM;
        let answer = rc4hmac::checksum_test(&key, name, &data, &longer[..len]);
        let expected = if len == 16 {
            Ok(())
        } else {
            Err(Refusal::Length)
        };
        assert_eq!(answer, expected, "{len}");
    }
}

#[test]
fn checksums_take_a_key_data_and_a_checksum_that_share_octets() {
    let octets = Inputs::new(107).octets(100);
    let usage = Usage::KRB_SAFE_CKSUM;
    for key_start in [0, 10, 40, 84] {
        let key: &[u8; 16] = octets[key_start..][..16].try_into().unwrap();
        for data in [
            &octets[..],
            &octets[key_start..],
            &octets[..50],
            &octets[20..20],
        ] {
            let expected = reference::checksum(key, 15, data);
            assert_eq!(rc4hmac::checksum(key, usage, data), Ok(expected));
            let answer = rc4hmac::checksum_test(key, usage, data, &expected);
            assert_eq!(answer, Ok(()));
            for checksum in [key, &octets[..16], &octets[key_start / 2..][..16]] {
                let answer = rc4hmac::checksum_test(key, usage, data, checksum);
                assert_eq!(answer, Err(Refusal::Checksum));
            }
            let answer = rc4hmac::checksum_test(key, usage, data, &octets);
            assert_eq!(answer, Err(Refusal::Length));
        }
    }
}
