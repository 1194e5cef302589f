//! Every limit of the digests', HMAC's and RC4's lengths from both sides, and
//! what a refusal leaves.

use rc4hmac::{limits, raw, Refusal};
use support::Inputs;

/// What digest areas hold before a call.
const BEFORE: [u8; 16] = [0xa5; 16];
const ZEROS: [u8; 16] = [0; 16];

/// Over every limit, by one octet to many.
const OVER: [usize; 6] = [65_537, 65_538, 65_600, 131_072, 131_088, 1_000_000];

type RawDigest = unsafe extern "C" fn(*const u8, usize, *mut [u8; 16]) -> u32;

fn raw_digest(function: RawDigest, data: &[u8]) -> (u32, [u8; 16]) {
    let mut digest = BEFORE;
    // SAFETY: a slice and a digest of its own.
    let answer = unsafe { function(data.as_ptr(), data.len(), &mut digest) };
    (answer, digest)
}

fn raw_hmac_md5(key: &[u8], text: &[u8]) -> (u32, [u8; 16]) {
    let mut digest = BEFORE;
    // SAFETY: the tests lend slices that do not overlap and a digest of its own.
    let answer = unsafe {
        raw::rc4hmac_hmac_md5(
            key.as_ptr(),
            key.len(),
            text.as_ptr(),
            text.len(),
            &mut digest,
        )
    };
    (answer, digest)
}

fn raw_rc4(key: &[u8], data: &mut [u8]) -> u32 {
    // SAFETY: both are slices, `data` is borrowed alone.
    unsafe { raw::rc4hmac_rc4(key.as_ptr(), key.len(), data.as_mut_ptr(), data.len()) }
}

fn check_hmac_refused(key: &[u8], text: &[u8]) {
    let lens = (key.len(), text.len());
    let (key_before, text_before) = (key.to_vec(), text.to_vec());
    assert_eq!(
        rc4hmac::hmac_md5(key, text),
        Err(Refusal::Length),
        "{lens:?}"
    );
    assert_eq!(raw_hmac_md5(key, text), (1, ZEROS), "{lens:?}");
    assert!(key == key_before && text == text_before, "{lens:?}");
}

fn check_rc4_refused(key: &[u8], data: &mut [u8]) {
    let lens = (key.len(), data.len());
    let (key_before, data_before) = (key.to_vec(), data.to_vec());
    assert_eq!(rc4hmac::rc4(key, data), Err(Refusal::Length), "{lens:?}");
    assert!(key == key_before && data == data_before, "{lens:?}");
    assert_eq!(raw_rc4(key, data), 1, "{lens:?}");
    assert!(key == key_before && data == data_before, "{lens:?}");
}

fn check_digest_limits(
    library: fn(&[u8]) -> Result<[u8; 16], Refusal>,
    function: RawDigest,
    reference: fn(&[u8]) -> [u8; 16],
) {
    let data = Inputs::new(31).octets(1_000_000);
    for len in [65_535, 65_536] {
        let expected = reference(&data[..len]);
        assert_eq!(library(&data[..len]), Ok(expected), "{len}");
        assert_eq!(raw_digest(function, &data[..len]), (0, expected), "{len}");
    }
    for len in OVER {
        assert_eq!(library(&data[..len]), Err(Refusal::Length), "{len}");
        assert_eq!(raw_digest(function, &data[..len]), (1, ZEROS), "{len}");
    }
    assert!(data == Inputs::new(31).octets(1_000_000));
}

#[test]
fn the_named_limits_are_those_tested() {
    assert_eq!(limits::DIGEST_DATA_MAX, 65_536);
    assert_eq!(limits::HMAC_KEY_MAX, 65_536);
    assert_eq!(limits::HMAC_TEXT_MAX, 65_472);
    assert_eq!(limits::RC4_KEY_MIN, 1);
    assert_eq!(limits::RC4_KEY_MAX, 256);
    assert_eq!(limits::RC4_DATA_MAX, 65_536);
    assert_eq!(limits::PASSWORD_UNITS_MAX, 256);
    assert_eq!(limits::MESSAGE_MAX, 32_768);
    assert_eq!(limits::ENCRYPTED_MIN, 24);
    assert_eq!(limits::ENCRYPTED_MAX, 32_792);
}

#[test]
fn md4_takes_65_536_octets_and_refuses_more_with_a_digest_of_zeros() {
    check_digest_limits(rc4hmac::md4, raw::rc4hmac_md4, reference::md4);
}

#[test]
fn md5_takes_65_536_octets_and_refuses_more_with_a_digest_of_zeros() {
    check_digest_limits(rc4hmac::md5, raw::rc4hmac_md5, reference::md5);
}

#[test]
fn hmac_md5_takes_the_longest_key_and_the_longest_text() {
    let mut inputs = Inputs::new(32);
    for (key_len, text_len) in [
        (65_535, 16),
        (65_536, 16),
        (65_536, 0),
        (16, 65_471),
        (16, 65_472),
        (0, 65_472),
        (65_536, 65_472),
    ] {
        let (key, text) = (inputs.octets(key_len), inputs.octets(text_len));
        let expected = reference::hmac_md5(&key, &text);
        let lens = (key_len, text_len);
        assert_eq!(rc4hmac::hmac_md5(&key, &text), Ok(expected), "{lens:?}");
        assert_eq!(raw_hmac_md5(&key, &text), (0, expected), "{lens:?}");
    }
}

#[test]
fn hmac_md5_refuses_a_longer_key_with_a_digest_of_zeros() {
    let mut inputs = Inputs::new(33);
    for key_len in OVER {
        for text_len in [0, 16, 65_472] {
            check_hmac_refused(&inputs.octets(key_len), &inputs.octets(text_len));
        }
    }
}

#[test]
fn hmac_md5_refuses_a_longer_text_with_a_digest_of_zeros() {
    let mut inputs = Inputs::new(34);
    for text_len in [65_473, 65_474, 65_535, 65_536].into_iter().chain(OVER) {
        for key_len in [0, 16, 64, 65, 65_536] {
            check_hmac_refused(&inputs.octets(key_len), &inputs.octets(text_len));
        }
    }
}

#[test]
fn hmac_md5_refuses_a_longer_key_beside_a_longer_text() {
    let mut inputs = Inputs::new(35);
    for (key_len, text_len) in [(65_537, 65_473), (1_000_000, 1_000_000)] {
        check_hmac_refused(&inputs.octets(key_len), &inputs.octets(text_len));
    }
}

#[test]
fn rc4_takes_the_shortest_and_the_longest_key_and_the_longest_data() {
    let mut inputs = Inputs::new(36);
    for key_len in [1, 2, 255, 256] {
        for data_len in [0, 1, 65_535, 65_536] {
            let (key, mut data) = (inputs.octets(key_len), inputs.octets(data_len));
            let expected = reference::rc4(&key, &data);
            let lens = (key_len, data_len);
            let before = data.clone();
            assert_eq!(rc4hmac::rc4(&key, &mut data), Ok(()), "{lens:?}");
            assert!(data == expected, "{lens:?}");
            // The second call takes the keystream away again.
            assert_eq!(raw_rc4(&key, &mut data), 0, "{lens:?}");
            assert!(data == before, "{lens:?}");
        }
    }
}

#[test]
fn rc4_refuses_an_empty_key_and_leaves_the_data() {
    let mut inputs = Inputs::new(37);
    for data_len in [0, 1, 16, 300, 65_536, 65_537] {
        check_rc4_refused(&[], &mut inputs.octets(data_len));
    }
}

#[test]
fn rc4_refuses_a_longer_key_and_leaves_the_data() {
    let mut inputs = Inputs::new(38);
    for key_len in [257, 258, 511, 512, 513].into_iter().chain(OVER) {
        for data_len in [0, 1, 16, 300, 65_536] {
            check_rc4_refused(&inputs.octets(key_len), &mut inputs.octets(data_len));
        }
    }
}

#[test]
fn rc4_refuses_longer_data_and_leaves_it() {
    let mut inputs = Inputs::new(39);
    for data_len in OVER {
        for key_len in [0, 1, 16, 256, 257] {
            check_rc4_refused(&inputs.octets(key_len), &mut inputs.octets(data_len));
        }
    }
}

/// The areas are zeros that nobody touches: address space, hardly memory.
#[test]
fn lengths_that_are_within_the_limits_only_in_their_low_32_bits_are_refused() {
    for low in [0, 1, 16, 65_472] {
        let mut huge = vec![0; (1 << 32) + low];
        assert_eq!(rc4hmac::md4(&huge), Err(Refusal::Length), "{low}");
        assert_eq!(rc4hmac::md5(&huge), Err(Refusal::Length), "{low}");
        assert_eq!(raw_hmac_md5(&huge, b"text"), (1, ZEROS), "{low}");
        assert_eq!(raw_hmac_md5(b"key", &huge), (1, ZEROS), "{low}");
        let mut data = [7; 16];
        assert_eq!(raw_rc4(&huge, &mut data), 1, "{low}");
        assert_eq!(data, [7; 16], "{low}");
        assert_eq!(raw_rc4(b"key", &mut huge), 1, "{low}");
        assert!(huge[..low].iter().all(|&octet| octet == 0), "{low}");
    }
}
