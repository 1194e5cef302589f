//! What the library does to the areas lent to it and to the octets around
//! them: alignment, guard octets, unmapped pages, empty areas, threads.

use std::thread;

use rc4hmac::raw;
use support::areas::{empty_pointers, Guarded, Walled, SIDES};
use support::Inputs;

type RawDigest = unsafe extern "C" fn(*const u8, usize, *mut [u8; 16]) -> u32;
type Digest = fn(&[u8]) -> [u8; 16];

const DIGESTS: [(RawDigest, Digest); 2] = [
    (raw::rc4hmac_md4, reference::md4),
    (raw::rc4hmac_md5, reference::md5),
];

/// Lengths below, at and over a block, with and without a block of padding.
const LENS: [usize; 12] = [0, 1, 3, 16, 55, 56, 63, 64, 65, 127, 128, 1000];

#[test]
fn digests_at_every_alignment_are_right_and_no_octet_beside_them_changes() {
    let mut inputs = Inputs::new(41);
    for (function, reference) in DIGESTS {
        for alignment in 0..16 {
            for len in LENS {
                let mut data = Guarded::new(&mut inputs, len, alignment);
                let mut digest = Guarded::new(&mut inputs, 16, (alignment * 7 + len) % 16);
                let data_after = data.octets.clone();
                let digest_after = digest.with(&reference(data.lent()));

                // SAFETY: two separate vectors with room for the lengths.
                let answer = unsafe { function(data.ptr(), len, digest.ptr().cast()) };
                assert_eq!(answer, 0);
                assert!(data.octets == data_after, "{alignment}, {len}");
                assert!(digest.octets == digest_after, "{alignment}, {len}");
            }
        }
    }
}

#[test]
fn hmac_md5_at_every_alignment_is_right_and_no_octet_beside_it_changes() {
    let mut inputs = Inputs::new(42);
    for alignment in 0..16 {
        for key_len in LENS {
            for text_len in LENS {
                let mut key = Guarded::new(&mut inputs, key_len, alignment);
                let mut text = Guarded::new(&mut inputs, text_len, (alignment * 3 + 1) % 16);
                let mut digest = Guarded::new(&mut inputs, 16, (alignment * 5 + 2) % 16);
                let (key_after, text_after) = (key.octets.clone(), text.octets.clone());
                let digest_after = digest.with(&reference::hmac_md5(key.lent(), text.lent()));

                // SAFETY: three separate vectors with room for the lengths.
                let answer = unsafe {
                    raw::rc4hmac_hmac_md5(
                        key.ptr(),
                        key_len,
                        text.ptr(),
                        text_len,
                        digest.ptr().cast(),
                    )
                };
                assert_eq!(answer, 0);
                let lens = (alignment, key_len, text_len);
                assert!(key.octets == key_after, "{lens:?}");
                assert!(text.octets == text_after, "{lens:?}");
                assert!(digest.octets == digest_after, "{lens:?}");
            }
        }
    }
}

#[test]
fn rc4_at_every_alignment_is_right_and_no_octet_beside_it_changes() {
    let mut inputs = Inputs::new(43);
    for alignment in 0..16 {
        for key_len in [1, 5, 16, 255, 256] {
            for data_len in LENS {
                let mut key = Guarded::new(&mut inputs, key_len, (alignment * 3 + 1) % 16);
                let mut data = Guarded::new(&mut inputs, data_len, alignment);
                let key_after = key.octets.clone();
                let data_after = data.with(&reference::rc4(key.lent(), data.lent()));

                // SAFETY: two separate vectors with room for the lengths.
                let answer = unsafe { raw::rc4hmac_rc4(key.ptr(), key_len, data.ptr(), data_len) };
                assert_eq!(answer, 0);
                let lens = (alignment, key_len, data_len);
                assert!(key.octets == key_after, "{lens:?}");
                assert!(data.octets == data_after, "{lens:?}");
            }
        }
    }
}

#[test]
fn refusals_change_no_octet_beside_the_lent_areas() {
    let mut inputs = Inputs::new(44);
    for alignment in 0..16 {
        let mut long = Guarded::new(&mut inputs, 65_537, alignment);
        let mut short = Guarded::new(&mut inputs, 16, alignment);
        let mut digest = Guarded::new(&mut inputs, 16, alignment);
        let (long_after, short_after) = (long.octets.clone(), short.octets.clone());
        let digest_before = digest.octets.clone();
        let digest_after = digest.with(&[0; 16]);

        for (function, _) in DIGESTS {
            digest.octets.copy_from_slice(&digest_before);
            // SAFETY: separate vectors with room for the lengths, here and below.
            let answer = unsafe { function(long.ptr(), 65_537, digest.ptr().cast()) };
            assert_eq!(answer, 1);
            assert!(digest.octets == digest_after, "{alignment}");
        }

        let (long_ptr, short_ptr) = (long.ptr(), short.ptr());
        for (key, key_len, text, text_len) in [
            (long_ptr, 65_537, short_ptr, 16),
            (short_ptr, 16, long_ptr, 65_473),
        ] {
            digest.octets.copy_from_slice(&digest_before);
            let digest_ptr = digest.ptr().cast();
            let answer = unsafe { raw::rc4hmac_hmac_md5(key, key_len, text, text_len, digest_ptr) };
            assert_eq!(answer, 1);
            assert!(digest.octets == digest_after, "{alignment}");
        }

        for (key, key_len, data, data_len) in [
            (short_ptr, 0, long_ptr, 65_536),
            (short_ptr, 16, long_ptr, 65_537),
            (long_ptr, 257, short_ptr, 16),
        ] {
            let answer = unsafe { raw::rc4hmac_rc4(key, key_len, data, data_len) };
            assert_eq!(answer, 1);
        }
        assert!(long.octets == long_after, "{alignment}");
        assert!(short.octets == short_after, "{alignment}");
    }
}

#[test]
fn digests_of_empty_data_are_right_whatever_the_pointer() {
    for (function, reference) in DIGESTS {
        for empty in empty_pointers() {
            let mut digest = [0xa5; 16];
            // SAFETY: with length 0 any pointer will do.
            let answer = unsafe { function(empty, 0, &mut digest) };
            assert_eq!((answer, digest), (0, reference(&[])), "{empty:?}");
        }
    }
}

#[test]
fn hmac_md5_with_an_empty_key_or_text_is_right_whatever_the_pointer() {
    let octets = Inputs::new(45).octets(100);
    for empty in empty_pointers() {
        for (key, key_len, text, text_len) in [
            (empty.cast_const(), 0, octets.as_ptr(), octets.len()),
            (octets.as_ptr(), octets.len(), empty.cast_const(), 0),
            (empty.cast_const(), 0, empty.cast_const(), 0),
        ] {
            let mut digest = [0xa5; 16];
            // SAFETY: with length 0 any pointer will do.
            let answer =
                unsafe { raw::rc4hmac_hmac_md5(key, key_len, text, text_len, &mut digest) };
            let expected = reference::hmac_md5(&octets[..key_len], &octets[..text_len]);
            assert_eq!((answer, digest), (0, expected), "{empty:?}");
        }
    }
}

#[test]
fn rc4_with_empty_data_is_done_and_with_an_empty_key_refused_whatever_the_pointer() {
    for empty in empty_pointers() {
        let mut octets = *b"sixteen octets..";
        // SAFETY: with length 0 any pointer will do.
        unsafe {
            assert_eq!(raw::rc4hmac_rc4(octets.as_ptr(), 16, empty, 0), 0);
            assert_eq!(raw::rc4hmac_rc4(empty, 0, octets.as_mut_ptr(), 16), 1);
            assert_eq!(raw::rc4hmac_rc4(empty, 0, empty, 0), 1);
        }
        assert_eq!(&octets, b"sixteen octets..", "{empty:?}");
    }
}

#[test]
fn digests_reach_no_octet_outside_the_lent_data_and_the_digest() {
    let mut inputs = Inputs::new(46);
    let (mut data_map, mut digest_map) = (Walled::new(65_536), Walled::new(4096));
    for (function, reference) in DIGESTS {
        for side in SIDES {
            for len in (0..=200).chain([4095, 4096, 4097, 65_535, 65_536]) {
                let data = side(&mut data_map, len);
                data.copy_from_slice(&inputs.octets(len));
                let digest = side(&mut digest_map, 16);
                // SAFETY: two separate mappings with room for the lengths.
                let answer = unsafe { function(data.as_ptr(), len, digest.as_mut_ptr().cast()) };
                assert_eq!(answer, 0);
                assert_eq!(digest, reference(data), "{len}");
            }
        }
    }
}

#[test]
fn hmac_md5_reaches_no_octet_outside_the_key_and_the_text() {
    let mut inputs = Inputs::new(47);
    let (mut key_map, mut text_map) = (Walled::new(65_536), Walled::new(65_536));
    for side in SIDES {
        for (key_len, text_len) in (0..=130)
            .map(|len| (len, 130 - len))
            .chain([(65_536, 65_472), (4096, 4096)])
        {
            let (key, text) = (side(&mut key_map, key_len), side(&mut text_map, text_len));
            key.copy_from_slice(&inputs.octets(key_len));
            text.copy_from_slice(&inputs.octets(text_len));
            let expected = reference::hmac_md5(key, text);
            assert_eq!(rc4hmac::hmac_md5(key, text), Ok(expected));
        }
    }
}

#[test]
fn rc4_reaches_no_octet_outside_the_key_and_the_data() {
    let mut inputs = Inputs::new(48);
    let (mut key_map, mut data_map) = (Walled::new(4096), Walled::new(65_536));
    for side in SIDES {
        for (key_len, data_len) in
            (1..=256)
                .map(|len| (len, 256 - len))
                .chain([(16, 4096), (16, 65_535), (256, 65_536)])
        {
            let (key, data) = (side(&mut key_map, key_len), side(&mut data_map, data_len));
            key.copy_from_slice(&inputs.octets(key_len));
            data.copy_from_slice(&inputs.octets(data_len));
            let expected = reference::rc4(key, data);
            assert_eq!(rc4hmac::rc4(key, data), Ok(()));
            assert!(data == expected, "{key_len}, {data_len}");
        }
    }
}

#[test]
fn calls_in_several_threads_at_once_do_not_disturb_each_other() {
    thread::scope(|scope| {
        for number in 0..4 {
            scope.spawn(move || {
                let mut inputs = Inputs::new(50 + number);
                let (key, data) = (inputs.octets(100), inputs.octets(5000));
                let md4 = reference::md4(&data);
                let md5 = reference::md5(&data);
                let hmac_md5 = reference::hmac_md5(&key, &data);
                let rc4 = reference::rc4(&key, &data);
                for _ in 0..300 {
                    assert_eq!(rc4hmac::md4(&data), Ok(md4));
                    assert_eq!(rc4hmac::md5(&data), Ok(md5));
                    assert_eq!(rc4hmac::hmac_md5(&key, &data), Ok(hmac_md5));
                    let mut combined = data.clone();
                    assert_eq!(rc4hmac::rc4(&key, &mut combined), Ok(()));
                    assert!(combined == rc4);
                }
            });
        }
    });
}
