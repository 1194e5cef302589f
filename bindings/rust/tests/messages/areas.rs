//! What the calls for keys, checksums and encrypted messages do to the areas
//! lent to them and to the octets around them: alignment, guard octets,
//! unmapped pages, empty areas, threads.

use std::thread;

use rc4hmac::{raw, Strength, Usage};
use reference::{outcomes, Outcome, Terms, HEADER};
use support::areas::{empty_pointers, Guarded, Walled, SIDES};
use support::{must_be_octets, Inputs};

/// Lengths of data below, at and over a block of MD5.
const LENS: [usize; 9] = [0, 1, 16, 39, 40, 47, 48, 64, 1000];

/// What a call over a buffer is lent, each area between guard octets.
struct Lent {
    key: Guarded,
    confounder: Guarded,
    buf: Guarded,
    len: Guarded,
}

impl Lent {
    /// Only the length that is written has to be aligned.
    fn new(inputs: &mut Inputs, buf_len: usize, alignment: usize) -> Lent {
        Lent {
            key: Guarded::new(inputs, 16, (alignment * 3 + 1) % 16),
            confounder: Guarded::new(inputs, 8, (alignment * 5 + 2) % 16),
            buf: Guarded::new(inputs, buf_len, alignment),
            len: Guarded::new(inputs, 8, alignment / 8 * 8),
        }
    }

    fn terms(&self, export: bool, usage: u32) -> Terms {
        let key = self.key.lent().try_into().unwrap();
        Terms { key, export, usage }
    }

    /// All octets afterwards are those of the outcome, or as they were.
    #[track_caller]
    fn check(&mut self, expected: &Outcome, call: impl FnOnce(&mut Lent) -> u32) {
        let key = self.key.octets.clone();
        let confounder = self.confounder.octets.clone();
        let buf = self.buf.with(&expected.buf);
        let len = self.len.with(&expected.len.to_ne_bytes());
        assert_eq!(call(self), expected.number);
        must_be_octets(&self.key.octets, &key, "key");
        must_be_octets(&self.confounder.octets, &confounder, "confounder");
        must_be_octets(&self.buf.octets, &buf, "buffer");
        must_be_octets(&self.len.octets, &len, "length");
    }

    fn encrypt(&mut self, export: bool, usage: u32, start: usize, data_len: usize) {
        let confounder = self.confounder.lent().try_into().unwrap();
        let terms = self.terms(export, usage);
        let expected = outcomes::encrypt(&terms, confounder, self.buf.lent(), start, data_len);
        let buf_len = self.buf.lent().len();
        // SAFETY: separate vectors with room for the lengths, here and below.
        self.check(&expected, |lent| unsafe {
            raw::rc4hmac_encrypt(
                lent.key.ptr().cast(),
                export.into(),
                usage,
                lent.confounder.ptr().cast(),
                lent.buf.ptr(),
                buf_len,
                start,
                data_len,
                lent.len.ptr().cast(),
            )
        });
    }

    fn decrypt(&mut self, export: bool, usage: u32, start: usize, length: usize) {
        let terms = self.terms(export, usage);
        let expected = outcomes::decrypt(&terms, self.buf.lent(), start, length);
        let buf_len = self.buf.lent().len();
        self.check(&expected, |lent| unsafe {
            raw::rc4hmac_decrypt(
                lent.key.ptr().cast(),
                export.into(),
                usage,
                lent.buf.ptr(),
                buf_len,
                start,
                length,
                lent.len.ptr().cast(),
            )
        });
    }
}

#[test]
fn messages_at_every_alignment_are_right_and_no_octet_beside_them_changes() {
    let mut inputs = Inputs::new(141);
    for alignment in 0..16 {
        for data_len in LENS {
            for export in [false, true] {
                for (start, after) in [(0, 0), (1, 0), (0, 1), (7, 20)] {
                    let length = HEADER + data_len;
                    let mut lent = Lent::new(&mut inputs, start + length + after, alignment);
                    let plain = lent.buf.lent()[start + HEADER..][..data_len].to_vec();
                    lent.encrypt(export, 5, start, data_len);
                    lent.decrypt(export, 5, start, length);
                    let opened = &lent.buf.lent()[start + HEADER..][..data_len];
                    must_be_octets(opened, &plain, (start, data_len));
                }
            }
        }
    }
}

#[test]
fn refused_messages_change_no_octet_but_the_length() {
    let mut inputs = Inputs::new(142);
    for alignment in 0..16 {
        for export in [false, true] {
            let mut lent = Lent::new(&mut inputs, 100, alignment);
            for (usage, start, data_len) in [
                (5, 0, 32_769),
                (5, 0, usize::MAX),
                (5, 0, 77),
                (5, 77, 0),
                (5, usize::MAX - 23, 0),
                (0, 0, 76),
                (16, 10, 20),
            ] {
                lent.len.set(&inputs.array::<8>());
                lent.encrypt(export, usage, start, data_len);
            }
            for (usage, start, length) in [
                (5, 0, 23),
                (5, 0, usize::MAX),
                (5, 0, 101),
                (5, 77, 24),
                (5, usize::MAX - 23, 24),
                (0, 0, 100),
                (16, 10, 44),
                (5, 0, 100),
                (5, 76, 24),
            ] {
                lent.len.set(&inputs.array::<8>());
                lent.decrypt(export, usage, start, length);
            }
        }
    }
}

#[test]
fn password_keys_at_every_alignment_are_right_and_no_octet_beside_them_changes() {
    let mut inputs = Inputs::new(143);
    for alignment in 0..16 {
        for len in [0, 1, 2, 27, 28, 32, 255, 256, 257, 300] {
            let mut units = Guarded::new(&mut inputs, 2 * len, alignment / 2 * 2);
            let mut key = Guarded::new(&mut inputs, 16, (alignment * 7 + 3) % 16);
            let read: Vec<u16> = (units.lent().chunks_exact(2))
                .map(|unit| u16::from_ne_bytes([unit[0], unit[1]]))
                .collect();
            let expected = match len {
                0..=256 => (0, reference::password_key(&read)),
                _ => (1, [0; 16]),
            };
            let units_after = units.octets.clone();
            let key_after = key.with(&expected.1);

            // SAFETY: two separate vectors with room for the lengths.
            let number =
                unsafe { raw::rc4hmac_password_key(units.ptr().cast(), len, key.ptr().cast()) };
            assert_eq!(number, expected.0, "{len}");
            must_be_octets(&units.octets, &units_after, len);
            must_be_octets(&key.octets, &key_after, len);
        }
    }
}

#[test]
fn checksums_at_every_alignment_are_right_and_no_octet_beside_them_changes() {
    let mut inputs = Inputs::new(144);
    for alignment in 0..16 {
        for len in LENS.into_iter().chain([32_768, 32_769]) {
            for usage in [0, 9, 16] {
                let mut key = Guarded::new(&mut inputs, 16, (alignment * 3 + 1) % 16);
                let mut data = Guarded::new(&mut inputs, len, alignment);
                let mut checksum = Guarded::new(&mut inputs, 16, (alignment * 5 + 2) % 16);
                let (number, octets) = match (len, usage) {
                    (32_769, _) => (1, [0; 16]),
                    (_, 0 | 16) => (3, [0; 16]),
                    _ => {
                        let key = key.lent().try_into().unwrap();
                        (0, reference::checksum(key, usage, data.lent()))
                    }
                };
                let (key_after, data_after) = (key.octets.clone(), data.octets.clone());
                let checksum_after = checksum.with(&octets);

                // SAFETY: three separate vectors with room for the lengths.
                unsafe {
                    let (key, data, sum) = (key.ptr().cast(), data.ptr(), checksum.ptr());
                    let answer = raw::rc4hmac_checksum(key, usage, data, len, sum.cast());
                    assert_eq!(answer, number, "{usage}, {len}");
                    let answer = raw::rc4hmac_checksum_test(key, usage, data, len, sum, 16);
                    assert_eq!(answer, number, "{usage}, {len}");
                }
                must_be_octets(&key.octets, &key_after, "key");
                must_be_octets(&data.octets, &data_after, "data");
                must_be_octets(&checksum.octets, &checksum_after, "checksum");
            }
        }
    }
}

#[test]
fn empty_areas_are_taken_or_refused_whatever_the_pointer() {
    let (key, confounder) = ([7; 16], [1; 8]);
    let expected = reference::checksum(&key, 15, &[]);
    for empty in empty_pointers() {
        let mut checksum = [0xa5; 16];
        let mut lens = [0xa5; 2];
        // SAFETY: with length 0 any pointer will do.
        unsafe {
            let answer = raw::rc4hmac_checksum(&key, 15, empty, 0, &mut checksum);
            assert_eq!((answer, checksum), (0, expected), "{empty:?}");
            let sum = checksum.as_ptr();
            let answer = raw::rc4hmac_checksum_test(&key, 15, empty, 0, sum, 16);
            assert_eq!(answer, 0, "{empty:?}");
            let answer = raw::rc4hmac_checksum_test(&key, 15, empty, 0, empty, 0);
            assert_eq!(answer, 1, "{empty:?}");
            let [written, data_len] = &mut lens;
            let answer = raw::rc4hmac_encrypt(&key, 0, 15, &confounder, empty, 0, 0, 0, written);
            assert_eq!(answer, 2, "{empty:?}");
            let answer = raw::rc4hmac_decrypt(&key, 0, 15, empty, 0, 0, 24, data_len);
            assert_eq!(answer, 2, "{empty:?}");
        }
        assert_eq!(lens, [0; 2], "{empty:?}");
    }
}

#[test]
fn an_empty_password_has_its_key_whatever_the_pointer() {
    for empty in empty_pointers() {
        // Rounded to the alignment of a unit.
        let empty: *const u16 = empty.map_addr(|at| at / 2 * 2).cast();
        let mut key = [0xa5; 16];
        // SAFETY: with length 0 any pointer will do.
        let answer = unsafe { raw::rc4hmac_password_key(empty, 0, &mut key) };
        let expected = reference::password_key(&[]);
        assert!((answer, key) == (0, expected), "{empty:?}");
    }
}

#[test]
fn checksums_reach_no_octet_outside_the_key_the_data_and_the_checksum() {
    let mut inputs = Inputs::new(145);
    let mut key_map = Walled::new(4096);
    let mut data_map = Walled::new(32_768);
    let mut checksum_map = Walled::new(4096);
    let usage = Usage::AP_REQ_AUTHENTICATOR_CKSUM;
    for side in SIDES {
        for len in (0..=200).chain([4095, 4096, 4097, 32_767, 32_768]) {
            let data = side(&mut data_map, len);
            data.copy_from_slice(&inputs.octets(len));
            let key: &mut [u8; 16] = side(&mut key_map, 16).try_into().unwrap();
            *key = inputs.array();
            let expected = reference::checksum(key, 10, data);
            let checksum: &mut [u8; 16] = side(&mut checksum_map, 16).try_into().unwrap();
            // SAFETY: three separate mappings with room for the lengths.
            let answer = unsafe { raw::rc4hmac_checksum(key, 10, data.as_ptr(), len, checksum) };
            assert_eq!((answer, *checksum), (0, expected), "{len}");
            let answer = rc4hmac::checksum_test(key, usage, data, checksum);
            assert_eq!(answer, Ok(()), "{len}");
            let shorter = side(&mut checksum_map, 15);
            let answer = rc4hmac::checksum_test(key, usage, data, shorter);
            assert!(answer.is_err(), "{len}");
        }
    }
}

#[test]
fn password_keys_reach_no_octet_outside_the_units_and_the_key() {
    let mut inputs = Inputs::new(146);
    let (mut units_map, mut key_map) = (Walled::new(4096), Walled::new(4096));
    for side in SIDES {
        for len in 0..=256 {
            let octets = side(&mut units_map, 2 * len);
            octets.copy_from_slice(&inputs.octets(2 * len));
            // SAFETY: a mapping begins and ends at an even address.
            let (_, units, _) = unsafe { octets.align_to::<u16>() };
            assert_eq!(units.len(), len);
            let key: &mut [u8; 16] = side(&mut key_map, 16).try_into().unwrap();
            // SAFETY: two separate mappings with room for the lengths.
            let answer = unsafe { raw::rc4hmac_password_key(units.as_ptr(), len, key) };
            let expected = reference::password_key(units);
            assert!((answer, *key) == (0, expected), "{len}");
        }
    }
}

#[test]
fn messages_reach_no_octet_outside_the_key_the_confounder_and_the_buffer() {
    let mut inputs = Inputs::new(147);
    let mut key_map = Walled::new(4096);
    let mut confounder_map = Walled::new(4096);
    let mut buf_map = Walled::new(36_864);
    let usage = Usage::AP_REP_ENCRYPTED_PART;
    for side in SIDES {
        for (export, strength) in [(false, Strength::Full), (true, Strength::Export)] {
            for data_len in (0..=100).chain([4072, 4073, 32_767, 32_768]) {
                let key: &mut [u8; 16] = side(&mut key_map, 16).try_into().unwrap();
                *key = inputs.array();
                let confounder: &mut [u8; 8] = side(&mut confounder_map, 8).try_into().unwrap();
                *confounder = inputs.array();
                let length = HEADER + data_len;
                let buf = side(&mut buf_map, length);
                buf.copy_from_slice(&inputs.octets(length));
                let terms = Terms {
                    key: *key,
                    export,
                    usage: 12,
                };
                let message = terms.encrypt(confounder, &buf[HEADER..]);

                let answer = rc4hmac::encrypt(key, strength, usage, confounder, buf, 0, data_len);
                assert_eq!(answer, Ok(length));
                must_be_octets(buf, &message, data_len);
                let answer = rc4hmac::decrypt(key, strength, usage, buf, 0, length);
                assert_eq!(answer, Ok(data_len));
            }
        }
    }
}

#[test]
fn calls_in_several_threads_at_once_do_not_disturb_each_other() {
    thread::scope(|scope| {
        for number in 0..4 {
            scope.spawn(move || {
                let mut inputs = Inputs::new(150 + number);
                let (key, confounder) = (inputs.array(), inputs.array());
                let (plain, units) = (inputs.octets(HEADER + 2000), inputs.units(200));
                let terms = Terms {
                    key,
                    export: true,
                    usage: 14,
                };
                let message = terms.encrypt(&confounder, &plain[HEADER..]);
                let password_key = reference::password_key(&units);
                let checksum = reference::checksum(&key, 14, &plain);
                let (usage, strength) = (Usage::KRB_CRED_ENCRYPTED_PART, Strength::Export);
                for _ in 0..300 {
                    assert!(rc4hmac::password_key(&units) == Ok(password_key));
                    assert_eq!(rc4hmac::checksum(&key, usage, &plain), Ok(checksum));
                    let mut buf = plain.clone();
                    let answer =
                        rc4hmac::encrypt(&key, strength, usage, &confounder, &mut buf, 0, 2000);
                    assert_eq!(answer, Ok(2024));
                    assert!(buf == message);
                    let answer = rc4hmac::decrypt(&key, strength, usage, &mut buf, 0, 2024);
                    assert_eq!(answer, Ok(2000));
                    assert!(buf[HEADER..] == plain[HEADER..]);
                }
            });
        }
    });
}
