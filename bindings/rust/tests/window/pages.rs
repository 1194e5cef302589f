//! The window calls over areas between unmapped pages, areas for reading only
//! and empty ones, and in several threads.

use std::thread;

use rc4hmac::{raw, Window};
use reference::{window, Clerk, Receipt, TokenTerms, Words, Wrap};
use support::areas::{empty_pointers, Side, Walled, SIDES};
use support::calls::{context, Flags};
use support::programs::{FORMS, FRAMED};
use support::{AllTerms, Inputs, MustBe, RandomWrap};

fn octets_of(words: Words) -> Vec<u8> {
    words.map(u64::to_ne_bytes).concat()
}

#[test]
fn empty_areas_are_taken_or_refused_whatever_the_pointer() {
    let [terms, ..] = TokenTerms::all(&mut Inputs::new(462));
    for (form, empty) in FORMS
        .into_iter()
        .flat_map(|form| empty_pointers().map(|empty| (form, empty)))
    {
        let token = form.form(&terms.mic(5, &[]));
        let len = token.len();
        let mut words = [5, 0, 0, 0];
        let ([mut sequence, mut sealed, mut status], mut message_len) = ([9; 3], 9);
        // SAFETY: with length 0 any pointer will do.
        unsafe {
            let (key, at) = (&terms.key, token.as_ptr());
            let answer = (form.receive.mic)(
                &mut words,
                key,
                0,
                0,
                empty,
                0,
                at,
                len,
                0,
                len,
                &mut sequence,
                &mut status,
            );
            assert_eq!((answer, sequence, status), (0, 5, 1), "{empty:?}");
            let answer = (form.receive.mic)(
                &mut words,
                key,
                0,
                0,
                empty,
                0,
                empty,
                0,
                0,
                len,
                &mut sequence,
                &mut status,
            );
            assert_eq!((answer, sequence, status), (2, 0, 0), "{empty:?}");
            status = 9;
            let answer = (form.receive.wrap)(
                &mut words,
                key,
                0,
                0,
                empty,
                0,
                0,
                form.wrap_len(0),
                &mut sequence,
                &mut sealed,
                &mut message_len,
                &mut status,
            );
            assert_eq!((answer, sequence, status), (2, 0, 0), "{empty:?}");
        }
        assert_eq!((sealed, message_len), (0, 0), "{empty:?}");
        assert_eq!(words, [5, 1, 1, 1], "{empty:?}");
    }
}

/// The words at one side of a mapping.
fn walled(side: Side, map: &mut Walled, words: Words) -> *mut Words {
    let area = side(map, 32);
    area.copy_from_slice(&octets_of(words));
    area.as_mut_ptr().cast()
}

#[test]
fn no_octet_outside_a_window_is_reached() {
    let mut inputs = Inputs::new(463);
    let mut map = Walled::new(4096);
    let [terms, ..] = TokenTerms::all(&mut inputs);
    for side in SIDES {
        for turn in 0..1_000 {
            let form = FORMS[turn % 2];
            let before = inputs.words();
            let sequence = inputs.sequence_near(&before);
            let (expected, after) = window::bill(before, sequence);
            let wrap = Wrap {
                sequence,
                ..Wrap::new(&mut inputs, true, 0)
            };
            let mut token = form.form(&terms.wrap(&wrap));
            let mic = form.form(&terms.mic(sequence, b"data"));
            let ([mut presented, mut sealed, mut status, mut missing], mut len) = ([9; 4], 9);
            // SAFETY: 32 octets at a multiple of 8, and areas of their own.
            unsafe {
                let words = walled(side, &mut map, before);
                assert_eq!(raw::rc4hmac_window_missing(words, &mut missing), 0);
                assert_eq!(missing, window::missing(before));
                assert_eq!(raw::rc4hmac_window_bill(words, sequence, &mut status), 0);
                assert_eq!((status, *words), (expected, after));
                assert_eq!(raw::rc4hmac_window_new(sequence, words), 0);
                assert_eq!(*words, [sequence.into(), 0, 0, 0]);

                let words = walled(side, &mut map, before);
                let answer = (form.receive.wrap)(
                    words,
                    &terms.key,
                    0,
                    0,
                    token.as_mut_ptr(),
                    token.len(),
                    0,
                    token.len(),
                    &mut presented,
                    &mut sealed,
                    &mut len,
                    &mut status,
                );
                assert_eq!((answer, presented, sealed, len), (0, sequence, 1, 0));
                assert_eq!((status, *words), (expected, after));

                let words = walled(side, &mut map, before);
                let answer = (form.receive.mic)(
                    words,
                    &terms.key,
                    0,
                    0,
                    b"data".as_ptr(),
                    4,
                    mic.as_ptr(),
                    mic.len(),
                    0,
                    mic.len(),
                    &mut presented,
                    &mut status,
                );
                assert_eq!((answer, presented), (0, sequence));
                assert_eq!((status, *words), (expected, after));
            }
        }
    }
}

/// All that the four calls read or write, each between its own walls.
#[test]
fn tokens_are_received_without_a_step_outside_what_is_lent() {
    let mut inputs = Inputs::new(470);
    let [mut key_map, mut mic_map] = [0; 2].map(|_| Walled::new(4096));
    let (mut data_map, mut buf_map) = (Walled::new(32_768), Walled::new(36_864));
    for (side, form) in SIDES
        .into_iter()
        .flat_map(|side| FORMS.map(|form| (side, form)))
    {
        for len in (0..=90).chain([211, 212, 4063, 4064, 32_767, 32_768]) {
            for terms in TokenTerms::all(&mut inputs) {
                let words = inputs.words();
                let wrap = Wrap {
                    sequence: inputs.sequence_near(&words),
                    ..Wrap::new(&mut inputs, len % 2 == 0, len)
                };
                let token = form.form(&terms.wrap(&wrap));
                let mic = form.form(&terms.mic(wrap.sequence, &wrap.message));
                let put = |map: &mut Walled, octets: &[u8]| {
                    side(map, octets.len()).copy_from_slice(octets);
                };
                put(&mut key_map, &terms.key);
                put(&mut data_map, &wrap.message);
                put(&mut buf_map, &token);
                put(&mut mic_map, &mic);

                let (flags, key) = (Flags::of(&terms), &*side(&mut key_map, 16));
                let key = key.try_into().unwrap();
                let (whole, buf) = (token.len(), side(&mut buf_map, token.len()));
                let receipt = (form.receive).wrap_in_place(words, flags, key, buf, 0, whole);
                let expected = (form.expected_receipts.wrap)(words, &terms, &token, 0, whole);
                receipt.must_be(&expected, len);
                let (whole, data) = (mic.len(), &*side(&mut data_map, len));
                let buf = &*side(&mut mic_map, whole);
                let receipt = (form.receive).mic_in_place(words, flags, key, data, buf, 0, whole);
                let expected = (form.expected_receipts.mic)(words, &terms, data, &mic, 0, whole);
                receipt.must_be(&expected, len);
                assert_eq!(receipt.reading.number, 0);
            }
        }
    }
}

/// Frames that are cut off, before a page that cannot be read.
#[test]
fn no_octet_after_the_end_of_a_region_is_received_as_a_frame() {
    let mut inputs = Inputs::new(471);
    let mut map = Walled::new(4096);
    for terms in TokenTerms::all(&mut inputs) {
        let long = terms.wrap(&Wrap::new(&mut inputs, true, 300));
        for framed in [terms.mic(5, b"data"), long].map(|token| FRAMED.form(&token)) {
            for cut in 0..framed.len() {
                let words = inputs.words();
                let (flags, key) = (Flags::of(&terms), &terms.key);
                let buf = map.last(cut);
                buf.copy_from_slice(&framed[..cut]);
                let refused = Receipt::refused(9, words, buf);
                let receipt =
                    (FRAMED.receive).mic_in_place(words, flags, key, b"data", buf, 0, cut);
                receipt.must_be(&refused, cut);
                let receipt = (FRAMED.receive).wrap_in_place(words, flags, key, buf, 0, cut);
                receipt.must_be(&refused, cut);
            }
        }
    }
}

/// What is lent for reading only stands where nothing can be written.
#[test]
fn nothing_is_written_to_what_is_lent_for_reading() {
    let mut inputs = Inputs::new(464);
    let mut map = Walled::new(4096);
    for (form, terms) in FORMS
        .into_iter()
        .flat_map(|form| TokenTerms::all(&mut Inputs::new(472)).map(|terms| (form, terms)))
    {
        for len in [0, 1, 64, 300] {
            let (words, data) = (inputs.words(), inputs.octets(len));
            let sequence = inputs.sequence_near(&words);
            let token = form.form(&terms.mic(sequence, &data));
            let whole = token.len();
            let lent = [&octets_of(words)[..], &terms.key, &token, &data].concat();
            map.first(lent.len()).copy_from_slice(&lent);
            map.set_writable(false);
            let area = &*map.first(lent.len());
            let mut missing = 9;
            // SAFETY: the words stand at the start of a page.
            let answer = unsafe { raw::rc4hmac_window_missing(area.as_ptr().cast(), &mut missing) };
            assert_eq!((answer, missing), (0, window::missing(words)));
            let (key, rest) = area[32..].split_first_chunk().unwrap();
            let (token, data) = rest.split_at(whole);
            let flags = Flags::of(&terms);
            let receipt = (form.receive).mic_in_place(words, flags, key, data, token, 0, whole);
            let expected = (form.expected_receipts.mic)(words, &terms, data, token, 0, whole);
            receipt.must_be(&expected, len);
            map.set_writable(true);
        }
    }
}

#[test]
fn windows_in_several_threads_at_once_do_not_disturb_each_other() {
    thread::scope(|scope| {
        for number in 0..4 {
            scope.spawn(move || {
                let mut inputs = Inputs::new(465 + number);
                let terms = TokenTerms::all(&mut inputs)[number as usize];
                let (context, first) = (context(&terms), inputs.sequence());
                let (mut window, mut clerk) = (Window::new(first), Clerk::new(first));
                for step in 0..2_000 {
                    let sequence = clerk.at(step + inputs.number(0, 70) as u64);
                    let token = terms.mic(sequence, b"data");
                    let received = if step % 2 == 0 {
                        let framed = FRAMED.form(&token);
                        window.receive_framed_mic(&context, b"data", &framed, 0, framed.len())
                    } else {
                        window.receive_mic(&context, b"data", &token, 0, token.len())
                    };
                    assert_eq!(received.unwrap().status.number(), clerk.bill(sequence));
                    assert_eq!(window.words(), clerk.words());
                }
            });
        }
    });
}
