//! What the token calls, without the frame and in it, do to the areas lent to
//! them and to the octets around them: alignment, guard octets, unmapped pages,
//! empty areas, threads.

use std::thread;

use reference::{TokenTerms, Wrap, PAD};
use support::areas::{empty_pointers, walled, Walled, SIDES};
use support::calls::{context, Flags};
use support::lent::Lent;
use support::programs::{Form, FORMS, FRAMED};
use support::{must_be_octets, AllTerms, Inputs, RandomWrap};

/// Lengths of a message below, at and over a block of MD5, and on both sides of
/// each longer form of a frame's length.
const LENS: [usize; 11] = [0, 1, 34, 35, 43, 64, 83, 84, 211, 212, 300];

#[test]
fn tokens_at_every_alignment_are_right_and_no_octet_beside_them_changes() {
    let mut inputs = Inputs::new(321);
    for form in FORMS {
        for alignment in 0..16 {
            for len in LENS {
                for (start, after) in [(0, 0), (1, 0), (0, 1), (7, 20)] {
                    check_written_and_read(&mut inputs, form, alignment, len, start, after);
                }
            }
        }
    }
}

/// A Wrap token and a MIC token, `after` octets before the end of the buffer.
fn check_written_and_read(
    inputs: &mut Inputs,
    form: &'static Form,
    alignment: usize,
    len: usize,
    start: usize,
    after: usize,
) {
    let (export, acceptor) = (alignment.is_multiple_of(2), len.is_multiple_of(2));
    let (length, message) = (form.wrap_len(len), start + form.front(len));
    let mut lent = Lent::new(inputs, form, start + length + after, len, alignment);
    let terms = lent.terms(export, acceptor);
    for sealed in [false, true] {
        let before = lent.buf.lent()[message..][..len].to_vec();
        lent.wrap_write(&terms, sealed, start, len);
        let opened = lent.wrap_open(&terms, start, length);
        assert_eq!(opened.answer(), (0, 0x0102_0304, sealed.into(), len));
        must_be_octets(&lent.buf.lent()[message..][..len], &before, len);
    }
    let length = form.mic_len();
    let mut lent = Lent::new(inputs, form, start + length + after, len, alignment);
    let (terms, sequence) = (lent.terms(export, acceptor), inputs.sequence());
    lent.mic_write(&terms, sequence, start);
    let read = lent.mic_read(&terms, start, length);
    assert_eq!(read.answer(), (0, sequence, 0, 0));
}

/// Random octets stand where the answers go, here and below.
#[test]
fn refused_writers_change_no_octet_but_the_length() {
    let mut inputs = Inputs::new(322);
    for form in FORMS {
        for alignment in 0..16 {
            let mut lent = Lent::new(&mut inputs, form, 100, 4, alignment);
            let terms = lent.terms(alignment % 2 == 0, alignment % 3 == 0);
            let room = 100 - form.wrap_len(0);
            let wraps = [
                (1, 0, 32_769),
                (1, 0, usize::MAX),
                (2, 0, room + 1),
                (2, room + 1, 0),
            ];
            for (number, start, len) in wraps {
                let written = lent.wrap_write(&terms, alignment % 2 == 1, start, len);
                assert_eq!(written.number, number);
                lent.len.set(&inputs.array::<8>());
            }
            for start in [101 - form.mic_len(), 100, usize::MAX - form.mic_len() + 1] {
                assert_eq!(lent.mic_write(&terms, 5, start).number, 2);
                lent.len.set(&inputs.array::<8>());
            }
        }
    }
}

/// With a bit of one octet changed.
fn damaged(octets: &[u8], at: usize) -> Vec<u8> {
    let mut octets = octets.to_vec();
    octets[at] ^= 0x20;
    octets
}

#[test]
fn refused_openings_change_no_octet_but_the_answers() {
    let mut inputs = Inputs::new(326);
    for form in FORMS {
        for alignment in 0..16 {
            let mut lent = Lent::new(&mut inputs, form, 100, 0, alignment);
            let terms = lent.terms(alignment % 2 == 0, alignment % 3 == 0);
            let wrap = Wrap::new(&mut inputs, alignment % 2 == 1, 20);
            let damaged = |at| damaged(&terms.wrap(&wrap), at);
            for (number, token) in [
                (4, damaged(0)),
                (5, damaged(12)),
                (5, damaged(16)),
                (6, damaged(24)),
                (6, damaged(52)),
                (7, terms.wrap_ending(&wrap, 0x00)),
                (1, terms.wrap(&wrap)[..32].to_vec()),
            ] {
                let token = form.form(&token);
                let after = inputs.octets(90 - token.len());
                let buf = [&inputs.octets(10)[..], &token, &after].concat();
                lent.buf.set(&buf);
                for (number, start, length) in [(number, 10, token.len()), (2, 48, 53)] {
                    lent.sequence.set(&inputs.array::<4>());
                    lent.sealed.set(&inputs.array::<4>());
                    lent.len.set(&inputs.array::<8>());
                    assert_eq!(lent.wrap_open(&terms, start, length).number, number);
                }
            }
        }
    }
}

#[test]
fn refused_readings_of_a_mic_change_no_octet_but_the_number() {
    let mut inputs = Inputs::new(327);
    for form in FORMS {
        for alignment in 0..16 {
            let mut lent = Lent::new(&mut inputs, form, 100, 30, alignment);
            let terms = lent.terms(alignment % 2 == 0, alignment % 3 == 0);
            let mic = terms.mic(5, lent.data.lent());
            let damaged = |at| damaged(&mic, at);
            for (number, token) in [
                (4, damaged(0)),
                (5, damaged(12)),
                (5, damaged(16)),
                (6, terms.mic(5, b"other data")),
                (1, mic[..23].to_vec()),
            ] {
                let token = form.form(&token);
                let start = 100 - token.len();
                let buf = [&inputs.octets(start)[..], &token].concat();
                lent.buf.set(&buf);
                let mic_len = form.mic_len();
                for (number, start, length) in
                    [(number, start, token.len()), (2, 101 - mic_len, mic_len)]
                {
                    lent.sequence.set(&inputs.array::<4>());
                    assert_eq!(lent.mic_read(&terms, start, length).number, number);
                }
            }
        }
    }
}

#[test]
fn empty_areas_are_taken_or_refused_whatever_the_pointer() {
    let [terms, ..] = TokenTerms::all(&mut Inputs::new(323));
    for (form, none) in FORMS.iter().zip([1, 9]) {
        let (calls, token) = (&form.calls, form.form(&terms.mic(0, &[])));
        let (mic, wrap) = (form.mic_len(), form.wrap_len(0));
        for empty in empty_pointers() {
            let (mut buf, mut lens, mut numbers) = (vec![0; mic], [0xa5; 4], [0xa5; 7]);
            // SAFETY: with length 0 any pointer will do.
            let answers = unsafe {
                let (key, at) = (&terms.key, buf.as_mut_ptr());
                let [a, b, c, d] = &mut lens;
                let [e, f, g, h, i, j, k] = &mut numbers;
                [
                    (calls.mic_write)(key, 0, 0, 0, empty, 0, at, mic, 0, a),
                    (calls.mic_read)(key, 0, 0, empty, 0, at, mic, 0, mic, e),
                    (calls.mic_write)(key, 0, 0, 0, empty, 0, empty, 0, 0, b),
                    (calls.mic_read)(key, 0, 0, empty, 0, empty, 0, 0, mic, f),
                    (calls.wrap_write)(key, 0, 0, 0, &[1; 8], 1, empty, 0, 0, 0, b),
                    (calls.wrap_open)(key, 0, 0, empty, 0, 0, wrap, g, h, c),
                    // Of no octets a region lies inside.
                    (calls.mic_read)(key, 0, 0, empty, 0, empty, 0, 0, 0, i),
                    (calls.wrap_open)(key, 0, 0, empty, 0, 0, 0, j, k, d),
                ]
            };
            assert_eq!(answers, [0, 0, 2, 2, 2, 2, none, none], "{empty:?}");
            must_be_octets(&buf, &token, empty);
            assert_eq!((lens, numbers), ([mic, 0, 0, 0], [0; 7]), "{empty:?}");
        }
    }
}

#[test]
fn wrap_tokens_reach_no_octet_outside_the_key_the_confounder_and_the_buffer() {
    let mut inputs = Inputs::new(324);
    let (mut key_map, mut confounder_map) = (Walled::new(4096), Walled::new(4096));
    let mut buf_map = Walled::new(36_864);
    for form in FORMS {
        for side in SIDES {
            for len in (0..=90).chain([211, 212, 4048, 4063, 4064, 32_767, 32_768]) {
                for terms in TokenTerms::all(&mut inputs) {
                    let wrap = Wrap::new(&mut inputs, len % 2 == 0, len);
                    let key = &*walled(side, &mut key_map, &terms.key);
                    let key: &[u8; 16] = key.try_into().unwrap();
                    let confounder = &*walled(side, &mut confounder_map, &wrap.confounder);
                    let confounder: &[u8; 8] = confounder.try_into().unwrap();
                    let (front, length) = (form.front(len), form.wrap_len(len));
                    let plain = [&vec![0; front], &wrap.message[..], &[0]].concat();
                    let buf = walled(side, &mut buf_map, &plain);
                    let flags = Flags {
                        sealed: wrap.sealed.into(),
                        ..Flags::of(&terms)
                    };
                    let (calls, sequence) = (&form.calls, wrap.sequence);
                    let written =
                        calls.wrap_write_in_place(flags, key, sequence, confounder, buf, 0, len);
                    assert_eq!(written, (0, length));
                    must_be_octets(buf, &form.form(&terms.wrap(&wrap)), len);
                    let opened = calls.wrap_open_in_place(flags, key, buf, 0, length);
                    assert_eq!(opened, (0, sequence, wrap.sealed.into(), len));
                    must_be_octets(&buf[front - 8..], &wrap.plain(PAD), len);
                }
            }
        }
    }
}

#[test]
fn mics_reach_no_octet_outside_the_key_the_data_and_the_buffer() {
    let mut inputs = Inputs::new(325);
    let (mut key_map, mut data_map) = (Walled::new(4096), Walled::new(32_768));
    let mut buf_map = Walled::new(4096);
    for form in FORMS {
        for side in SIDES {
            for len in (0..=70).chain([4095, 4096, 4097, 32_767, 32_768]) {
                for terms in TokenTerms::all(&mut inputs) {
                    let key = &*walled(side, &mut key_map, &terms.key);
                    let key: &[u8; 16] = key.try_into().unwrap();
                    let data = walled(side, &mut data_map, &inputs.octets(len));
                    let buf = walled(side, &mut buf_map, &vec![0; form.mic_len()]);
                    let (calls, flags) = (&form.calls, Flags::of(&terms));
                    let written = calls.mic_write_in_place(flags, key, 77, data, buf, 0);
                    assert_eq!(written, (0, buf.len()));
                    must_be_octets(buf, &form.form(&terms.mic(77, data)), len);
                    let read = calls.mic_read_in_place(flags, key, data, buf, 0, buf.len());
                    assert_eq!(read, (0, 77));
                }
            }
        }
    }
}

/// Key, data and token stand side by side where nothing can be written.
#[test]
fn a_mic_is_read_without_a_write_to_what_is_lent_for_it() {
    let mut inputs = Inputs::new(328);
    let mut map = Walled::new(4096);
    for form in FORMS {
        for terms in TokenTerms::all(&mut inputs) {
            for len in LENS {
                let data = inputs.octets(len);
                let right = terms.mic(77, &data);
                for (at, number) in [(0, 0), (0, 4), (12, 5)] {
                    let mut token = right.clone();
                    if number != 0 {
                        token[at] ^= 0x01;
                    }
                    let lent = [&terms.key[..], &form.form(&token), &data].concat();
                    walled(Walled::first, &mut map, &lent);
                    map.set_writable(false);
                    let area = &*map.first(lent.len());
                    let (key, rest) = area.split_first_chunk().unwrap();
                    let (token, data) = rest.split_at(form.mic_len());
                    let flags = Flags::of(&terms);
                    let (calls, length) = (&form.calls, token.len());
                    let (answer, sequence) =
                        calls.mic_read_in_place(flags, key, data, token, 0, length);
                    assert_eq!(answer, number);
                    assert_eq!(sequence, if number == 0 { 77 } else { 0 });
                    map.set_writable(true);
                }
            }
        }
    }
}

#[test]
fn calls_in_several_threads_at_once_do_not_disturb_each_other() {
    thread::scope(|scope| {
        for number in 0..4 {
            scope.spawn(move || {
                let mut inputs = Inputs::new(330 + number);
                let terms = TokenTerms::all(&mut inputs)[number as usize];
                let (context, data) = (context(&terms), inputs.octets(2000));
                let wrap = Wrap::new(&mut inputs, true, 2000);
                let (mic, token) = (terms.mic(wrap.sequence, &data), terms.wrap(&wrap));
                let (framed_mic, framed_token) = (FRAMED.form(&mic), FRAMED.form(&token));
                for _ in 0..200 {
                    let mut buf = [0; 24];
                    let answer = rc4hmac::mic_write(&context, wrap.sequence, &data, &mut buf, 0);
                    assert_eq!(answer, Ok(24));
                    assert!(buf[..] == mic);
                    let answer = rc4hmac::mic_read(&context, &data, &buf, 0, 24);
                    assert_eq!(answer, Ok(wrap.sequence));
                    let answer = rc4hmac::framed_mic_read(&context, &data, &framed_mic, 0, 37);
                    assert_eq!(answer, Ok(wrap.sequence));
                    let mut buf = token.clone();
                    let opened = rc4hmac::wrap_open(&context, &mut buf, 0, 2033).unwrap();
                    assert_eq!(opened.message_len, 2000);
                    assert!(buf[24..] == wrap.plain(PAD));
                    let mut buf = framed_token.clone();
                    let opened = rc4hmac::framed_wrap_open(&context, &mut buf, 0, 2048).unwrap();
                    assert_eq!(opened.message_len, 2000);
                    assert!(buf[39..] == wrap.plain(PAD));
                }
            });
        }
    });
}
