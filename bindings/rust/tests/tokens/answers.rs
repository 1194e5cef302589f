//! The numbers that go in and out of the token calls: any number but 0 is yes,
//! with the frame too, sealed comes out as 1 or 0, and a refusal writes zeros over what was there.

use rc4hmac::raw;
use reference::{TokenTerms, Wrap, PAD};
use support::calls::Flags;
use support::programs::FORMS;
use support::{must_be_octets, AllTerms, Inputs, RandomWrap};

const YES: [u32; 12] = [
    1,
    2,
    3,
    7,
    8,
    128,
    255,
    256,
    65_536,
    1 << 31,
    u32::MAX - 1,
    u32::MAX,
];

/// All that a reader writes out.
#[derive(Clone, Copy, Debug, PartialEq)]
struct Out {
    sequence: u32,
    sealed: u32,
    len: usize,
}

/// What may be there before a call.
const BEFORE: [Out; 4] = [
    Out {
        sequence: 1,
        sealed: 1,
        len: 1,
    },
    Out {
        sequence: u32::MAX,
        sealed: u32::MAX,
        len: usize::MAX,
    },
    Out {
        sequence: 1 << 31,
        sealed: 2,
        len: 1 << 63,
    },
    Out {
        sequence: 0,
        sealed: 0,
        len: 0,
    },
];

const ZEROS: Out = BEFORE[3];

fn wrap_open(terms: &TokenTerms, buf: &[u8], start: usize, length: usize, out: &mut Out) -> u32 {
    let mut buf = buf.to_vec();
    // SAFETY: the tests lend areas that do not overlap, here and below.
    unsafe {
        raw::rc4hmac_wrap_open(
            &terms.key,
            terms.export.into(),
            terms.acceptor.into(),
            buf.as_mut_ptr(),
            buf.len(),
            start,
            length,
            &mut out.sequence,
            &mut out.sealed,
            &mut out.len,
        )
    }
}

fn mic_read(
    terms: &TokenTerms,
    buf: &[u8],
    start: usize,
    length: usize,
    sequence: &mut u32,
) -> u32 {
    let data = b"data";
    unsafe {
        raw::rc4hmac_mic_read(
            &terms.key,
            terms.export.into(),
            terms.acceptor.into(),
            data.as_ptr(),
            data.len(),
            buf.as_ptr(),
            buf.len(),
            start,
            length,
            sequence,
        )
    }
}

fn wrap_write(buf: &mut [u8], sealed: u32, start: usize, len: usize, written: &mut usize) -> u32 {
    unsafe {
        raw::rc4hmac_wrap_write(
            &[7; 16],
            0,
            0,
            5,
            &[1; 8],
            sealed,
            buf.as_mut_ptr(),
            buf.len(),
            start,
            len,
            written,
        )
    }
}

fn mic_write(data: &[u8], buf: &mut [u8], start: usize, written: &mut usize) -> u32 {
    unsafe {
        raw::rc4hmac_mic_write(
            &[7; 16],
            0,
            0,
            5,
            data.as_ptr(),
            data.len(),
            buf.as_mut_ptr(),
            buf.len(),
            start,
            written,
        )
    }
}

/// The refusal number, and a token, a start and a length that get it.
fn refused_wraps(
    inputs: &mut Inputs,
    terms: &TokenTerms,
    sealed: bool,
) -> Vec<(u32, Vec<u8>, usize, usize)> {
    let wrap = Wrap::new(inputs, sealed, 20);
    let token = terms.wrap(&wrap);
    let changed = |at: usize| {
        let mut token = token.clone();
        token[at] ^= 0x04;
        token
    };
    vec![
        (1, token.clone(), 0, 32),
        (1, token.clone(), 0, 32_802),
        (2, token.clone(), 1, 53),
        (2, token.clone(), usize::MAX, 53),
        (4, changed(0), 0, 53),
        (5, changed(13), 0, 53),
        (5, changed(17), 0, 53),
        (6, changed(25), 0, 53),
        (6, changed(52), 0, 53),
        (7, terms.wrap_ending(&wrap, 0x00), 0, 53),
        (7, terms.wrap_ending(&wrap, 0x03), 0, 53),
    ]
}

#[test]
fn a_refused_opening_writes_zeros_over_what_was_there() {
    let mut inputs = Inputs::new(311);
    for terms in TokenTerms::all(&mut inputs) {
        for sealed in [false, true] {
            for (number, token, start, length) in refused_wraps(&mut inputs, &terms, sealed) {
                for before in BEFORE {
                    let mut out = before;
                    let answer = wrap_open(&terms, &token, start, length, &mut out);
                    assert_eq!((answer, out), (number, ZEROS), "{before:?}");
                }
            }
        }
    }
}

#[test]
fn a_refused_reading_of_a_mic_writes_zero_over_what_was_there() {
    let mut inputs = Inputs::new(312);
    for terms in TokenTerms::all(&mut inputs) {
        let token = terms.mic(inputs.sequence(), b"data");
        let changed = |at: usize| {
            let mut token = token.clone();
            token[at] ^= 0x04;
            token
        };
        for (number, token, start, length) in [
            (1, token.clone(), 0, 23),
            (1, token.clone(), 0, 25),
            (2, token.clone(), 1, 24),
            (2, token.clone(), usize::MAX, 24),
            (4, changed(0), 0, 24),
            (5, changed(13), 0, 24),
            (5, changed(17), 0, 24),
            (6, terms.mic(7, b"other"), 0, 24),
        ] {
            for before in [1, 2, 1 << 31, u32::MAX] {
                let mut sequence = before;
                let answer = mic_read(&terms, &token, start, length, &mut sequence);
                assert_eq!((answer, sequence), (number, 0), "{before}");
            }
        }
    }
}

#[test]
fn a_refused_writing_writes_zero_over_what_was_there() {
    let mut inputs = Inputs::new(313);
    let (mut buf, data) = (inputs.octets(60), inputs.octets(32_769));
    let wraps = [(1, 0, 32_769), (1, 0, usize::MAX), (2, 0, 28), (2, 61, 0)];
    let mics = [
        (1, 0, 32_769),
        (1, 61, 32_769),
        (2, 37, 4),
        (2, usize::MAX, 4),
    ];
    for before in [1, 24, 33, usize::MAX] {
        for sealed in [0, 1] {
            for (number, start, len) in wraps {
                let mut written = before;
                let answer = wrap_write(&mut buf, sealed, start, len, &mut written);
                assert_eq!((answer, written), (number, 0), "{before}");
            }
        }
        for (number, start, len) in mics {
            let mut written = before;
            let answer = mic_write(&data[..len], &mut buf, start, &mut written);
            assert_eq!((answer, written), (number, 0), "{before}");
        }
    }
}

#[test]
fn sealed_comes_out_as_1_or_0_whatever_was_there() {
    let mut inputs = Inputs::new(314);
    for terms in TokenTerms::all(&mut inputs) {
        for sealed in [false, true] {
            let wrap = Wrap::new(&mut inputs, sealed, 20);
            for before in BEFORE {
                let mut out = before;
                let answer = wrap_open(&terms, &terms.wrap(&wrap), 0, 53, &mut out);
                let expected = Out {
                    sequence: wrap.sequence,
                    sealed: u32::from(sealed),
                    len: 20,
                };
                assert_eq!((answer, out), (0, expected), "{before:?}");
            }
        }
    }
}

/// Each of the two flags by itself and both, for both values of the other, and
/// the terms that they stand for.
fn flags(key: [u8; 16]) -> Vec<(Flags, TokenTerms)> {
    let mut flags = Vec::new();
    for number in YES.into_iter().chain([0]) {
        for other in [0, 1, number] {
            for (export_strength, acceptor) in [(number, other), (other, number)] {
                let sealed = number;
                let arguments = Flags {
                    export_strength,
                    acceptor,
                    sealed,
                };
                let terms = TokenTerms {
                    key,
                    export: export_strength != 0,
                    acceptor: acceptor != 0,
                };
                flags.push((arguments, terms));
            }
        }
    }
    flags
}

#[test]
fn any_number_but_0_is_yes_for_a_mic() {
    let mut inputs = Inputs::new(315);
    let (key, data) = (inputs.array(), inputs.octets(40));
    for form in FORMS {
        for (flags, terms) in flags(key) {
            let (calls, token) = (&form.calls, form.form(&terms.mic(9, &data)));
            let (len, buf) = (token.len(), vec![0; token.len()]);
            let written = calls.mic_write_with(flags, &key, 9, &data, &buf, 0);
            assert_eq!((written.number, written.len), (0, len), "{flags:?}");
            must_be_octets(&written.buf, &token, flags);
            let read = calls.mic_read_with(flags, &key, &data, &token, 0, len);
            assert_eq!(read.answer(), (0, 9, 0, 0), "{flags:?}");
        }
    }
}

#[test]
fn any_number_but_0_is_yes_for_a_wrap_token() {
    let mut inputs = Inputs::new(316);
    let key = inputs.array();
    for form in FORMS {
        for (flags, terms) in flags(key) {
            let wrap = Wrap::new(&mut inputs, flags.sealed != 0, 20);
            let (calls, token) = (&form.calls, form.form(&terms.wrap(&wrap)));
            let (len, front) = (token.len(), form.front(20));
            let buf = [&vec![0; front], &wrap.message[..], &[0]].concat();
            let written = calls.wrap_write_with(flags, &key, &wrap, &buf, 0, 20);
            assert_eq!((written.number, written.len), (0, len), "{flags:?}");
            must_be_octets(&written.buf, &token, flags);

            let opened = calls.wrap_open_with(flags, &key, &token, 0, len);
            let answer = (0, wrap.sequence, u32::from(wrap.sealed), 20);
            assert_eq!(opened.answer(), answer, "{flags:?}");
            must_be_octets(&opened.buf[front - 8..], &wrap.plain(PAD), flags);
        }
    }
}
