//! Octets at random as framed tokens, with more and more of a frame right: the
//! outcome of the reference implementation for each.

use reference::{der_length, frame, frame_with, long_form, TokenTerms, Wrap, PAD};
use support::programs::FRAMED;
use support::{AllTerms, Inputs, RandomWrap};

/// How many of each kind.
const TRIES: usize = 2_000;

/// Sealed or clear, of up to this many octets.
fn wrap(inputs: &mut Inputs, longest: usize) -> Wrap {
    let (sealed, len) = (inputs.number(0, 1) == 1, inputs.number(0, longest));
    Wrap::new(inputs, sealed, len)
}

/// The token in a frame somewhere in a buffer, one bit of it changed or none, and
/// a region that is that frame or begins or ends an octet further.
fn framed(inputs: &mut Inputs, token: &[u8]) -> (Vec<u8>, usize, usize) {
    let mut framed = frame(token);
    if inputs.number(0, 5) == 0 {
        let at = inputs.number(0, framed.len() - 1);
        framed[at] ^= 1 << inputs.number(0, 7);
    }
    let (buf, start) = inputs.around(&framed);
    let start = start + inputs.number(0, 7) / 7;
    (buf, start, framed.len() + inputs.number(0, 7) / 7)
}

/// Each number came often, but for those of no such reader.
#[track_caller]
fn check_met(met: [u32; 10], but: &[usize]) {
    let often = |number: usize| (met[number] > 20) != but.contains(&number);
    assert!((0..10).all(often), "{met:?}");
}

#[test]
fn octets_at_random_in_a_frame_are_refused_with_4_or_1() {
    let mut inputs = Inputs::new(581);
    for terms in TokenTerms::all(&mut inputs) {
        for _ in 0..TRIES {
            let (data, len) = (inputs.octets(9), inputs.number(0, 280));
            let framed = frame(&inputs.octets(len));
            let (buf, start) = inputs.around(&framed);
            let opened = FRAMED.wrap_open(&terms, &buf, start, framed.len());
            assert_eq!(opened.number, if len < 33 { 1 } else { 4 }, "{len}");
            let read = FRAMED.mic_read(&terms, &data, &buf, start, framed.len());
            assert_eq!(read.number, if len == 24 { 4 } else { 1 }, "{len}");
        }
    }
}

/// Lengths beside the right one, in the shortest form and in longer ones, or at
/// random, and at times another octet somewhere in the lead.
#[test]
fn leads_at_random_have_the_references_outcome() {
    let mut inputs = Inputs::new(582);
    let mut met = [0; 2];
    for terms in TokenTerms::all(&mut inputs) {
        for _ in 0..TRIES {
            let wrap = wrap(&mut inputs, 300);
            let token = terms.wrap(&wrap);
            let right = token.len() + 11;
            let number = right + inputs.number(0, 6) - 3;
            let count = inputs.number(0, 9) as u8;
            let at_random = inputs.octets(usize::from(count));
            let lengths = [
                der_length(number),
                long_form(number, count),
                [&[0x80 + count], &at_random[..]].concat(),
                at_random,
            ];
            for length in lengths {
                let mut framed = frame_with(&length, &token);
                if inputs.number(0, 4) == 0 {
                    let at = inputs.number(0, framed.len() - token.len() - 1);
                    framed[at] = inputs.number(0, 255) as u8;
                }
                let (buf, start) = inputs.around(&framed);
                let opened = FRAMED.wrap_open(&terms, &buf, start, framed.len());
                met[usize::from(opened.number == 9)] += 1;
            }
        }
    }
    assert!(met.iter().all(|&count| count > 500), "{met:?}");
}

/// Starts and lengths at random too: any of the numbers may come.
#[test]
fn any_arguments_have_the_references_outcome() {
    let mut inputs = Inputs::new(583);
    let mut met = [0; 10];
    for terms in TokenTerms::all(&mut inputs) {
        for _ in 0..TRIES {
            let wrap = wrap(&mut inputs, 90);
            let last = inputs.number(1, 2) as u8;
            let mut token = terms.wrap_ending(&wrap, last);
            match inputs.number(0, 3) {
                0 => token.truncate(inputs.number(0, 32)),
                1 => {
                    let at = inputs.number(0, token.len() - 1);
                    token[at] ^= 0x10;
                }
                _ => {}
            }
            let (buf, start, length) = framed(&mut inputs, &token);
            let opened = FRAMED.wrap_open(&terms, &buf, start, length);
            met[opened.number as usize] += 1;
            let length = inputs.number(0, 150);
            let opened = FRAMED.wrap_open(&terms, &buf, start, length);
            met[opened.number as usize] += 1;
        }
    }
    // The usage, and 8, which is none.
    check_met(met, &[3, 8]);
}

#[test]
fn any_arguments_for_a_mic_have_the_references_outcome() {
    let mut inputs = Inputs::new(584);
    let mut met = [0; 10];
    for terms in TokenTerms::all(&mut inputs) {
        for _ in 0..TRIES {
            let (mut data, sequence) = (inputs.octets(9), inputs.sequence());
            let mut token = terms.mic(sequence, &data);
            match inputs.number(0, 4) {
                0 => token.truncate(inputs.number(0, 23)),
                1 => token.extend(inputs.octets(2)),
                2 => token[inputs.number(0, 23)] ^= 0x10,
                3 => data[inputs.number(0, 8)] ^= 0x10,
                _ => {}
            }
            let (buf, start, length) = framed(&mut inputs, &token);
            let read = FRAMED.mic_read(&terms, &data, &buf, start, length);
            met[read.number as usize] += 1;
        }
    }
    check_met(met, &[3, 7, 8]);
}

#[test]
fn written_frames_at_random_places_have_the_references_outcome() {
    let mut inputs = Inputs::new(585);
    let mut met = [0; 3];
    for terms in TokenTerms::all(&mut inputs) {
        for _ in 0..TRIES {
            let wrap = wrap(&mut inputs, 0);
            let buf_len = inputs.number(0, 400);
            let buf = inputs.octets(buf_len);
            let (start, len) = (inputs.number(0, 60), inputs.number(0, 250));
            let written = FRAMED.wrap_write(&terms, &wrap, &buf, start, len);
            met[written.number as usize] += 1;
            if written.number == 0 {
                let opened = FRAMED.wrap_open(&terms, &written.buf, start, written.len);
                let answer = (0, wrap.sequence, wrap.sealed.into(), len);
                assert_eq!(opened.answer(), answer);
                assert_eq!(opened.buf[start + written.len - 1], PAD);
            }
            let data = inputs.octets(len);
            let written = FRAMED.mic_write(&terms, wrap.sequence, &data, &buf, start);
            met[written.number as usize] += 1;
        }
    }
    assert!(met[0] > TRIES && met[1] == 0 && met[2] > TRIES, "{met:?}");
}
