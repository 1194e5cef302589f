//! The lengths in frames as they are written, and the lead that follows from
//! them.

use rc4hmac::{limits, Refusal, FRAMED_MIC_LEN};
use reference::{
    der_length, frame, frame_with, lead, long_form, read_lead, TokenTerms, Wrap, FRONT, MECHANISM,
    TAG,
};
use support::programs::{framed_wrap_lead, FRAMED};
use support::{calls, must_be_octets, AllTerms, Inputs, RandomWrap, OVER_MESSAGE};

/// The lengths of messages and how their frames begin.
const WRAPS: [(usize, &[u8]); 9] = [
    (0, &[0x60, 0x2c]),
    (1, &[0x60, 0x2d]),
    (83, &[0x60, 0x7f]),
    (84, &[0x60, 0x81, 0x80]),
    (211, &[0x60, 0x81, 0xff]),
    (212, &[0x60, 0x82, 0x01, 0x00]),
    (213, &[0x60, 0x82, 0x01, 0x01]),
    (32_723, &[0x60, 0x82, 0x7f, 0xff]),
    (32_768, &[0x60, 0x82, 0x80, 0x2c]),
];
const MIC_BEGINS: [u8; 2] = [0x60, 0x23];

/// 1.2.840.113554.1.2.2 behind its tag and its length, in decimal.
const PRINTED_MECHANISM: [u8; 11] = [6, 9, 42, 134, 72, 134, 247, 18, 1, 2, 2];

#[test]
fn the_references_lengths_are_those_written_out() {
    let lengths: [(usize, &[u8]); 17] = [
        (0, &[0x00]),
        (1, &[0x01]),
        (35, &[0x23]),
        (127, &[0x7f]),
        (128, &[0x81, 0x80]),
        (255, &[0x81, 0xff]),
        (256, &[0x82, 0x01, 0x00]),
        (32_812, &[0x82, 0x80, 0x2c]),
        (65_535, &[0x82, 0xff, 0xff]),
        (65_536, &[0x83, 0x01, 0x00, 0x00]),
        (0xff_ffff, &[0x83, 0xff, 0xff, 0xff]),
        (0x100_0000, &[0x84, 0x01, 0x00, 0x00, 0x00]),
        (0xffff_ffff, &[0x84, 0xff, 0xff, 0xff, 0xff]),
        (1 << 32, &[0x85, 0x01, 0x00, 0x00, 0x00, 0x00]),
        (1 << 40, &[0x86, 0x01, 0x00, 0x00, 0x00, 0x00, 0x00]),
        (1 << 56, &[0x88, 0x01, 0, 0, 0, 0, 0, 0, 0]),
        (usize::MAX, &[0x88, 255, 255, 255, 255, 255, 255, 255, 255]),
    ];
    for (number, octets) in lengths {
        assert_eq!(der_length(number), octets, "{number}");
    }
    assert_eq!((TAG, MECHANISM), (0x60, PRINTED_MECHANISM));
    assert_eq!(lead(24), [&MIC_BEGINS[..], &PRINTED_MECHANISM].concat());
    for (len, begins) in WRAPS {
        assert_eq!(lead(len + 33), [begins, &PRINTED_MECHANISM].concat());
    }
}

/// A region is read as a frame where the rule for writing gives its lead, and
/// nowhere else.
#[test]
fn the_reference_reads_the_leads_that_it_writes_and_no_others() {
    let mut read = [0; 23];
    for len in (0..=300_usize).chain([32_816, 32_817, 65_549, 65_550, 65_551, 65_552]) {
        for count in 0..=127 {
            let right = len.saturating_sub(usize::from(count) + 2);
            for number in [right, right + 1, right ^ 0x80, right + 256, 0] {
                for length in [long_form(number, count), vec![number as u8]] {
                    let mut region = frame_with(&length, &[]);
                    region.resize(len, 0x5a);
                    let begins = |front: &usize| lead(len - front) == region[..*front];
                    let written = (13..=22.min(len)).find(begins);
                    assert_eq!(read_lead(&region), written, "{len}, {length:?}");
                    read[written.unwrap_or(0)] += 1;
                }
            }
        }
    }
    // Nothing, 13, 14, 15 and 16 octets are met.
    let met: Vec<usize> = (0..read.len()).filter(|&front| read[front] > 0).collect();
    assert_eq!(met, [0, 13, 14, 15, 16]);
}

#[test]
fn the_library_writes_the_lengths_that_are_written_out() {
    let mut inputs = Inputs::new(522);
    for terms in TokenTerms::all(&mut inputs) {
        let written = FRAMED.mic_write(&terms, 1, b"data", &[0; 37], 0);
        let begins = [&MIC_BEGINS[..], &PRINTED_MECHANISM].concat();
        must_be_octets(&written.buf[..13], &begins, terms.name());
        for (len, begins) in WRAPS {
            let begins = [begins, &PRINTED_MECHANISM].concat();
            assert_eq!(calls::framed_wrap_lead(len), (0, begins.len()), "{len}");
            for sealed in [false, true] {
                let wrap = Wrap::new(&mut inputs, sealed, len);
                let room = begins.len() + FRONT + len + 1;
                let written = FRAMED.wrap_write(&terms, &wrap, &vec![0; room], 0, len);
                assert_eq!((written.number, written.len), (0, room), "{len}");
                must_be_octets(&written.buf[..begins.len()], &begins, len);
            }
        }
    }
}

#[test]
fn the_library_reads_the_lengths_that_are_written_out() {
    let mut inputs = Inputs::new(523);
    for terms in TokenTerms::all(&mut inputs) {
        let framed = [&MIC_BEGINS[..], &PRINTED_MECHANISM, &terms.mic(1, b"data")].concat();
        let read = FRAMED.mic_read(&terms, b"data", &framed, 0, 37);
        assert_eq!(read.answer(), (0, 1, 0, 0));
        for (len, begins) in WRAPS {
            for sealed in [false, true] {
                let wrap = Wrap::new(&mut inputs, sealed, len);
                let framed = [begins, &PRINTED_MECHANISM, &terms.wrap(&wrap)].concat();
                let opened = FRAMED.wrap_open(&terms, &framed, 0, framed.len());
                let answer = (0, wrap.sequence, sealed.into(), len);
                assert_eq!(opened.answer(), answer, "{len}");
            }
        }
    }
}

#[test]
fn the_lead_of_every_length_is_the_references() {
    let mut leads = [0; 3];
    for len in 0..=33_000 {
        let (number, lead) = framed_wrap_lead(len);
        assert_eq!(number, u32::from(len > 32_768), "{len}");
        match number {
            0 => leads[lead - 13] += 1,
            _ => assert_eq!(lead, 0, "{len}"),
        }
    }
    // To 83, to 211 and to 32,768.
    assert_eq!(leads, [84, 128, 32_557]);
    let far = OVER_MESSAGE.into_iter().chain((0..64).map(|bit| 1 << bit));
    let low = (1..8).map(|high| (high << 32) + 40);
    let near = (0..100).map(|near| usize::MAX - near);
    for len in far.chain(low).chain(near) {
        assert_eq!(framed_wrap_lead(len).0, u32::from(len > 32_768), "{len}");
    }
}

#[test]
fn the_safe_function_tells_the_lead_or_refuses() {
    for (len, begins) in WRAPS {
        assert_eq!(rc4hmac::framed_wrap_lead(len), Ok(begins.len() + 11));
    }
    for len in OVER_MESSAGE.into_iter().chain([usize::MAX]) {
        assert_eq!(
            rc4hmac::framed_wrap_lead(len),
            Err(Refusal::Length),
            "{len}"
        );
    }
}

#[test]
fn the_named_lengths_are_those_of_frames() {
    let [terms, ..] = TokenTerms::all(&mut Inputs::new(524));
    assert_eq!(frame(&terms.mic(0, &[])).len(), FRAMED_MIC_LEN);
    for (len, named) in [
        (0, limits::FRAMED_WRAP_MIN),
        (limits::MESSAGE_MAX, limits::FRAMED_WRAP_MAX),
    ] {
        let room = vec![0; named];
        let wrap = Wrap::new(&mut Inputs::new(525), true, 0);
        let written = FRAMED.wrap_write(&terms, &wrap, &room, 0, len);
        assert_eq!((written.number, written.len), (0, named));
    }
}
