//! The regions of framed tokens where they differ from those of tokens: a reader
//! is told how long its region is, and looks at that first.

use rc4hmac::Refusal;
use reference::{frame, Outcome, Reading, TokenTerms, Wrap};
use support::calls::context;
use support::programs::FRAMED;
use support::{AllTerms, Inputs, MustBe, RandomWrap};

/// A reader's region is looked at before anything else, a writer's after the
/// message's length.
#[test]
fn a_length_near_the_largest_number_is_refused_with_2_by_readers_and_1_by_writers() {
    let mut inputs = Inputs::new(576);
    let [.., terms] = TokenTerms::all(&mut inputs);
    let (wrap, buf) = (Wrap::new(&mut inputs, true, 0), inputs.octets(100));
    let (outcome, reading) = (Outcome::refused(1, &buf), Reading::refused(2, &buf));
    for near in 0..120 {
        for start in [0, 1, 50, 54, 63, 100, 101, usize::MAX - 50, usize::MAX] {
            let length = usize::MAX - near;
            FRAMED
                .wrap_write(&terms, &wrap, &buf, start, length)
                .must_be(&outcome, start);
            FRAMED
                .wrap_open(&terms, &buf, start, length)
                .must_be(&reading, start);
            FRAMED
                .mic_read(&terms, b"data", &buf, start, length)
                .must_be(&reading, start);
        }
    }
}

#[test]
fn a_too_long_message_in_a_region_that_does_not_fit_is_refused_with_1() {
    let mut inputs = Inputs::new(577);
    let data = inputs.octets(32_769);
    for terms in TokenTerms::all(&mut inputs) {
        let (wrap, buf) = (Wrap::new(&mut inputs, true, 0), inputs.octets(100));
        let outcome = Outcome::refused(1, &buf);
        for start in [0, 55, 64, 100, 101, usize::MAX] {
            FRAMED
                .wrap_write(&terms, &wrap, &buf, start, 32_769)
                .must_be(&outcome, start);
            FRAMED
                .mic_write(&terms, 1, &data, &buf, start)
                .must_be(&outcome, start);
        }
    }
}

/// Every start and length around the end of a buffer that a right frame ends:
/// outside it 2, and inside 9 for all but the frame.
#[test]
fn every_start_and_length_around_a_frame_has_its_number() {
    let mut inputs = Inputs::new(578);
    for terms in TokenTerms::all(&mut inputs) {
        let (mic, wrap) = (terms.mic(1, b"data"), Wrap::new(&mut inputs, true, 0));
        for token in [mic, terms.wrap(&wrap)] {
            let framed = frame(&token);
            let buf = [&inputs.octets(8)[..], &framed].concat();
            for start in 0..=buf.len() + 3 {
                for length in 0..=buf.len() + 3 {
                    let number = if start + length > buf.len() {
                        2
                    } else if (start, length) != (8, framed.len()) {
                        9
                    } else {
                        0
                    };
                    let opened = FRAMED.wrap_open(&terms, &buf, start, length);
                    let read = FRAMED.mic_read(&terms, b"data", &buf, start, length);
                    assert_eq!(opened.number.min(read.number), number, "{start}, {length}");
                }
            }
        }
    }
}

#[test]
fn a_region_of_no_octets_lies_inside_the_buffer_but_is_no_frame() {
    let mut inputs = Inputs::new(579);
    for terms in TokenTerms::all(&mut inputs) {
        for len in [0, 1, 37, 60] {
            let buf = inputs.octets(len);
            for (start, number) in [(0, 9), (len, 9), (len + 1, 2), (usize::MAX, 2)] {
                let refused = Reading::refused(number, &buf);
                (FRAMED.wrap_open(&terms, &buf, start, 0)).must_be(&refused, start);
                (FRAMED.mic_read(&terms, b"data", &buf, start, 0)).must_be(&refused, start);
            }
        }
    }
}

#[test]
fn the_safe_functions_refuse_a_region_past_the_end_and_leave_the_buffer() {
    for terms in TokenTerms::all(&mut Inputs::new(580)) {
        let (context, refused) = (context(&terms), Err(Refusal::Region));
        for start in [24, 60, usize::MAX - 3, usize::MAX] {
            let mut buf = [0x5a; 60];
            let answer = rc4hmac::framed_wrap_write(&context, 1, &[1; 8], true, &mut buf, start, 0);
            assert_eq!(answer, refused, "{start}");
            let answer = rc4hmac::framed_wrap_open(&context, &mut buf, start, 46);
            assert_eq!(answer, Err(Refusal::Region), "{start}");
            let answer = rc4hmac::framed_mic_write(&context, 1, b"data", &mut buf, start);
            assert_eq!(answer, refused, "{start}");
            let answer = rc4hmac::framed_mic_read(&context, b"data", &buf, start, 37);
            assert_eq!(answer, Err(Refusal::Region), "{start}");
            assert_eq!(buf, [0x5a; 60], "{start}");
        }
    }
}
