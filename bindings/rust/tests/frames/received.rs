//! Framed tokens that are opened or read and billed in one call, beside the calls
//! that do one part of it: the reader of framed tokens and the window, and the
//! calls that receive the same token without its frame.

use reference::clerk::STATUS_NAMES;
use reference::{frame, Reading, Receipt, TokenTerms, Words, Wrap};
use support::calls::{self, window_bill};
use support::programs::{FRAMED, TOKENS};
use support::{must_be_octets, AllTerms, Faults, Inputs, MustBe, RandomWrap};

/// Each length at which the frame's own length takes another form, and beside it.
const LENS: [usize; 8] = [0, 1, 83, 84, 85, 211, 212, 300];

/// The reader's answer, and then the number billed if the reader took the token.
fn read_then_billed(words: Words, reading: Reading) -> Receipt {
    let mut after = words;
    let status = match reading.number {
        0 => window_bill(&mut after, reading.sequence),
        _ => 0,
    };
    Receipt {
        reading,
        status,
        words: after,
    }
}

/// A token that is right, or with a fault at random; sealed, clear or a MIC of
/// the data, which are the message.
struct Some {
    wrap: Wrap,
    wrapped: Vec<u8>,
    signed: Vec<u8>,
}

fn some(inputs: &mut Inputs, terms: &TokenTerms, sequence: u32, len: usize) -> Some {
    let sealed = inputs.number(0, 1) == 1;
    let wrap = Wrap {
        sequence,
        ..Wrap::new(inputs, sealed, len)
    };
    let mut faults = [0; 4].map(|_| inputs.number(0, 9) == 0);
    let wrapped = Faults::new(faults).wrap(terms, &wrap);
    faults[3] = false;
    let signed = match faults {
        [false, false, false, false] => terms.mic(sequence, &wrap.message),
        _ => Faults::new(faults).mic(terms, &wrap.message),
    };
    Some {
        wrap,
        wrapped,
        signed,
    }
}

/// Each came often, of the numbers from 0 on.
#[track_caller]
fn check_met(met: &[u32], names: &[&str]) {
    for (name, times) in names.iter().zip(met) {
        assert!(*times > 20, "{name}: {met:?}");
    }
}

#[test]
fn receiving_is_reading_and_then_billing() {
    let mut inputs = Inputs::new(701);
    let (mut met, mut refused) = ([0; 7], [0; 10]);
    for terms in TokenTerms::all(&mut inputs) {
        for _ in 0..1_500 {
            let words = inputs.words();
            let (sequence, len) = (inputs.sequence_near(&words), inputs.pick(&LENS));
            let token = some(&mut inputs, &terms, sequence, len);
            let mut framed = [frame(&token.wrapped), frame(&token.signed)];
            if inputs.number(0, 9) == 0 {
                framed[0][inputs.number(0, 12)] ^= 0x10;
                framed[1][inputs.number(0, 12)] ^= 0x10;
            }
            let [(wrapped, at), (signed, mic_at)] = framed.each_ref().map(|f| inputs.around(f));
            let [len, mic_len] = framed.each_ref().map(Vec::len);
            let data = &token.wrap.message;

            let reading = FRAMED.wrap_open(&terms, &wrapped, at, len);
            let receipt = FRAMED.receive_wrap(words, &terms, &wrapped, at, len);
            receipt.must_be(&read_then_billed(words, reading), (words, sequence));
            met[receipt.status as usize] += 1;
            refused[receipt.reading.number as usize] += 1;

            let reading = FRAMED.mic_read(&terms, data, &signed, mic_at, mic_len);
            let receipt = FRAMED.receive_mic(words, &terms, data, &signed, mic_at, mic_len);
            receipt.must_be(&read_then_billed(words, reading), (words, sequence));
            met[receipt.status as usize] += 1;
            refused[receipt.reading.number as usize] += 1;
        }
    }
    check_met(&met, &STATUS_NAMES);
    for number in [0, 4, 5, 6, 7, 9] {
        assert!(refused[number] > 20, "{refused:?}");
    }
}

/// The same token in a frame and without one, in the same window: the refusal, the
/// number, sealed or not, the length, the status and the window are the same, and
/// so is what stands in the token's place; the lead stays.
#[test]
fn framed_and_unframed_calls_receive_a_token_alike() {
    let mut inputs = Inputs::new(702);
    let (mut met, mut refused) = ([0; 7], [0; 8]);
    for terms in TokenTerms::all(&mut inputs) {
        for turn in 0..1_500 {
            let words = inputs.words();
            let (sequence, len) = (inputs.sequence_near(&words), inputs.pick(&LENS));
            let mut token = some(&mut inputs, &terms, sequence, len);
            if turn % 20 == 0 {
                token.wrapped.truncate(inputs.number(0, 32));
                token.signed.truncate(inputs.number(0, 23));
            }
            let data = &token.wrap.message;
            let agree = |framed: Receipt, alone: Receipt, token: &[u8]| {
                let lead = framed.reading.buf.len() - token.len();
                let before = &frame(token)[..lead];
                assert_eq!(framed.reading.answer(), alone.reading.answer());
                assert_eq!((framed.status, framed.words), (alone.status, alone.words));
                must_be_octets(&framed.reading.buf[..lead], before, "the lead");
                must_be_octets(&framed.reading.buf[lead..], &alone.reading.buf, "the token");
                (alone.status as usize, alone.reading.number as usize)
            };

            let framed = frame(&token.wrapped);
            let receipt = FRAMED.receive_wrap(words, &terms, &framed, 0, framed.len());
            let alone = TOKENS.receive_wrap(words, &terms, &token.wrapped, 0, token.wrapped.len());
            let (status, number) = agree(receipt, alone, &token.wrapped);
            met[status] += 1;
            refused[number] += 1;

            let framed = frame(&token.signed);
            let receipt = FRAMED.receive_mic(words, &terms, data, &framed, 0, framed.len());
            let alone =
                TOKENS.receive_mic(words, &terms, data, &token.signed, 0, token.signed.len());
            let (status, number) = agree(receipt, alone, &token.signed);
            met[status] += 1;
            refused[number] += 1;
        }
    }
    check_met(&met, &STATUS_NAMES);
    for number in [0, 1, 4, 5, 6, 7] {
        assert!(refused[number] > 20, "{refused:?}");
    }
}

/// A framed token is no token to the other calls, and the other way round: 4 for
/// its first octets, or 1 for a MIC's length, and 9.
#[test]
fn the_other_form_is_refused_and_not_billed() {
    let mut inputs = Inputs::new(703);
    for terms in TokenTerms::all(&mut inputs) {
        for len in LENS {
            let words = inputs.words();
            let sequence = inputs.sequence_near(&words);
            let wrap = Wrap {
                sequence,
                ..Wrap::new(&mut inputs, len % 2 == 0, len)
            };
            let (token, mic) = (terms.wrap(&wrap), terms.mic(sequence, &wrap.message));
            let (framed, framed_mic) = (frame(&token), frame(&mic));
            let data = &wrap.message;
            (TOKENS.receive_wrap(words, &terms, &framed, 0, framed.len()))
                .must_be(&Receipt::refused(4, words, &framed), len);
            (TOKENS.receive_mic(words, &terms, data, &framed_mic, 0, 37))
                .must_be(&Receipt::refused(1, words, &framed_mic), len);
            (FRAMED.receive_wrap(words, &terms, &token, 0, token.len()))
                .must_be(&Receipt::refused(9, words, &token), len);
            (FRAMED.receive_mic(words, &terms, data, &mic, 0, 24))
                .must_be(&Receipt::refused(9, words, &mic), len);
        }
    }
}

/// Frames one after the other in one buffer: each is received where it stands, and
/// the others stay as they are.
#[test]
fn frames_side_by_side_are_received_each_in_its_region() {
    let mut inputs = Inputs::new(704);
    for terms in TokenTerms::all(&mut inputs) {
        let first = u32::MAX - 3;
        let (mut buf, mut regions, mut plain) = (Vec::new(), Vec::new(), Vec::new());
        for (distance, len) in (0..).zip(LENS) {
            let sequence = first.wrapping_add(distance);
            let wrap = Wrap {
                sequence,
                ..Wrap::new(&mut inputs, distance % 3 > 0, len)
            };
            let framed = frame(&terms.wrap(&wrap));
            regions.push((buf.len(), framed.len(), sequence));
            buf.extend(&framed);
            plain.push([&wrap.message[..], &[0x01]].concat());
        }
        let mut words = calls::window_new(first);
        for (turn, &(start, length, sequence)) in regions.iter().enumerate() {
            let receipt = FRAMED.receive_wrap(words, &terms, &buf, start, length);
            let answer = (
                receipt.reading.number,
                receipt.reading.sequence,
                receipt.status,
            );
            assert_eq!(answer, (0, sequence, 1));
            let after = &receipt.reading.buf;
            must_be_octets(&after[..start], &buf[..start], "before");
            must_be_octets(&after[start + length..], &buf[start + length..], "after");
            let message = start + length - 1 - receipt.reading.len;
            must_be_octets(&after[message..start + length], &plain[turn], "message");
            (words, buf) = (receipt.words, receipt.reading.buf);
        }
        assert_eq!(words, [first.into(), 8, 0xff, 8]);
    }
}
