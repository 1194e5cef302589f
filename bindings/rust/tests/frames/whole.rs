//! Whole framed tokens, MIC and Wrap, compared with the reference implementation.

use rc4hmac::Opened;
use reference::{frame, lead, TokenTerms, Wrap, FRONT, PAD};
use support::calls::{self, context};
use support::programs::{framed_wrap_lead, FRAMED};
use support::{must_be_octets, AllTerms, Inputs, MustBe, RandomWrap};

const SEQUENCES: [u32; 4] = [0, 1, 1 << 31, u32::MAX];

/// Room for the framed token, with the message in its place.
fn place(inputs: &mut Inputs, wrap: &Wrap) -> Vec<u8> {
    let front = lead(wrap.message.len() + 33).len() + FRONT;
    [&inputs.octets(front), &wrap.message[..], &inputs.octets(1)].concat()
}

/// Written somewhere in a longer buffer, and opened again.
#[track_caller]
fn check_wrap(inputs: &mut Inputs, terms: &TokenTerms, wrap: &Wrap) {
    let len = wrap.message.len();
    let what = (terms.name(), wrap.sealed, wrap.sequence, len);
    let place = place(inputs, wrap);
    let (buf, start) = inputs.around(&place);
    let written = FRAMED.wrap_write(terms, wrap, &buf, start, len);
    let framed = frame(&terms.wrap(wrap));
    assert_eq!((written.number, written.len), (0, framed.len()), "{what:?}");
    must_be_octets(&written.buf[start..][..framed.len()], &framed, what);

    let opened = FRAMED.wrap_open(terms, &written.buf, start, framed.len());
    let answer = (0, wrap.sequence, u32::from(wrap.sealed), len);
    assert_eq!(opened.answer(), answer, "{what:?}");
    let plain = start + framed.len() - 1 - len - 8;
    must_be_octets(&opened.buf[..plain], &written.buf[..plain], what);
    must_be_octets(&opened.buf[plain..][..len + 9], &wrap.plain(PAD), what);
}

/// Written somewhere in a longer buffer, and read again.
#[track_caller]
fn check_mic(inputs: &mut Inputs, terms: &TokenTerms, sequence: u32, data: &[u8]) {
    let what = (terms.name(), sequence, data.len());
    let place = inputs.octets(37);
    let (buf, start) = inputs.around(&place);
    let written = FRAMED.mic_write(terms, sequence, data, &buf, start);
    assert_eq!((written.number, written.len), (0, 37), "{what:?}");
    let framed = frame(&terms.mic(sequence, data));
    must_be_octets(&written.buf[start..][..37], &framed, what);

    let read = FRAMED.mic_read(terms, data, &written.buf, start, 37);
    assert_eq!(read.answer(), (0, sequence, 0, 0), "{what:?}");
}

#[test]
fn wrap_tokens_of_every_length_to_300_are_the_references() {
    let mut inputs = Inputs::new(501);
    for terms in TokenTerms::all(&mut inputs) {
        for sealed in [false, true] {
            for len in 0..=300 {
                let wrap = Wrap::new(&mut inputs, sealed, len);
                check_wrap(&mut inputs, &terms, &wrap);
                let sequence = SEQUENCES[len % 4];
                check_wrap(&mut inputs, &terms, &Wrap { sequence, ..wrap });
            }
        }
    }
}

#[test]
fn wrap_tokens_of_long_messages_are_the_references() {
    let mut inputs = Inputs::new(502);
    for terms in TokenTerms::all(&mut inputs) {
        for sealed in [false, true] {
            let at_random = inputs.number(301, 32_700);
            for len in [at_random, 32_723, 32_724, 32_766, 32_767, 32_768] {
                let wrap = Wrap::new(&mut inputs, sealed, len);
                check_wrap(&mut inputs, &terms, &wrap);
            }
        }
    }
}

#[test]
fn mics_of_every_length_to_300_are_the_references() {
    let mut inputs = Inputs::new(503);
    for terms in TokenTerms::all(&mut inputs) {
        for len in 0..=300 {
            let (sequence, data) = (inputs.sequence(), inputs.octets(len));
            check_mic(&mut inputs, &terms, sequence, &data);
            check_mic(&mut inputs, &terms, SEQUENCES[len % 4], &data);
        }
    }
}

#[test]
fn mics_of_long_data_are_the_references() {
    let mut inputs = Inputs::new(504);
    for terms in TokenTerms::all(&mut inputs) {
        let at_random = inputs.number(301, 32_700);
        for len in [at_random, 32_766, 32_767, 32_768] {
            let (sequence, data) = (inputs.sequence(), inputs.octets(len));
            check_mic(&mut inputs, &terms, sequence, &data);
        }
    }
}

#[test]
fn tokens_of_every_bit_of_the_number_are_the_references() {
    let mut inputs = Inputs::new(505);
    for terms in TokenTerms::all(&mut inputs) {
        for sequence in (0..32).map(|bit| 1 << bit) {
            let data = inputs.octets(9);
            check_mic(&mut inputs, &terms, sequence, &data);
            for sealed in [false, true] {
                let wrap = Wrap::new(&mut inputs, sealed, 84);
                check_wrap(&mut inputs, &terms, &Wrap { sequence, ..wrap });
            }
        }
    }
}

/// By the library alone: what follows the lead is the token that the calls
/// without the frame write, read and open.
#[test]
fn the_token_in_a_frame_is_that_of_the_calls_without_it() {
    let mut inputs = Inputs::new(506);
    for terms in TokenTerms::all(&mut inputs) {
        for len in [0, 1, 83, 84, 211, 212, 1000, 32_768] {
            let data = inputs.octets(len);
            let framed = FRAMED.mic_write(&terms, 7, &data, &[0; 37], 0).buf;
            let token = calls::mic_write(&terms, 7, &data, &framed, 13);
            must_be_octets(&token.buf, &framed, len);
            let read = calls::mic_read(&terms, &data, &framed, 13, 24);
            assert_eq!(read.answer(), (0, 7, 0, 0));

            for sealed in [false, true] {
                let wrap = Wrap::new(&mut inputs, sealed, len);
                let (place, lead) = (place(&mut inputs, &wrap), framed_wrap_lead(len).1);
                let framed = FRAMED.wrap_write(&terms, &wrap, &place, 0, len).buf;
                let token = calls::wrap_write(&terms, &wrap, &place, lead, len);
                must_be_octets(&framed[lead..], &token.buf[lead..], len);
                let opened = FRAMED.wrap_open(&terms, &framed, 0, framed.len());
                calls::wrap_open(&terms, &framed, lead, len + 33).must_be(&opened, len);
            }
        }
    }
}

/// What stands before the message and in the pad's place is not looked at.
#[test]
fn the_octets_around_the_message_do_not_reach_the_frame() {
    let mut inputs = Inputs::new(507);
    for terms in TokenTerms::all(&mut inputs) {
        for (sealed, len) in [(false, 0), (true, 0), (false, 100), (true, 300)] {
            let wrap = Wrap::new(&mut inputs, sealed, len);
            let framed = frame(&terms.wrap(&wrap));
            let front = framed.len() - len - 1;
            for around in [[0x00; 48], [0xff; 48], [0x60; 48], inputs.array()] {
                let buf = [&around[..front], &wrap.message, &around[47..]].concat();
                let written = FRAMED.wrap_write(&terms, &wrap, &buf, 0, len);
                must_be_octets(&written.buf, &framed, len);
            }
        }
    }
}

#[test]
fn several_frames_stand_side_by_side_in_one_buffer() {
    let mut inputs = Inputs::new(508);
    let [terms, ..] = TokenTerms::all(&mut inputs);
    let lens = [0, 83, 84, 211, 212, 20];
    let wraps = lens.map(|len| Wrap::new(&mut inputs, len % 2 == 0, len));
    let frames = wraps.each_ref().map(|wrap| frame(&terms.wrap(wrap)));
    let mut buf = frames.concat();
    for i in [3, 0, 5, 4, 2, 1] {
        let start = frames[..i].concat().len();
        let opened = FRAMED.wrap_open(&terms, &buf, start, frames[i].len());
        let (sequence, sealed) = (wraps[i].sequence, wraps[i].sealed.into());
        assert_eq!(opened.answer(), (0, sequence, sealed, lens[i]));
        buf = opened.buf;
    }
    let opened = wraps.iter().zip(&frames).map(|(wrap, framed)| {
        let plain = wrap.plain(PAD);
        [&framed[..framed.len() - plain.len()], &plain].concat()
    });
    must_be_octets(&buf, &opened.collect::<Vec<_>>().concat(), "all opened");
}

#[test]
fn the_safe_functions_write_and_open_the_references_frames() {
    let mut inputs = Inputs::new(509);
    for terms in TokenTerms::all(&mut inputs) {
        let context = context(&terms);
        for len in [0, 1, 83, 84, 211, 212, 300, 32_768] {
            for sealed in [false, true] {
                let wrap = Wrap::new(&mut inputs, sealed, len);
                let (sequence, confounder) = (wrap.sequence, &wrap.confounder);
                let token = frame(&terms.wrap(&wrap));
                let (length, what) = (token.len(), (terms.name(), len));
                let lead = rc4hmac::framed_wrap_lead(len).unwrap();
                let front = vec![0x5a; 5 + lead + FRONT];
                let mut buf = [&front, &wrap.message[..], &[0x5a; 3]].concat();
                let written = rc4hmac::framed_wrap_write(
                    &context, sequence, confounder, sealed, &mut buf, 5, len,
                );
                assert_eq!(written, Ok(length));
                must_be_octets(&buf, &[&[0x5a; 5], &token[..], &[0x5a; 2]].concat(), what);

                let opened = Opened {
                    sequence,
                    sealed,
                    message_len: len,
                };
                let answer = rc4hmac::framed_wrap_open(&context, &mut buf, 5, length);
                assert_eq!(answer, Ok(opened));
                let plain = [&wrap.plain(PAD)[..], &[0x5a; 2]].concat();
                must_be_octets(&buf[5 + lead + 24..], &plain, what);
                let message = 5 + length - 1 - opened.message_len;
                must_be_octets(&buf[message..][..len], &wrap.message, what);
            }
            let (sequence, data) = (inputs.sequence(), inputs.octets(len));
            let mut buf = [0x5a; 42];
            let written = rc4hmac::framed_mic_write(&context, sequence, &data, &mut buf, 3);
            assert_eq!(written, Ok(rc4hmac::FRAMED_MIC_LEN));
            let framed = frame(&terms.mic(sequence, &data));
            must_be_octets(&buf, &[&[0x5a; 3], &framed[..], &[0x5a; 2]].concat(), len);
            let read = rc4hmac::framed_mic_read(&context, &data, &buf, 3, 37);
            assert_eq!(read, Ok(sequence));
        }
    }
}

/// Areas that the safe functions may be lent together, but the archive may not.
#[test]
fn the_safe_functions_take_areas_that_share_octets() {
    for terms in TokenTerms::all(&mut Inputs::new(510)) {
        let context = context(&terms);
        for at in 0..=8 {
            let confounder: &[u8; 8] = context.key[at..][..8].try_into().unwrap();
            let wrap = Wrap {
                sequence: 3,
                confounder: *confounder,
                sealed: true,
                message: b"a record".to_vec(),
            };
            let mut buf = [&[0; 13 + FRONT], &wrap.message[..], &[0]].concat();
            let written = rc4hmac::framed_wrap_write(&context, 3, confounder, true, &mut buf, 0, 8);
            assert_eq!(written, Ok(54));
            must_be_octets(&buf, &frame(&terms.wrap(&wrap)), at);

            let data = &context.key[at..];
            let mut buf = [0; 37];
            let written = rc4hmac::framed_mic_write(&context, 9, data, &mut buf, 0);
            assert_eq!(written, Ok(37));
            must_be_octets(&buf, &frame(&terms.mic(9, data)), at);
        }
        // The data of the MIC stand in the buffer, before it and behind it.
        let framed = frame(&terms.mic(5, b"data"));
        let buf = [b"data", &framed[..], b"data"].concat();
        for data in [&buf[..4], &buf[41..]] {
            assert_eq!(rc4hmac::framed_mic_read(&context, data, &buf, 4, 37), Ok(5));
        }
    }
}
