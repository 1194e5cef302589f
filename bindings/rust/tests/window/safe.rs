//! The safe window: its methods do as the calls do, and take areas that share
//! octets.

use rc4hmac::{Context, ReceivedMic, ReceivedWrap, Refusal, Status, Window};
use reference::clerk::is_billed;
use reference::{window, TokenTerms, Wrap, MIC};
use support::calls::{self, context};
use support::programs::{Form, FRAMED, TOKENS};
use support::{AllTerms, Inputs, RandomWrap};

type Wraps = fn(&mut Window, &Context, &mut [u8], usize, usize) -> Result<ReceivedWrap, Refusal>;
type Mics = fn(&mut Window, &Context, &[u8], &[u8], usize, usize) -> Result<ReceivedMic, Refusal>;

/// The methods for the tokens of a form.
struct Methods {
    form: &'static Form,
    wrap: Wraps,
    mic: Mics,
}

static METHODS: [Methods; 2] = [
    Methods {
        form: &TOKENS,
        wrap: Window::receive_wrap,
        mic: Window::receive_mic,
    },
    Methods {
        form: &FRAMED,
        wrap: Window::receive_framed_wrap,
        mic: Window::receive_framed_mic,
    },
];

#[test]
fn the_safe_window_does_as_the_calls_do() {
    let mut inputs = Inputs::new(445);
    for first in [0, 1, 1 << 31, u32::MAX] {
        assert_eq!(Window::new(first).words(), calls::window_new(first));
    }
    for turn in 0..4_000 {
        let words = inputs.words();
        let sequence = inputs.sequence_near(&words);
        let (status, after) = window::bill(words, sequence);
        let mut billed = Window::from_words(words);
        assert_eq!(
            (billed.words(), billed.missing()),
            (words, window::missing(words))
        );
        assert_eq!(billed.bill(sequence).number(), status);
        assert_eq!((billed.words(), billed.billed()), (after, after[3]));

        let Methods { form, wrap, mic } = &METHODS[turn / 8 % 2];
        let terms = TokenTerms::all(&mut inputs)[turn % 4];
        let (context, sealed) = (context(&terms), turn % 8 < 4);
        let content = Wrap {
            sequence,
            ..Wrap::new(&mut inputs, sealed, 20)
        };
        let token = form.form(&terms.wrap(&content));
        let (mut buf, start) = inputs.around(&token);
        let length = token.len();
        let expected = (form.expected_receipts.wrap)(words, &terms, &buf, start, length);
        let mut wrapped = Window::from_words(words);
        let received = wrap(&mut wrapped, &context, &mut buf, start, length).unwrap();
        let opened = received.opened;
        let answer = (0, opened.sequence, opened.sealed.into(), opened.message_len);
        assert_eq!(answer, expected.reading.answer());
        assert_eq!(received.status.is_billed(), is_billed(status));
        assert_eq!((&wrapped, received.status.number()), (&billed, status));
        assert!(buf == expected.reading.buf);

        let token = form.form(&terms.mic(sequence, &content.message));
        let (buf, start) = inputs.around(&token);
        let mut signed = Window::from_words(words);
        let received = mic(
            &mut signed,
            &context,
            &content.message,
            &buf,
            start,
            token.len(),
        )
        .unwrap();
        assert_eq!(
            (received.sequence, received.status.number()),
            (sequence, status)
        );
        assert_eq!(signed, billed);
    }
}

/// Shared borrows may overlap: the key with the data, and both with the buffer.
#[test]
fn a_mic_is_received_from_areas_that_share_octets() {
    let mut inputs = Inputs::new(446);
    for Methods { form, mic, .. } in &METHODS {
        for terms in TokenTerms::all(&mut inputs) {
            let (context, mut window) = (context(&terms), Window::new(7));
            for (sequence, data) in [(7, &context.key[..]), (8, &context.key[3..9])] {
                let token = form.form(&terms.mic(sequence, data));
                let received = mic(&mut window, &context, data, &token, 0, token.len()).unwrap();
                assert_eq!(received.sequence, sequence);
                assert_eq!(received.status, Status::InOrder);
            }

            // The data, and then their token, in one buffer; and the key as one.
            let data = inputs.octets(100);
            let token = form.form(&terms.mic(8, &data));
            let whole = [&data[..], &token].concat();
            let received = mic(
                &mut window,
                &context,
                &whole[..100],
                &whole,
                100,
                token.len(),
            );
            assert_eq!(received.unwrap().status, Status::Duplicate);
            let answer = mic(&mut window, &context, &context.key, &context.key, 0, MIC);
            assert_eq!(answer, Err(Refusal::Region));
            assert_eq!(window.words(), [7, 2, 0b11, 2]);
        }
    }
}

#[test]
fn a_window_is_kept_as_words_and_taken_up_again() {
    let mut inputs = Inputs::new(447);
    let mut window = Window::new(u32::MAX - 20);
    for _ in 0..500 {
        let sequence = inputs.sequence_near(&window.words());
        let mut taken_up = Window::from_words(window.words());
        assert_eq!(taken_up, window);
        assert_eq!(taken_up.bill(sequence), window.bill(sequence));
        assert_eq!(taken_up, window);
    }
}
