//! What the window calls do to the areas lent to them and to the guard octets
//! around them, at every alignment.

use rc4hmac::raw;
use reference::{window, Receipt, TokenTerms, Words, Wrap};
use support::areas::Guarded;
use support::programs::{Form, FRAMED, TOKENS};
use support::{must_be_octets, AllTerms, Inputs, RandomWrap};

fn octets_of(words: Words) -> Vec<u8> {
    words.map(u64::to_ne_bytes).concat()
}

/// What a window call is lent, each area between guard octets.
struct Lent {
    window: Guarded,
    key: Guarded,
    data: Guarded,
    buf: Guarded,
    sequence: Guarded,
    sealed: Guarded,
    len: Guarded,
    status: Guarded,
}

const NAMES: [&str; 8] = [
    "window", "key", "data", "buffer", "sequence", "sealed", "length", "status",
];

impl Lent {
    /// Only the words and the numbers that are written have to be aligned.
    fn new(inputs: &mut Inputs, words: Words, buf: &[u8], data: &[u8], alignment: usize) -> Lent {
        let mut lent = Lent {
            window: Guarded::new(inputs, 32, alignment / 8 * 8),
            key: Guarded::new(inputs, 16, (alignment * 3 + 1) % 16),
            data: Guarded::new(inputs, data.len(), (alignment * 7 + 3) % 16),
            buf: Guarded::new(inputs, buf.len(), alignment),
            sequence: Guarded::new(inputs, 4, alignment / 4 * 4),
            sealed: Guarded::new(inputs, 4, (alignment / 4 * 4 + 4) % 16),
            len: Guarded::new(inputs, 8, (alignment / 8 * 8 + 8) % 16),
            status: Guarded::new(inputs, 4, (alignment / 4 * 4 + 8) % 16),
        };
        lent.window.set(&octets_of(words));
        lent.data.set(data);
        lent.buf.set(buf);
        lent
    }

    fn areas(&self) -> [Vec<u8>; 8] {
        [
            &self.window,
            &self.key,
            &self.data,
            &self.buf,
            &self.sequence,
            &self.sealed,
            &self.len,
            &self.status,
        ]
        .map(|area| area.octets.clone())
    }

    /// All octets afterwards are those written here, or as they were.
    #[track_caller]
    fn check(&mut self, number: u32, after: [Vec<u8>; 8], call: impl FnOnce(&mut Lent) -> u32) {
        assert_eq!(call(self), number);
        for ((area, expected), name) in self.areas().iter().zip(&after).zip(NAMES) {
            must_be_octets(area, expected, name);
        }
    }

    /// The three window calls: `words` stand in the window.
    fn window_calls(&mut self, words: Words, sequence: u32) {
        let mut after = self.areas();
        after[7] = self.status.with(&window::missing(words).to_ne_bytes());
        // SAFETY: separate vectors with room for all, here and below.
        self.check(0, after, |lent| unsafe {
            raw::rc4hmac_window_missing(lent.window.ptr().cast(), lent.status.ptr().cast())
        });

        let (status, billed) = window::bill(words, sequence);
        let mut after = self.areas();
        after[0] = self.window.with(&octets_of(billed));
        after[7] = self.status.with(&status.to_ne_bytes());
        self.check(0, after, |lent| unsafe {
            let window = lent.window.ptr().cast();
            raw::rc4hmac_window_bill(window, sequence, lent.status.ptr().cast())
        });

        let mut after = self.areas();
        after[0] = self.window.with(&octets_of([sequence.into(), 0, 0, 0]));
        self.check(0, after, |lent| unsafe {
            raw::rc4hmac_window_new(sequence, lent.window.ptr().cast())
        });
    }

    /// The areas after a receipt, but for what only a Wrap token has.
    fn received(&self, expected: &Receipt) -> [Vec<u8>; 8] {
        let mut after = self.areas();
        after[0] = self.window.with(&octets_of(expected.words));
        after[3] = self.buf.with(&expected.reading.buf);
        after[4] = self.sequence.with(&expected.reading.sequence.to_ne_bytes());
        after[7] = self.status.with(&expected.status.to_ne_bytes());
        after
    }

    fn receive_wrap(
        &mut self,
        form: &Form,
        words: Words,
        terms: &TokenTerms,
        start: usize,
        length: usize,
    ) -> u32 {
        self.key.set(&terms.key);
        let buf = self.buf.lent();
        let buf_len = buf.len();
        let expected = (form.expected_receipts.wrap)(words, terms, buf, start, length);
        let mut after = self.received(&expected);
        after[5] = self.sealed.with(&expected.reading.sealed.to_ne_bytes());
        after[6] = self.len.with(&expected.reading.len.to_ne_bytes());
        self.check(expected.reading.number, after, |lent| unsafe {
            (form.receive.wrap)(
                lent.window.ptr().cast(),
                lent.key.ptr().cast(),
                terms.export.into(),
                terms.acceptor.into(),
                lent.buf.ptr(),
                buf_len,
                start,
                length,
                lent.sequence.ptr().cast(),
                lent.sealed.ptr().cast(),
                lent.len.ptr().cast(),
                lent.status.ptr().cast(),
            )
        });
        expected.reading.number
    }

    fn receive_mic(
        &mut self,
        form: &Form,
        words: Words,
        terms: &TokenTerms,
        start: usize,
        length: usize,
    ) -> u32 {
        self.key.set(&terms.key);
        let (data, buf) = (self.data.lent(), self.buf.lent());
        let (data_len, buf_len) = (data.len(), buf.len());
        let expected = (form.expected_receipts.mic)(words, terms, data, buf, start, length);
        let after = self.received(&expected);
        self.check(expected.reading.number, after, |lent| unsafe {
            (form.receive.mic)(
                lent.window.ptr().cast(),
                lent.key.ptr().cast(),
                terms.export.into(),
                terms.acceptor.into(),
                lent.data.ptr(),
                data_len,
                lent.buf.ptr(),
                buf_len,
                start,
                length,
                lent.sequence.ptr().cast(),
                lent.status.ptr().cast(),
            )
        });
        expected.reading.number
    }
}

#[test]
fn windows_at_every_alignment_are_right_and_no_octet_beside_them_changes() {
    let mut inputs = Inputs::new(460);
    for alignment in 0..16 {
        for _ in 0..200 {
            let words = inputs.words();
            let sequence = inputs.sequence_near(&words);
            Lent::new(&mut inputs, words, &[], &[], alignment).window_calls(words, sequence);
        }
    }
}

/// Whole tokens, damaged ones, other senders', regions past the buffer and too
/// long ones, and damaged leads, headers and bodies.
fn check_tokens_received(form: &Form, number: u64, refusals: &[u32]) {
    let mut inputs = Inputs::new(number);
    let mut met = [0; 10];
    for (alignment, len) in (0..16).flat_map(|alignment| [0, 1, 34, 64].map(|len| (alignment, len)))
    {
        for terms in TokenTerms::all(&mut inputs) {
            for fault in 0..8 {
                let words = inputs.words();
                let sequence = inputs.sequence_near(&words);
                let wrap = Wrap {
                    sequence,
                    ..Wrap::new(&mut inputs, len % 2 == 0, len)
                };
                let writer = TokenTerms {
                    acceptor: terms.acceptor != (fault == 2),
                    ..terms
                };
                let tokens = [writer.wrap(&wrap), writer.mic(sequence, &wrap.message)];
                for (token, is_mic) in tokens.into_iter().zip([false, true]) {
                    let mut formed = form.form(&token);
                    let lead = formed.len() - token.len();
                    match fault {
                        1 => formed[lead + inputs.number(12, 23)] ^= 1,
                        5 => formed[inputs.number(0, 12)] ^= 1,
                        6 => formed[lead] ^= 1,
                        7 => *formed.last_mut().unwrap() ^= 1,
                        _ => {}
                    }
                    let (buf, at) = inputs.around(&formed);
                    let past = if fault == 3 { 1_000 } else { 0 };
                    let longer = if fault == 4 { 32_768 } else { 0 };
                    let mut lent = Lent::new(&mut inputs, words, &buf, &wrap.message, alignment);
                    let (start, length) = (at + past, formed.len() + longer);
                    let refusal = match is_mic {
                        true => lent.receive_mic(form, words, &terms, start, length),
                        false => lent.receive_wrap(form, words, &terms, start, length),
                    };
                    met[refusal as usize] += 1;
                }
            }
        }
    }
    for number in 0..10 {
        let came = met[number as usize] > 0;
        assert_eq!(came, refusals.contains(&number), "{number}: {met:?}");
    }
}

#[test]
fn tokens_received_change_no_octet_but_the_answers_the_window_and_the_region() {
    check_tokens_received(&TOKENS, 461, &[0, 1, 2, 4, 5, 6]);
}

#[test]
fn framed_tokens_received_change_no_octet_but_the_answers_the_window_and_the_region() {
    check_tokens_received(&FRAMED, 466, &[0, 2, 4, 5, 6, 9]);
}
