//! Whole sessions, compared with the clerk: sealed, clear and empty Wrap tokens
//! and MICs of the reference implementation, without the frame and in it, out of
//! order, repeated and damaged.

use reference::clerk::{is_billed, STATUS_NAMES};
use reference::{window, Clerk, Receipt, TokenTerms, Words, Wrap};
use support::programs::{Form, FORMS, FRAMED, TOKENS};
use support::{calls, AllTerms, Inputs, MustBe, RandomWrap};

const FIRSTS: [u32; 4] = [0, 1 << 31, u32::MAX - 2, 77];

/// A token as it was sent, with the data if it is a MIC.
#[derive(Clone)]
struct Sent {
    form: &'static Form,
    sequence: u32,
    /// With its frame, if it has one.
    token: Vec<u8>,
    /// The octets of the frame before it.
    lead: usize,
    data: Option<Vec<u8>>,
    /// Whether another number in it would be found out.
    sealed: bool,
}

impl Sent {
    fn new(inputs: &mut Inputs, terms: &TokenTerms, form: &'static Form, sequence: u32) -> Sent {
        let len = inputs.pick(&[0, 1, 8, 31, 100, 250]);
        let [mic, sealed] = [0; 2].map(|_| inputs.number(0, 1) == 1);
        let wrap = Wrap {
            sequence,
            ..Wrap::new(inputs, sealed, len)
        };
        let token = match mic {
            true => terms.mic(sequence, &wrap.message),
            false => terms.wrap(&wrap),
        };
        let formed = form.form(&token);
        Sent {
            form,
            sequence,
            lead: formed.len() - token.len(),
            token: formed,
            data: mic.then_some(wrap.message),
            sealed: sealed && !mic,
        }
    }

    /// One bit changed, but not where another number would come of it.
    fn damaged(&self, inputs: &mut Inputs) -> Sent {
        let mut damaged = self.clone();
        let number = self.lead + 8..self.lead + 12;
        let places: Vec<usize> = (0..self.token.len())
            .filter(|place| self.sealed || !number.contains(place))
            .collect();
        damaged.token[inputs.pick(&places)] ^= 1 << inputs.number(0, 7);
        damaged
    }

    /// The token at `start` of the buffer, received.
    #[track_caller]
    fn receive(&self, words: Words, terms: &TokenTerms, buf: &[u8], start: usize) -> Receipt {
        let length = self.token.len();
        match &self.data {
            Some(data) => (self.form).receive_mic(words, terms, data, buf, start, length),
            None => self.form.receive_wrap(words, terms, buf, start, length),
        }
    }
}

/// What comes in: each token up to three times, up to `reach` places behind its
/// own, and some damaged on the way.
fn arrivals(inputs: &mut Inputs, sent: &[Sent], reach: usize) -> Vec<Sent> {
    let mut places = Vec::new();
    for (i, token) in sent.iter().enumerate() {
        for _ in 0..inputs.pick(&[0, 1, 1, 1, 1, 1, 2, 3]) {
            places.push((i + inputs.number(0, reach), token.clone()));
        }
        if inputs.number(0, 4) == 0 {
            places.push((i + inputs.number(0, reach), token.damaged(inputs)));
        }
    }
    places.sort_by_key(|place| place.0);
    places.into_iter().map(|place| place.1).collect()
}

struct Session {
    terms: TokenTerms,
    clerk: Clerk,
    words: Words,
    /// How often each status came, and of these how often with no message.
    met: [u32; 7],
    empty: [u32; 7],
    /// How often each refusal came.
    refused: [u32; 10],
}

impl Session {
    fn new(terms: TokenTerms, first: u32) -> Session {
        Session {
            terms,
            clerk: Clerk::new(first),
            words: calls::window_new(first),
            met: [0; 7],
            empty: [0; 7],
            refused: [0; 10],
        }
    }

    /// The token as it stands somewhere in a buffer.
    #[track_caller]
    fn receive(&mut self, inputs: &mut Inputs, sent: &Sent) {
        let (terms, words) = (&self.terms, self.words);
        let (buf, start) = inputs.around(&sent.token);
        let length = sent.token.len();
        let receipt = sent.receive(words, terms, &buf, start);
        let alone = match &sent.data {
            Some(data) => sent.form.mic_read(terms, data, &buf, start, length),
            None => sent.form.wrap_open(terms, &buf, start, length),
        };
        receipt.reading.must_be(&alone, sent.sequence);
        if receipt.reading.number == 0 {
            assert_eq!(receipt.reading.sequence, sent.sequence);
            assert_eq!(receipt.status, self.clerk.bill(sent.sequence));
            assert_eq!(receipt.words, self.clerk.words());
            let len = sent.data.as_ref().map_or(receipt.reading.len, Vec::len);
            self.empty[receipt.status as usize] += u32::from(len == 0);
        } else {
            receipt.must_be(&Receipt::refused(alone.number, words, &buf), words);
        }
        self.met[receipt.status as usize] += 1;
        self.refused[receipt.reading.number as usize] += 1;
        self.words = receipt.words;
        assert_eq!(calls::window_missing(&self.words), self.clerk.missing());
    }

    /// Sends and receives so many tokens, each in one of the forms.
    fn run(&mut self, inputs: &mut Inputs, forms: &[&'static Form], len: u32, reach: usize) {
        let (terms, first) = (self.terms, self.clerk.at(0));
        let sent: Vec<Sent> = (0..len)
            .map(|distance| {
                let form = inputs.pick(forms);
                Sent::new(inputs, &terms, form, first.wrapping_add(distance))
            })
            .collect();
        for arrival in arrivals(inputs, &sent, reach) {
            self.receive(inputs, &arrival);
        }
        // Numbers of before the session and of beyond its end.
        for distance in [u32::MAX, u32::MAX - 70, 1 << 31, (1 << 31) + 1] {
            let form = inputs.pick(forms);
            let sent = Sent::new(inputs, &terms, form, first.wrapping_add(distance));
            self.receive(inputs, &sent);
        }
        let billed: u32 = (1..7)
            .filter(|&status| is_billed(status))
            .map(|status| self.met[status as usize])
            .sum();
        assert_eq!(self.words[3], billed.into());
    }
}

/// Sessions of every kind with tokens in these forms. Every status came often,
/// also with an empty message, and so did these refusals.
fn check_sessions(number: u64, forms: &[&'static Form], refusals: &[usize]) {
    let mut inputs = Inputs::new(number);
    let (mut met, mut empty, mut refused) = ([0; 7], [0; 7], [0; 10]);
    for terms in TokenTerms::all(&mut inputs) {
        for first in FIRSTS {
            for reach in [0, 5, 64, 150] {
                let mut session = Session::new(terms, first);
                session.run(&mut inputs, forms, 300, reach);
                met = std::array::from_fn(|status| met[status] + session.met[status]);
                empty = std::array::from_fn(|status| empty[status] + session.empty[status]);
                refused = std::array::from_fn(|number| refused[number] + session.refused[number]);
            }
        }
    }
    for (name, times) in STATUS_NAMES.into_iter().zip(met) {
        assert!(times > 200, "{name}: {times}");
    }
    for (name, times) in STATUS_NAMES.into_iter().zip(empty).skip(1) {
        assert!(times > 20, "{name} with no message: {times}");
    }
    for number in 1..10 {
        let came = refused[number] > 20;
        assert_eq!(came, refusals.contains(&number), "{number}: {refused:?}");
    }
}

#[test]
fn sessions_out_of_order_with_repeats_and_damage_are_billed_as_the_clerk_bills() {
    check_sessions(450, &[&TOKENS], &[4, 5, 6]);
}

#[test]
fn framed_sessions_out_of_order_with_repeats_and_damage_are_billed_as_the_clerk_bills() {
    check_sessions(452, &[&FRAMED], &[4, 5, 6, 9]);
}

/// One window for tokens in the frame and without it.
#[test]
fn sessions_of_both_forms_are_billed_as_the_clerk_bills() {
    check_sessions(453, &FORMS, &[4, 5, 6, 9]);
}

/// Framed numbers that pass from 2^32 - 1 to 0, in order, then each again; the
/// words are written out, what no reference computes.
#[test]
fn framed_numbers_go_on_from_2_32_minus_1_to_0() {
    let mut inputs = Inputs::new(454);
    for terms in TokenTerms::all(&mut inputs) {
        let first = u32::MAX - 2;
        let mut words = calls::window_new(first);
        for (turn, status) in [1, 4].into_iter().enumerate() {
            for distance in 0..6 {
                let sequence = first.wrapping_add(distance);
                let sent = Sent::new(&mut inputs, &terms, &FRAMED, sequence);
                let receipt = sent.receive(words, &terms, &sent.token, 0);
                assert_eq!(receipt.reading.answer().0, 0);
                assert_eq!(
                    (receipt.reading.sequence, receipt.status),
                    (sequence, status)
                );
                words = receipt.words;
                let billed = if turn == 0 { distance + 1 } else { 6 };
                let marks = (1 << billed) - 1;
                assert_eq!(words, [first.into(), billed.into(), marks, billed.into()]);
            }
        }
    }
}

/// Two sessions of two senders under one key, each with a window of its own.
#[test]
fn the_windows_of_two_senders_are_apart() {
    let mut inputs = Inputs::new(451);
    let key = inputs.array();
    for (export, form) in [false, true]
        .into_iter()
        .flat_map(|e| FORMS.map(|f| (e, f)))
    {
        let senders = [false, true].map(|acceptor| TokenTerms {
            key,
            export,
            acceptor,
        });
        let mut windows = [[0; 4], [0; 4]];
        for sequence in (0..100).chain(0..100) {
            for (sender, terms) in senders.iter().enumerate() {
                let sent = Sent::new(&mut inputs, terms, form, sequence);
                for (reader, terms) in senders.iter().enumerate() {
                    let (words, token) = (windows[reader], &sent.token);
                    let receipt = sent.receive(words, terms, token, 0);
                    if reader == sender {
                        let (status, after) = window::bill(words, sequence);
                        assert_eq!(receipt.reading.number, 0);
                        assert_eq!((receipt.status, receipt.words), (status, after));
                    } else {
                        receipt.must_be(&Receipt::refused(5, words, token), sequence);
                    }
                    windows[reader] = receipt.words;
                }
            }
        }
        assert_eq!(windows, [[0, 100, u64::MAX, 100]; 2]);
    }
}
