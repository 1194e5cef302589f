//! The reference implementation, and then the library, on tokens that MIT krb5
//! and Heimdal wrote, whole in their frames and out of them: each is opened,
//! written again octet for octet, and refused where it should be.

use rc4hmac::{Context, Opened, ReceivedMic, ReceivedWrap, Refusal, Window};
use reference::clerk::{DUPLICATE, GAP, IN_ORDER};
use reference::{read_lead, Clerk, Reading, TokenTerms, Wrap, PAD};
use support::calls::context;
use support::programs::{Program, FRAMED_LIBRARY, FRAMED_REFERENCE, LIBRARY, REFERENCE};
use support::{must_be_octets, MustBe};

use crate::data::implementations::{heimdal, mit_krb5, Kind, Token};

const KINDS: [Kind; 3] = [Kind::Mic, Kind::Sealed, Kind::Clear];

/// A token of the files, with its frame or out of it.
struct Sent {
    terms: TokenTerms,
    kind: Kind,
    sequence: u32,
    message: Vec<u8>,
    /// How many octets stand before the token.
    lead: usize,
    octets: Vec<u8>,
}

impl Sent {
    fn framed(token: Token) -> Sent {
        Sent {
            terms: TokenTerms {
                key: token.key,
                export: token.export,
                acceptor: token.acceptor,
            },
            kind: token.kind,
            sequence: token.sequence,
            message: token.message,
            lead: read_lead(&token.framed).unwrap(),
            octets: token.framed,
        }
    }

    fn unframed(token: Token) -> Sent {
        let framed = Sent::framed(token);
        Sent {
            lead: 0,
            octets: framed.octets[framed.lead..].to_vec(),
            ..framed
        }
    }

    fn all(sent: fn(Token) -> Sent) -> Vec<Sent> {
        let tokens = mit_krb5().into_iter().chain(heimdal());
        tokens.map(sent).collect()
    }

    /// For messages of a test.
    fn name(&self) -> (&'static str, &'static str, Kind, u32) {
        let (strength, sender) = self.terms.name();
        (strength, sender, self.kind, self.sequence)
    }

    /// What a reader answers.
    fn answer(&self) -> (u32, u32, u32, usize) {
        let len = match self.kind {
            Kind::Mic => 0,
            _ => self.message.len(),
        };
        (0, self.sequence, (self.kind == Kind::Sealed).into(), len)
    }

    /// Where the message stands: the pad is the last octet.
    fn message_start(&self) -> usize {
        self.octets.len() - 1 - self.message.len()
    }

    /// What is in the token, the confounder as it came out of it.
    fn wrap(&self, opened: &[u8]) -> Wrap {
        let (before, _) = opened.split_at(self.message_start());
        Wrap {
            sequence: self.sequence,
            confounder: *before.last_chunk().unwrap(),
            sealed: self.kind == Kind::Sealed,
            message: self.message.clone(),
        }
    }

    /// With one octet of what is signed changed, at the front, in the middle and
    /// at the end, of no data by an octet more: the data and the token.
    fn changed(&self) -> Vec<(Vec<u8>, Vec<u8>)> {
        let mut changed = Vec::new();
        if self.kind == Kind::Mic && self.message.is_empty() {
            changed.push((vec![0], self.octets.clone()));
            return changed;
        }
        let places = match self.kind {
            Kind::Mic => 0..self.message.len(),
            _ => self.lead + 24..self.octets.len(),
        };
        for at in [
            places.start,
            (places.start + places.end) / 2,
            places.end - 1,
        ] {
            let (mut data, mut token) = (self.message.clone(), self.octets.clone());
            match self.kind {
                Kind::Mic => data[at] ^= 0x01,
                _ => token[at] ^= 0x01,
            }
            changed.push((data, token));
        }
        changed
    }
}

/// The checks of the reference implementation and of the library.
trait Checks {
    fn read(&self, kind: Kind, terms: &TokenTerms, data: &[u8], token: &[u8]) -> Reading;
    fn check_opened_and_written_again(&self, sent: fn(Token) -> Sent);
    fn check_refused(&self, sent: fn(Token) -> Sent);
}

impl Checks for Program {
    fn read(&self, kind: Kind, terms: &TokenTerms, data: &[u8], token: &[u8]) -> Reading {
        match kind {
            Kind::Mic => (self.mic_read)(terms, data, token, 0, token.len()),
            _ => (self.wrap_open)(terms, token, 0, token.len()),
        }
    }

    fn check_opened_and_written_again(&self, sent: fn(Token) -> Sent) {
        for sent in Sent::all(sent) {
            let (terms, name, octets) = (&sent.terms, sent.name(), &sent.octets);
            let opened = self.read(sent.kind, terms, &sent.message, octets);
            assert_eq!(opened.answer(), sent.answer(), "{name:?}");
            let written = if sent.kind == Kind::Mic {
                must_be_octets(&opened.buf, octets, name);
                let place = vec![0; octets.len()];
                (self.mic_write)(terms, sent.sequence, &sent.message, &place, 0)
            } else {
                let (front, kept) = (sent.message_start(), sent.lead + 24);
                must_be_octets(&opened.buf[..kept], &octets[..kept], name);
                let plain = [&sent.message[..], &[PAD]].concat();
                must_be_octets(&opened.buf[front..], &plain, name);
                let place = [&vec![0; front], &sent.message[..], &[0]].concat();
                let wrap = sent.wrap(&opened.buf);
                (self.wrap_write)(terms, &wrap, &place, 0, sent.message.len())
            };
            assert_eq!((written.number, written.len), (0, octets.len()));
            must_be_octets(&written.buf, octets, name);
        }
    }

    fn check_refused(&self, sent: fn(Token) -> Sent) {
        for sent in Sent::all(sent) {
            let (export, acceptor) = (!sent.terms.export, !sent.terms.acceptor);
            for other in [
                TokenTerms {
                    export,
                    ..sent.terms
                },
                TokenTerms {
                    acceptor,
                    ..sent.terms
                },
            ] {
                let reading = self.read(sent.kind, &other, &sent.message, &sent.octets);
                reading.must_be(
                    &Reading::refused(5, &sent.octets),
                    (sent.name(), other.name()),
                );
            }
            for (data, token) in sent.changed() {
                let reading = self.read(sent.kind, &sent.terms, &data, &token);
                reading.must_be(&Reading::refused(6, &token), sent.name());
            }
        }
    }
}

/// Of one strength both senders with the three kinds, each empty and not, and
/// lengths of a frame in every form.
fn check_sorts(tokens: &[Token], export: bool) {
    for acceptor in [false, true] {
        for kind in KINDS {
            for empty in [false, true] {
                let what = (export, acceptor, kind, empty);
                let sort = |token: &Token| {
                    let empty = token.message.is_empty();
                    (token.export, token.acceptor, token.kind, empty) == what
                };
                assert!(tokens.iter().any(sort), "{what:?}");
            }
        }
    }
    for form in [0x23, 0x2c, 0x7f, 0x81, 0x82] {
        let sort = |token: &Token| (token.export, token.framed[1]) == (export, form);
        assert!(tokens.iter().any(sort), "{export} {form:02x}");
    }
}

/// MIT krb5 has the longest message for each strength too. Heimdal has no export
/// strength.
#[test]
fn the_files_hold_tokens_of_every_sort() {
    let (mit_krb5, heimdal) = (mit_krb5(), heimdal());
    assert_eq!((mit_krb5.len(), heimdal.len()), (50, 30));
    check_sorts(&heimdal, false);
    for export in [false, true] {
        check_sorts(&mit_krb5, export);
        let longest = |token: &Token| (token.export, token.message.len()) == (export, 32_768);
        assert!(mit_krb5.iter().any(longest));
    }
}

#[test]
fn reference_opens_the_tokens_and_writes_them_again() {
    REFERENCE.check_opened_and_written_again(Sent::unframed);
}

#[test]
fn reference_opens_the_frames_and_writes_them_again() {
    FRAMED_REFERENCE.check_opened_and_written_again(Sent::framed);
}

#[test]
fn reference_refuses_another_sender_another_strength_and_changed_octets() {
    REFERENCE.check_refused(Sent::unframed);
    FRAMED_REFERENCE.check_refused(Sent::framed);
}

#[test]
fn library_opens_the_tokens_and_writes_them_again() {
    LIBRARY.check_opened_and_written_again(Sent::unframed);
}

#[test]
fn library_opens_the_frames_and_writes_them_again() {
    FRAMED_LIBRARY.check_opened_and_written_again(Sent::framed);
}

#[test]
fn library_refuses_another_sender_another_strength_and_changed_octets() {
    LIBRARY.check_refused(Sent::unframed);
    FRAMED_LIBRARY.check_refused(Sent::framed);
}

/// A token in its frame is no token, and a token without it no frame.
#[test]
fn library_takes_each_form_by_its_own_calls_alone() {
    for (library, sent, number) in [
        (LIBRARY, Sent::framed as fn(Token) -> Sent, 4),
        (FRAMED_LIBRARY, Sent::unframed, 9),
    ] {
        for sent in Sent::all(sent) {
            let reading = library.read(sent.kind, &sent.terms, &sent.message, &sent.octets);
            // For the first 24 octets are no MIC, and 32,816 are too many.
            let by_length = match sent.kind {
                Kind::Mic => sent.octets.len() != 24,
                _ => sent.octets.len() > 32_801,
            };
            let number = if number == 4 && by_length { 1 } else { number };
            reading.must_be(&Reading::refused(number, &sent.octets), sent.name());
        }
    }
}

type MicWrite = fn(&Context, u32, &[u8], &mut [u8], usize) -> Result<usize, Refusal>;
type MicRead = fn(&Context, &[u8], &[u8], usize, usize) -> Result<u32, Refusal>;
type WrapWrite =
    fn(&Context, u32, &[u8; 8], bool, &mut [u8], usize, usize) -> Result<usize, Refusal>;
type WrapOpen = fn(&Context, &mut [u8], usize, usize) -> Result<Opened, Refusal>;

/// The safe functions of one form.
struct Safe {
    mic_write: MicWrite,
    mic_read: MicRead,
    wrap_write: WrapWrite,
    wrap_open: WrapOpen,
}

impl Safe {
    fn check_opened_and_written_again(&self, sent: fn(Token) -> Sent) {
        for sent in Sent::all(sent) {
            let (context, sequence) = (context(&sent.terms), sent.sequence);
            let (message, mut buf) = (&sent.message, sent.octets.clone());
            let length = buf.len();
            let written = if sent.kind == Kind::Mic {
                let read = (self.mic_read)(&context, message, &buf, 0, length);
                assert_eq!(read, Ok(sequence));
                buf.fill(0);
                (self.mic_write)(&context, sequence, message, &mut buf, 0)
            } else {
                let (sealed, len) = (sent.kind == Kind::Sealed, message.len());
                let opened = Opened {
                    sequence,
                    sealed,
                    message_len: len,
                };
                let answer = (self.wrap_open)(&context, &mut buf, 0, length);
                assert_eq!(answer, Ok(opened));
                let confounder = sent.wrap(&buf).confounder;
                buf[..sent.message_start()].fill(0);
                (self.wrap_write)(&context, sequence, &confounder, sealed, &mut buf, 0, len)
            };
            assert_eq!(written, Ok(length));
            must_be_octets(&buf, &sent.octets, sent.name());
        }
    }
}

#[test]
fn the_safe_functions_open_the_tokens_and_write_them_again() {
    let safe = Safe {
        mic_write: rc4hmac::mic_write,
        mic_read: rc4hmac::mic_read,
        wrap_write: rc4hmac::wrap_write,
        wrap_open: rc4hmac::wrap_open,
    };
    safe.check_opened_and_written_again(Sent::unframed);
}

#[test]
fn the_safe_functions_open_the_frames_and_write_them_again() {
    let safe = Safe {
        mic_write: rc4hmac::framed_mic_write,
        mic_read: rc4hmac::framed_mic_read,
        wrap_write: rc4hmac::framed_wrap_write,
        wrap_open: rc4hmac::framed_wrap_open,
    };
    safe.check_opened_and_written_again(Sent::framed);
}

type ReceiveMic =
    fn(&mut Window, &Context, &[u8], &[u8], usize, usize) -> Result<ReceivedMic, Refusal>;
type ReceiveWrap =
    fn(&mut Window, &Context, &mut [u8], usize, usize) -> Result<ReceivedWrap, Refusal>;

/// The methods of a window that receive the tokens of one form.
struct Receiver {
    sent: fn(Token) -> Sent,
    mic: ReceiveMic,
    wrap: ReceiveWrap,
}

const UNFRAMED: Receiver = Receiver {
    sent: Sent::unframed,
    mic: Window::receive_mic,
    wrap: Window::receive_wrap,
};

const FRAMED: Receiver = Receiver {
    sent: Sent::framed,
    mic: Window::receive_framed_mic,
    wrap: Window::receive_framed_wrap,
};

/// The status of the number that a window gives the token.
fn receive(receiver: &Receiver, window: &mut Window, sent: &Sent) -> Result<u32, Refusal> {
    let (context, mut buf) = (context(&sent.terms), sent.octets.clone());
    let length = buf.len();
    let status = match sent.kind {
        Kind::Mic => (receiver.mic)(window, &context, &sent.message, &buf, 0, length)?.status,
        _ => (receiver.wrap)(window, &context, &mut buf, 0, length)?.status,
    };
    Ok(status.number())
}

/// One sender's tokens of these kinds in the order of the file, and then once
/// more.
fn check_billed(
    receiver: &Receiver,
    tokens: Vec<Token>,
    export: bool,
    acceptor: bool,
    kinds: &[Kind],
) -> Vec<u32> {
    let mut session: Vec<Sent> = tokens.into_iter().map(receiver.sent).collect();
    session.retain(|sent| (sent.terms.export, sent.terms.acceptor) == (export, acceptor));
    session.retain(|sent| kinds.contains(&sent.kind));
    let first = session[0].sequence;
    let (mut window, mut clerk) = (Window::new(first), Clerk::new(first));
    let mut statuses = Vec::new();
    for sent in &session {
        let status = receive(receiver, &mut window, sent).unwrap();
        assert_eq!(status, clerk.bill(sent.sequence), "{:?}", sent.name());
        assert_eq!(window.words(), clerk.words());
        assert_eq!(window.missing(), clerk.missing());
        statuses.push(status);
    }
    for sent in &session {
        assert_eq!(receive(receiver, &mut window, sent), Ok(DUPLICATE));
    }
    assert_eq!(window.billed(), session.len() as u64);
    statuses
}

/// The file of MIT krb5 leaves out some numbers, and that of Heimdal none.
fn check_senders(receiver: &Receiver) {
    for acceptor in [false, true] {
        for export in [false, true] {
            // A MIC, a sealed and a clear token have numbers that follow.
            let statuses = check_billed(receiver, mit_krb5(), export, acceptor, &KINDS);
            assert_eq!(statuses[..4], [IN_ORDER, IN_ORDER, IN_ORDER, GAP]);
            let statuses = check_billed(receiver, mit_krb5(), export, acceptor, &[Kind::Sealed]);
            assert!(statuses.len() >= 4);
            assert_eq!(statuses[0], IN_ORDER);
            assert!(statuses[1..].iter().all(|&status| status == GAP));
        }
        let statuses = check_billed(receiver, heimdal(), false, acceptor, &KINDS);
        assert_eq!(statuses, [IN_ORDER; 15]);
    }
}

#[test]
fn a_window_bills_the_tokens_of_one_sender_as_the_clerk_bills() {
    check_senders(&UNFRAMED);
}

#[test]
fn a_window_bills_the_frames_of_one_sender_as_the_clerk_bills() {
    check_senders(&FRAMED);
}
