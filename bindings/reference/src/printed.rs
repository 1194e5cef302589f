//! What the program `krbtoken` prints of keys, tokens, messages, refusals and
//! captures, computed by the reference implementation.

use super::clerk::{Clerk, STATUS_NAMES};
use super::frame::first_frame;
use super::frame_outcomes::wrap_open;
use super::token::TokenTerms;
use super::token_outcomes::Reading;

pub fn hexadecimal(octets: &[u8]) -> String {
    octets.iter().map(|octet| format!("{octet:02x}")).collect()
}

/// A key, a checksum or a key file.
pub fn digits(octets: &[u8]) -> String {
    format!("{}\n", hexadecimal(octets))
}

/// The octets after their name; of none the name alone.
fn named(name: &str, octets: &[u8]) -> String {
    match octets {
        [] => format!("{name}\n"),
        _ => format!("{name} {}\n", hexadecimal(octets)),
    }
}

fn refusal(number: u32) -> String {
    let words = match number {
        1 => "a length is outside the limits",
        3 => "the usage is not 1 to 15",
        4 => "the first eight octets are not a header of this kind of token",
        5 => {
            "the direction octets are not those of the expected sender; \
             a wrong key or strength shows so too"
        }
        6 => "the checksum differs",
        7 => "the last octet of the opened token is not 01",
        9 => "not one whole frame",
        _ => panic!("no call of the program is refused with {number}"),
    };
    format!("refused {number}: {words}")
}

pub fn refused(number: u32) -> String {
    format!("{}\n", refusal(number))
}

/// Of a token that was the whole of the reading's buffer.
pub fn opened(reading: &Reading) -> String {
    if reading.number != 0 {
        return refused(reading.number);
    }
    let message = reading.buf.len() - 1 - reading.len;
    let sealed = if reading.sealed == 1 { "yes" } else { "no" };
    format!(
        "sequence {}\nsealed {sealed}\nlength {}\n{}",
        reading.sequence,
        reading.len,
        named("message", &reading.buf[message..][..reading.len])
    )
}

pub fn verified(reading: &Reading) -> String {
    match reading.number {
        0 => format!("sequence {}\n", reading.sequence),
        number => refused(number),
    }
}

pub fn decrypted(data: &[u8]) -> String {
    format!("length {}\n{}", data.len(), named("data", data))
}

/// A capture that is billed token by token.
struct Bill {
    terms: TokenTerms,
    clerk: Clerk,
    refused: u32,
}

impl Bill {
    /// The line of one frame, after its place.
    fn line(&mut self, frame: &[u8]) -> String {
        let reading = wrap_open(&self.terms, frame, 0, frame.len());
        if reading.number != 0 {
            self.refused += 1;
            return refused(reading.number);
        }
        let status = self.clerk.bill(reading.sequence);
        format!(
            "sequence {} {} length {}{}\n",
            reading.sequence,
            STATUS_NAMES[status as usize],
            reading.len,
            if reading.sealed == 1 { "" } else { " clear" }
        )
    }

    fn fault(&mut self) -> String {
        self.refused += 1;
        format!("{}; what follows can't be told apart\n", refusal(9))
    }

    fn totals(&self) -> String {
        format!(
            "billed {}\nmissing {}\nrefused {}\n",
            self.clerk.count(),
            self.clerk.missing(),
            self.refused
        )
    }
}

/// What is printed of a whole capture, and the exit status.
pub fn billed(terms: &TokenTerms, first: u32, capture: &[u8]) -> (String, i32) {
    let mut bill = Bill {
        terms: *terms,
        clerk: Clerk::new(first),
        refused: 0,
    };
    let (mut lines, mut at) = (String::new(), 0);
    while at < capture.len() {
        let Some(frame) = first_frame(&capture[at..]) else {
            lines += &format!("at {at} {}", bill.fault());
            return (lines + &bill.totals(), 1);
        };
        lines += &format!("at {at} {}", bill.line(frame));
        at += frame.len();
    }
    (lines + &bill.totals(), 0)
}
