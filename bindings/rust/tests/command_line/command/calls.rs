//! A call of each verb that is done, for its words, its key file, its input and
//! its output to be made wrong one by one.

use std::ffi::OsStr;

use reference::frame_outcomes;
use reference::printed::{billed, decrypted, digits, hexadecimal, opened};
use reference::{checksum, frame, password_key, Terms, TokenTerms, Wrap};

use super::{message_words, run, token_words, Run, Scratch};

/// The usage of each verb, as a wrong number of words is answered.
pub const USAGES: [&str; 10] = [
    "krbtoken key",
    "krbtoken open KEYFILE full|export initiator|acceptor [framed]",
    "krbtoken wrap KEYFILE full|export initiator|acceptor SEQUENCE CONFOUNDER sealed|clear [framed]",
    "krbtoken verify KEYFILE full|export initiator|acceptor TOKENFILE [framed]",
    "krbtoken mic KEYFILE full|export initiator|acceptor SEQUENCE [framed]",
    "krbtoken decrypt KEYFILE full|export USAGE",
    "krbtoken encrypt KEYFILE full|export USAGE CONFOUNDER",
    "krbtoken checksum KEYFILE USAGE",
    "krbtoken bill KEYFILE full|export initiator|acceptor FIRST",
    "krbtoken help",
];

pub struct Call {
    /// The names of its words.
    pub usage: &'static str,
    /// All that may be there.
    pub words: Vec<String>,
    pub input: Vec<u8>,
    pub output: Vec<u8>,
}

impl Call {
    pub fn verb(&self) -> &str {
        &self.words[0]
    }

    /// The names of the words, beginning with the verb's own.
    pub fn names(&self) -> impl Iterator<Item = &'static str> {
        self.usage.split(' ').skip(1)
    }

    /// The words with another one in this name's place, if the verb has it.
    pub fn with(&self, name: &str, word: &str) -> Option<Vec<String>> {
        let place = self.names().position(|found| found == name)?;
        let mut words = self.words.clone();
        words[place] = word.into();
        Some(words)
    }

    /// With other words, but this input.
    pub fn run(&self, words: &[impl AsRef<OsStr>]) -> Run {
        run(words, &self.input)
    }
}

const TOKENS: TokenTerms = TokenTerms {
    key: Call::KEY,
    export: true,
    acceptor: true,
};

const MESSAGES: Terms = Terms {
    key: Call::KEY,
    export: false,
    usage: 13,
};

const RECORD: &[u8] = b"kiln 5";
const PASSWORD: &str = "slip and glaze\n";

impl Call {
    /// The key of every call.
    pub const KEY: [u8; 16] = [
        0x3f, 0xa1, 0x07, 0xc9, 0x5b, 0x62, 0xee, 0x18, 0x94, 0xd0, 0x2c, 0x7b, 0xe5, 0x86, 0x4d,
        0xf3,
    ];

    fn new(words: Vec<String>, input: &[u8], output: &[u8]) -> Call {
        let verb = words[0].as_str();
        let named = |usage: &&&str| usage.split(' ').nth(1) == Some(verb);
        Call {
            usage: USAGES.iter().find(named).unwrap(),
            input: input.to_vec(),
            output: output.to_vec(),
            words,
        }
    }

    fn wrap_and_open(scratch: &Scratch) -> [Call; 3] {
        let wrap = Wrap {
            sequence: 19,
            confounder: [0x5d; 8],
            sealed: true,
            message: RECORD.to_vec(),
        };
        let token = frame(&TOKENS.wrap(&wrap));
        let reading = frame_outcomes::wrap_open(&TOKENS, &token, 0, token.len());
        let rest = ["19", &hexadecimal(&wrap.confounder), "sealed"];
        let words = |verb, rest: &[&str], framed| token_words(scratch, verb, &TOKENS, rest, framed);
        let bill = billed(&TOKENS, 18, &token).0;
        [
            Call::new(words("wrap", &rest, true), RECORD, &token),
            Call::new(
                words("open", &[], true),
                &token,
                opened(&reading).as_bytes(),
            ),
            Call::new(words("bill", &["18"], false), &token, bill.as_bytes()),
        ]
    }

    fn mic_and_verify(scratch: &Scratch) -> [Call; 2] {
        let token = frame(&TOKENS.mic(20, RECORD));
        let path = scratch.file("mic.token", &token);
        let words = |verb, rest: &str| token_words(scratch, verb, &TOKENS, &[rest], true);
        [
            Call::new(words("mic", "20"), RECORD, &token),
            Call::new(words("verify", &path), RECORD, b"sequence 20\n"),
        ]
    }

    fn messages(scratch: &Scratch) -> [Call; 2] {
        let confounder = [0x6e; 8];
        let message = MESSAGES.encrypt(&confounder, RECORD);
        let rest = [&hexadecimal(&confounder)[..]];
        let words = |verb, rest| message_words(scratch, verb, &MESSAGES, rest);
        [
            Call::new(words("encrypt", &rest), RECORD, &message),
            Call::new(
                words("decrypt", &[]),
                &message,
                decrypted(RECORD).as_bytes(),
            ),
        ]
    }

    fn checksum(scratch: &Scratch) -> Call {
        let words = ["checksum".into(), scratch.key(&Call::KEY), "15".into()];
        let output = digits(&checksum(&Call::KEY, 15, RECORD));
        Call::new(words.to_vec(), RECORD, output.as_bytes())
    }

    fn key() -> Call {
        let units: Vec<u16> = PASSWORD.trim_end().encode_utf16().collect();
        let output = digits(&password_key(&units));
        Call::new(vec!["key".into()], PASSWORD.as_bytes(), output.as_bytes())
    }
}

/// A call of each verb but `help`, with every word that it may have.
pub fn calls(scratch: &Scratch) -> Vec<Call> {
    let mut calls = vec![Call::key(), Call::checksum(scratch)];
    calls.extend(Call::wrap_and_open(scratch));
    calls.extend(Call::mic_and_verify(scratch));
    calls.extend(Call::messages(scratch));
    calls
}
