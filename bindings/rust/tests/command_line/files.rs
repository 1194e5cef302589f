//! The key file, the token file, the input and the output of `krbtoken`: what is
//! taken, how long they may be, and what is said of those that can't be used.

use std::fs::{self, File};

use reference::printed::hexadecimal;
use reference::{frame, TokenTerms};

use crate::command::{calls, run, run_on, run_to, token_words, Call, Scratch};

const WRONG_KEY: &str =
    "the key file is wrong: expected 32 hexadecimal digits and at most one newline after them";
const UNREAD_KEY: &str = "the key file can't be read, expected 32 hexadecimal digits: ";
const UNREAD_TOKEN: &str = "the token file can't be read, expected a MIC token: ";
const LONG_TOKEN: &str = "the token file is too long: expected at most 65536 octets";
const LONG_INPUT: &str = "standard input is too long: expected at most 65536 octets";
const UNREAD_INPUT: &str = "standard input can't be read: Is a directory";
const UNWRITTEN: &str = "standard output can't be written: No space left on device";

const TERMS: TokenTerms = TokenTerms {
    key: Call::KEY,
    export: false,
    acceptor: false,
};

/// The calls that have a key file, with the file at this path.
fn with_key(scratch: &Scratch, path: &str) -> Vec<(Call, Vec<String>)> {
    let with_key = |call: Call| call.with("KEYFILE", path).map(|words| (call, words));
    calls(scratch).into_iter().filter_map(with_key).collect()
}

#[test]
fn key_files_of_32_digits_are_taken_by_every_verb() {
    let scratch = Scratch::new();
    let lower = hexadecimal(&Call::KEY);
    let upper = lower.to_uppercase();
    let mixed = lower[..16].to_string() + &upper[16..];
    let texts = [&lower, &upper, &mixed].map(|digits| [digits.clone(), format!("{digits}\n")]);
    for text in texts.concat() {
        let path = scratch.file("taken.key", &text);
        let calls = with_key(&scratch, &path);
        assert_eq!(calls.len(), 8);
        for (call, words) in calls {
            call.run(&words)
                .must_print(&call.output, (call.verb(), &text));
        }
    }
}

/// The digits of a key, made wrong.
fn wrong_keys() -> Vec<Vec<u8>> {
    let digits = hexadecimal(&Call::KEY);
    let mut texts = vec![
        String::new(),
        "\n".into(),
        format!("{digits}\n\n"),
        format!("{digits}\r\n"),
        format!("{digits}\r"),
        format!("{digits} "),
        format!("{digits} \n"),
        format!("{digits}\0"),
        format!("{digits}\n\0"),
        format!("{digits}\n{digits}\n"),
        format!("\n{digits}"),
        format!(" {digits}"),
        format!("0x{digits}\n"),
        format!("0x{}\n", &digits[2..]),
        digits[1..].into(),
        format!("{}\n", &digits[1..]),
        format!("{digits}0"),
        format!("{digits}0\n"),
        digits[..16].into(),
        digits.repeat(2),
        digits.repeat(3000),
        format!("{} {}", &digits[..16], &digits[16..]),
        format!("{} {}", &digits[..16], &digits[17..]),
    ];
    for wrong in ['g', 'G', '/', ':', '@', '`', '\0', '-', '\n'] {
        for place in [0, 1, 15, 30, 31] {
            let (before, after) = (&digits[..place], &digits[place + 1..]);
            texts.push(format!("{before}{wrong}{after}\n"));
        }
    }
    let mut keys: Vec<Vec<u8>> = texts.into_iter().map(String::into_bytes).collect();
    keys.push([&[0xb0], &digits.as_bytes()[1..]].concat());
    keys.push(Call::KEY.to_vec());
    keys
}

#[test]
fn other_key_files_are_wrong_use() {
    let scratch = Scratch::new();
    for text in wrong_keys() {
        let path = scratch.file("wrong.key", &text);
        let start = String::from_utf8_lossy(&text[..text.len().min(70)]).into_owned();
        let words = ["checksum", &path, "15"];
        run(&words, b"").must_be_wrong_use(WRONG_KEY, start);
    }
}

#[test]
fn every_verb_says_what_is_wrong_with_a_key_file() {
    let scratch = Scratch::new();
    let path = scratch.file("wrong.key", hexadecimal(&Call::KEY) + "0");
    for (call, words) in with_key(&scratch, &path) {
        call.run(&words).must_be_wrong_use(WRONG_KEY, call.verb());
    }
    for (path, error) in unreadable(&scratch) {
        for (call, words) in with_key(&scratch, &path) {
            let line = format!("{UNREAD_KEY}{error}");
            call.run(&words)
                .must_be_wrong_use(&line, (call.verb(), error));
        }
    }
}

/// Paths that nothing can be read from, and the system's words for it.
fn unreadable(scratch: &Scratch) -> [(String, &'static str); 5] {
    let file = scratch.file("a file", b"");
    let missing = "No such file or directory";
    [
        (scratch.path("missing"), missing),
        (scratch.path("missing/in a missing folder"), missing),
        (String::new(), missing),
        (format!("{file}/in a file"), "Not a directory"),
        (scratch.path(""), "Is a directory"),
    ]
}

#[test]
fn a_token_file_that_cannot_be_read_is_wrong_use() {
    let scratch = Scratch::new();
    for (path, error) in unreadable(&scratch) {
        for framed in [false, true] {
            let words = token_words(&scratch, "verify", &TERMS, &[&path], framed);
            run(&words, b"").must_be_wrong_use(&format!("{UNREAD_TOKEN}{error}"), error);
        }
    }
}

#[test]
fn a_token_file_of_65536_octets_is_read_and_a_longer_one_is_wrong_use() {
    let scratch = Scratch::new();
    let framed = frame(&vec![0x01; 65_521]);
    assert_eq!(framed.len(), 65_536);
    let verify = |len, last: bool| {
        let mut token = framed.clone();
        token.resize(len, 0x01);
        let path = scratch.file("long.token", &token);
        run(
            &token_words(&scratch, "verify", &TERMS, &[&path], last),
            b"",
        )
    };
    verify(65_535, false).must_refuse(1, 65_535);
    verify(65_536, false).must_refuse(1, 65_536);
    verify(65_535, true).must_refuse(9, "framed, but cut off");
    verify(65_536, true).must_refuse(1, "framed");
    for len in [65_537, 65_538, 131_072, 1_000_000] {
        verify(len, false).must_be_wrong_use(LONG_TOKEN, len);
        verify(len, true).must_be_wrong_use(LONG_TOKEN, len);
    }
}

/// The verbs that read their whole input before they do anything.
fn readers(scratch: &Scratch) -> Vec<Call> {
    let calls = calls(scratch).into_iter();
    calls
        .filter(|call| !["key", "bill"].contains(&call.verb()))
        .collect()
}

#[test]
fn inputs_of_65536_octets_are_read_and_longer_ones_are_wrong_use() {
    let scratch = Scratch::new();
    for call in readers(&scratch) {
        // Of a frame that is longer than a token can be, but whole.
        let longest = frame(&vec![0x01; 65_521]);
        run(&call.words, &longest[..65_535]).must_refuse(
            if call.verb() == "open" { 9 } else { 1 },
            (call.verb(), 65_535),
        );
        run(&call.words, &longest).must_refuse(1, (call.verb(), 65_536));
        for len in [65_537, 65_538, 131_072, 131_073, 1_000_000] {
            let mut input = longest.clone();
            input.resize(len, 0x01);
            run(&call.words, &input).must_be_wrong_use(LONG_INPUT, (call.verb(), len));
            let file = File::open(scratch.file("long input", &input)).unwrap();
            run_on(&call.words, file).must_be_wrong_use(LONG_INPUT, (call.verb(), len));
        }
    }
}

#[test]
fn a_folder_as_the_input_is_wrong_use() {
    let scratch = Scratch::new();
    for call in calls(&scratch) {
        let folder = File::open(scratch.path("")).unwrap();
        run_on(&call.words, folder).must_be_wrong_use(UNREAD_INPUT, call.verb());
    }
}

fn full() -> File {
    File::options().write(true).open("/dev/full").unwrap()
}

#[test]
fn an_output_that_takes_nothing_is_told() {
    let scratch = Scratch::new();
    for call in calls(&scratch) {
        let input = || File::open(scratch.file("input", &call.input)).unwrap();
        run_to(&call.words, input(), full()).must_be_wrong_use(UNWRITTEN, call.verb());
        if let Some(words) = call.with("USAGE", "16") {
            run_to(&words, input(), full()).must_be_wrong_use(UNWRITTEN, "a refusal");
        }
    }
    let nothing = File::open("/dev/null").unwrap();
    run_to(&["help"], nothing, full()).must_be_wrong_use(UNWRITTEN, "help");
}

/// An output that is a file has the same octets.
#[test]
fn an_output_is_written_to_a_file_whole() {
    let scratch = Scratch::new();
    for call in calls(&scratch) {
        let input = File::open(scratch.file("input", &call.input)).unwrap();
        let path = scratch.path("output");
        let run = run_to(&call.words, input, File::create(&path).unwrap());
        run.must_print(b"", call.verb());
        assert!(fs::read(&path).unwrap() == call.output, "{}", call.verb());
    }
}
