//! The program `krbtoken`: its help, itself with no words, and one call of each
//! verb.

use std::fs::{self, File};
use std::process::Command;

use crate::command::{calls, run, run_on, Scratch, ROOT, USAGES};

/// What the program is asked for as `./krbtoken` does it with no words.
const MORNING: [&str; 5] = [
    "bill",
    "samples/plant.key",
    "full",
    "initiator",
    "4294967293",
];

fn sample(name: &str) -> Vec<u8> {
    let path = format!("{ROOT}/samples/{name}");
    fs::read(&path).expect(&path)
}

#[test]
fn with_no_words_the_sample_is_billed() {
    let no_words: [&str; 0] = [];
    let expected = sample("morning.expected");
    run(&no_words, b"").must_print(&expected, "no words");
    run(&no_words, b"not looked at").must_print(&expected, "no words");
}

#[test]
fn the_sample_is_billed_out_of_a_pipe_and_out_of_its_file() {
    let expected = sample("morning.expected");
    run(&MORNING, &sample("morning.capture")).must_print(&expected, "through a pipe");
    let capture = File::open(format!("{ROOT}/samples/morning.capture")).unwrap();
    run_on(&MORNING, capture).must_print(&expected, "out of the file");
}

/// So a program that bills the number 0 for a refused token prints another line.
#[test]
fn the_sample_has_a_refused_token_before_the_number_0() {
    let lines = String::from_utf8(sample("morning.expected")).unwrap();
    let place = |words: &str| lines.lines().position(|line| line.ends_with(words));
    let refused = place(" refused 6: the checksum differs").unwrap();
    let billed = place(" sequence 0 in order length 34").unwrap();
    assert!(refused < billed, "{lines}");
}

#[test]
fn the_sample_record_is_opened() {
    let words = ["open", "samples/plant.key", "full", "initiator", "framed"];
    run(&words, &sample("record.token")).must_print(sample("record.expected"), "record.token");
}

/// Each usage begins a line, whatever its blanks are, and what may follow it
/// there is what is read and written.
#[test]
fn help_has_the_usage_of_every_verb() {
    let help = run(&["help"], b"");
    let text = String::from_utf8(help.stdout.clone()).unwrap();
    let lines: Vec<String> = text
        .lines()
        .map(|line| line.split_whitespace().collect::<Vec<_>>().join(" "))
        .collect();
    for usage in USAGES {
        let is_usage = |line: &&String| {
            let rest = line.strip_prefix(usage);
            rest.is_some_and(|rest| rest.is_empty() || rest.starts_with(" <"))
        };
        assert_eq!(lines.iter().filter(is_usage).count(), 1, "{usage}: {text}");
    }
    help.must_print(&text, "help");
}

/// The words are all there, and the octets are the reference implementation's.
#[test]
fn one_call_of_each_verb_is_done() {
    let scratch = Scratch::new();
    let calls = calls(&scratch);
    assert_eq!(calls.len() + 1, USAGES.len());
    for call in calls {
        assert_eq!(call.words.len(), call.names().count(), "{}", call.verb());
        call.run(&call.words).must_print(&call.output, call.verb());
    }
}

/// The same in the input that a file is.
#[test]
fn one_call_of_each_verb_is_done_with_a_file_as_its_input() {
    let scratch = Scratch::new();
    for call in calls(&scratch) {
        let input = File::open(scratch.file("input", &call.input)).unwrap();
        run_on(&call.words, input).must_print(&call.output, call.verb());
    }
}

/// The program without the script.
fn built() -> String {
    run(&["help"], b"");
    format!("{ROOT}/target/bin/krbtoken")
}

/// The script has words of its own if it is given none; the program that it
/// builds has not, and no exit status either.
#[test]
fn the_built_program_with_no_words_is_wrong_use() {
    let built = built();
    let output = Command::new(&built).output().expect(&built);
    let line = "krbtoken: the verb is missing or unknown: expected key, open, wrap, verify, mic, \
                decrypt, encrypt, checksum, bill or help\n";
    assert_eq!(String::from_utf8_lossy(&output.stderr), line);
    assert!(output.stdout.is_empty());
    assert_eq!(output.status.code(), Some(0));
}

/// The status that the script exits with: on descriptor 3, and only if it is
/// asked for.
#[test]
fn the_built_program_writes_its_status_where_it_is_asked_to() {
    let on_3 = |words: &str| {
        let line = format!("\"$0\" {words} 3>&1 >&2 </dev/null");
        let key = format!("{ROOT}/samples/plant.key");
        let output = Command::new("sh")
            .args(["-c", &line, &built(), &key])
            .output();
        String::from_utf8(output.unwrap().stdout).unwrap()
    };
    assert_eq!(on_3("--status help"), "0");
    assert_eq!(on_3("--status decrypt \"$1\" full 1"), "1");
    assert_eq!(on_3("--status"), "2");
    assert_eq!(on_3("--status --status help"), "2");
    assert_eq!(on_3("help"), "");
    assert_eq!(on_3(""), "");
}
