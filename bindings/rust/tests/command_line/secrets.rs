//! Nothing that `krbtoken` writes has the key in it, but what `key` prints, and no
//! word is echoed, since one may be a key by mistake.

use reference::printed::hexadecimal;
use reference::{frame, TokenTerms, Wrap};

use crate::command::{calls, run, Call, Run, Scratch};

/// Neither the key's octets nor its digits, of either case.
#[track_caller]
fn must_not_show_key(run: &Run, what: (&str, &str)) {
    for written in [&run.stdout, &run.stderr] {
        let digits = hexadecimal(&Call::KEY);
        let lower = written.to_ascii_lowercase();
        for secret in [
            digits.as_bytes(),
            &digits.as_bytes()[..16],
            &digits.as_bytes()[16..],
        ] {
            let shown = lower.windows(secret.len()).any(|part| part == secret);
            assert!(!shown, "the key's digits are written: {what:?}");
        }
        let shown = written
            .windows(8)
            .any(|part| Call::KEY.windows(8).any(|key| key == part));
        assert!(!shown, "the key's octets are written: {what:?}");
    }
}

/// What the check is worth: a key that is written is found.
#[test]
#[should_panic(expected = "the key's digits are written")]
fn a_key_that_is_written_is_found() {
    let shown = Run {
        status: Some(0),
        stdout: b"message ".to_vec(),
        stderr: hexadecimal(&Call::KEY).to_uppercase().into_bytes(),
    };
    must_not_show_key(&shown, ("", ""));
}

#[test]
fn no_verb_shows_the_key_when_it_is_done() {
    let scratch = Scratch::new();
    for call in calls(&scratch) {
        let run = call.run(&call.words);
        must_not_show_key(&run, (call.verb(), "done"));
        run.must_print(&call.output, call.verb());
    }
}

#[test]
fn no_verb_shows_the_key_when_it_refuses() {
    let scratch = Scratch::new();
    for call in calls(&scratch) {
        let mut input = call.input.clone();
        match call.verb() {
            "key" => input = vec![b'a'; 600],
            "open" | "bill" | "decrypt" => *input.last_mut().unwrap() ^= 1,
            "verify" => input.push(0),
            _ => input = vec![0; 40_000],
        }
        let run = run(&call.words, &input);
        must_not_show_key(&run, (call.verb(), "refused"));
        let text = String::from_utf8(run.stdout).unwrap();
        assert!(text.contains("refused "), "{}: {text}", call.verb());
        assert_eq!(run.status, Some(i32::from(call.verb() != "bill")), "{text}");
    }
}

/// A key file with one more digit, and the key's digits as any word.
#[test]
fn no_verb_shows_the_key_when_it_is_used_wrongly() {
    let (scratch, digits) = (Scratch::new(), hexadecimal(&Call::KEY));
    let wrong = scratch.file("wrong.key", format!("{digits}0"));
    for call in calls(&scratch) {
        let mut uses: Vec<Vec<String>> = Vec::new();
        for place in 0..call.words.len() {
            for word in [&digits, &digits.to_uppercase()] {
                let mut words = call.words.clone();
                words[place] = word.clone();
                uses.push(words);
            }
        }
        uses.push([&call.words[..], &[digits.clone()]].concat());
        uses.extend(call.with("KEYFILE", &wrong));
        for words in uses {
            let run = call.run(&words);
            must_not_show_key(&run, (call.verb(), "used wrongly"));
            assert_eq!((run.status, run.stdout.len()), (Some(2), 0), "{words:?}");
        }
    }
}

/// Nor is any other word: a strength that is wrong is not said again.
#[test]
fn no_wrong_word_is_echoed() {
    let scratch = Scratch::new();
    for call in calls(&scratch) {
        for place in 0..call.words.len() {
            let mut words = call.words.clone();
            words[place] = "quartz-inversion".into();
            let run = call.run(&words);
            let line = String::from_utf8_lossy(&run.stderr);
            assert!(!line.contains("quartz"), "{line}");
            assert_eq!((run.status, run.stdout.len()), (Some(2), 0), "{words:?}");
        }
    }
}

/// A message that is the key itself is the one way: it is what was asked for.
#[test]
fn a_key_inside_a_message_is_printed_as_any_message_is() {
    let scratch = Scratch::new();
    let terms = TokenTerms {
        key: Call::KEY,
        export: false,
        acceptor: false,
    };
    let token = frame(&terms.wrap(&Wrap {
        sequence: 1,
        confounder: [0; 8],
        sealed: true,
        message: Call::KEY.to_vec(),
    }));
    let words = [
        "open",
        &scratch.key(&Call::KEY),
        "full",
        "initiator",
        "framed",
    ];
    let digits = hexadecimal(&Call::KEY);
    let lines = format!("sequence 1\nsealed yes\nlength 16\nmessage {digits}\n");
    run(&words, &token).must_print(lines, "a key in a message");
}
