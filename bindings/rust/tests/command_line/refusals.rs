//! Each refusal of each verb of `krbtoken` but `bill`, with its line and its exit
//! status.

use reference::{frame, lead, Terms, TokenTerms, Wrap, FRONT, MIC};
use support::{fault_sets, first, AllTerms, Faults, Inputs, RandomWrap};

use crate::command::{message_words, run, token_words, Scratch};

const MESSAGE_MAX: usize = 32_768;
const OVER: [usize; 4] = [MESSAGE_MAX + 1, MESSAGE_MAX + 2, 40_000, 65_536];

/// In the order in which a reader of tokens gives them.
const OF_WRAP: [u32; 4] = [4, 5, 6, 7];

/// In clear text, what no test computes.
#[test]
fn the_lines_of_the_refusals_are_these() {
    let scratch = Scratch::new();
    let terms = TokenTerms {
        key: [0xaa; 16],
        export: false,
        acceptor: false,
    };
    let wrap = Wrap::new(&mut Inputs::new(631), true, 4);
    let open = token_words(&scratch, "open", &terms, &[], false);
    let lines = [
        "refused 4: the first eight octets are not a header of this kind of token\n",
        "refused 5: the direction octets are not those of the expected sender; \
         a wrong key or strength shows so too\n",
        "refused 6: the checksum differs\n",
        "refused 7: the last octet of the opened token is not 01\n",
    ];
    for (fault, line) in lines.into_iter().enumerate() {
        let faults = Faults::new(std::array::from_fn(|i| i == fault));
        let run = run(&open, &faults.wrap(&terms, &wrap));
        run.must_be(1, line.as_bytes(), "", fault);
    }
    let line = b"refused 1: a length is outside the limits\n";
    run(&open, b"").must_be(1, line, "", "no token");
    let framed = token_words(&scratch, "open", &terms, &[], true);
    run(&framed, b"").must_be(1, b"refused 9: not one whole frame\n", "", "no frame");
    let words = ["checksum", &scratch.key(&terms.key), "16"];
    run(&words, b"").must_be(1, b"refused 3: the usage is not 1 to 15\n", "", "usage 16");
}

/// Every set of faults at once: the first of them is told.
#[test]
fn open_refuses_every_set_of_faults_in_their_order() {
    let (scratch, mut inputs) = (Scratch::new(), Inputs::new(632));
    for (i, terms) in TokenTerms::all(&mut inputs).into_iter().enumerate() {
        let wrap = Wrap::new(&mut inputs, i % 2 == 0, 9);
        for faults in fault_sets::<4>().filter(|faults| faults.contains(&true)) {
            let token = Faults::new(faults).wrap(&terms, &wrap);
            let number = first(OF_WRAP, faults);
            let what = (terms.name(), faults);
            let words = token_words(&scratch, "open", &terms, &[], false);
            run(&words, &token).must_refuse(number, what);
            let words = token_words(&scratch, "open", &terms, &[], true);
            run(&words, &frame(&token)).must_refuse(number, what);
        }
    }
}

#[test]
fn verify_refuses_every_set_of_faults_in_their_order() {
    let (scratch, mut inputs) = (Scratch::new(), Inputs::new(633));
    for terms in TokenTerms::all(&mut inputs) {
        let data = inputs.octets(21);
        for faults in fault_sets::<3>().filter(|faults| faults.contains(&true)) {
            let [header, direction, checksum] = faults;
            let token = Faults::new([header, direction, checksum, false]).mic(&terms, &data);
            for (framed, token) in [(false, token.clone()), (true, frame(&token))] {
                let path = scratch.file("mic.token", token);
                let words = token_words(&scratch, "verify", &terms, &[&path], framed);
                run(&words, &data).must_refuse(first([4, 5, 6], faults), (framed, faults));
            }
        }
    }
}

/// A wrong key and a wrong strength show as a wrong sender does.
#[test]
fn another_key_strength_or_sender_is_refused_with_5() {
    let (scratch, mut inputs) = (Scratch::new(), Inputs::new(634));
    for terms in TokenTerms::all(&mut inputs) {
        let token = terms.wrap(&Wrap::new(&mut inputs, true, 12));
        let mic = scratch.file("mic.token", terms.mic(3, b"cone"));
        let mut key = terms.key;
        key[15] ^= 1;
        let wrong = [
            TokenTerms { key, ..terms },
            TokenTerms {
                export: !terms.export,
                ..terms
            },
            TokenTerms {
                acceptor: !terms.acceptor,
                ..terms
            },
        ];
        for other in wrong {
            let words = token_words(&scratch, "open", &other, &[], false);
            run(&words, &token).must_refuse(5, other.name());
            let words = token_words(&scratch, "verify", &other, &[&mic], false);
            run(&words, b"cone").must_refuse(5, other.name());
        }
    }
}

/// With a header of its kind, lengths that no token has.
#[test]
fn open_refuses_lengths_that_no_token_has() {
    let (scratch, mut inputs) = (Scratch::new(), Inputs::new(635));
    let [terms, ..] = TokenTerms::all(&mut inputs);
    let token = terms.wrap(&Wrap::new(&mut inputs, true, MESSAGE_MAX));
    let longest = FRONT + MESSAGE_MAX + 1;
    let words = [false, true].map(|framed| token_words(&scratch, "open", &terms, &[], framed));
    for len in (0..=FRONT).chain([longest + 1, longest + 2, 40_000, 65_520, 65_536]) {
        let mut token = token.clone();
        token.resize(len, 0x5a);
        run(&words[0], &token).must_refuse(1, len);
    }
    for len in [0, 1, 24, FRONT, longest + 1, 40_000, 65_520, 65_521] {
        let mut token = token.clone();
        token.resize(len, 0x5a);
        run(&words[1], &frame(&token)).must_refuse(1, len);
    }
}

#[test]
fn verify_refuses_lengths_of_a_token_and_of_data() {
    let (scratch, mut inputs) = (Scratch::new(), Inputs::new(636));
    let [.., terms] = TokenTerms::all(&mut inputs);
    for len in [0, 1, 8, MIC - 1, MIC + 1, MIC + 13, 300, 65_520, 65_536] {
        let mut token = terms.mic(5, b"glaze");
        token.resize(len, 0);
        let path = scratch.file("mic.token", &token);
        let words = token_words(&scratch, "verify", &terms, &[&path], false);
        run(&words, b"glaze").must_refuse(1, len);
        if lead(len).len() + len <= 65_536 {
            let path = scratch.file("mic.token", frame(&token));
            let words = token_words(&scratch, "verify", &terms, &[&path], true);
            run(&words, b"glaze").must_refuse(1, len);
        }
    }
    for len in OVER {
        let data = inputs.octets(len);
        for (framed, token) in [
            (false, terms.mic(5, &data)),
            (true, frame(&terms.mic(5, &data))),
        ] {
            let path = scratch.file("mic.token", token);
            let words = token_words(&scratch, "verify", &terms, &[&path], framed);
            run(&words, &data).must_refuse(1, (framed, len));
        }
    }
}

/// What is no frame is told before every other refusal.
#[test]
fn what_is_not_one_whole_frame_is_refused_with_9() {
    let (scratch, mut inputs) = (Scratch::new(), Inputs::new(637));
    let [terms, ..] = TokenTerms::all(&mut inputs);
    let data = inputs.octets(MESSAGE_MAX + 1);
    let token = terms.wrap(&Wrap::new(&mut inputs, false, 3));
    let (framed, mic) = (frame(&token), terms.mic(4, b""));
    let framed_mic = frame(&mic);
    let open = token_words(&scratch, "open", &terms, &[], true);
    let verify = |token: &[u8], data: &[u8]| {
        let path = scratch.file("mic.token", token);
        run(
            &token_words(&scratch, "verify", &terms, &[&path], true),
            data,
        )
    };
    for cut in 0..framed.len() {
        run(&open, &framed[..cut]).must_refuse(9, cut);
    }
    for cut in [0, 1, 2, 12, 13, framed_mic.len() - 1] {
        verify(&framed_mic[..cut], b"").must_refuse(9, cut);
    }
    run(&open, &[&framed[..], b"\n"].concat()).must_refuse(9, "an octet behind it");
    run(&open, &framed.repeat(2)).must_refuse(9, "two frames");
    run(&open, &token).must_refuse(9, "no frame");
    run(&open, &inputs.octets(65_536)).must_refuse(9, "65,536 octets of nothing");
    verify(&[&framed_mic[..], b"\n"].concat(), b"").must_refuse(9, "an octet behind it");
    verify(&mic, b"").must_refuse(9, "no frame");
    verify(&mic, &data).must_refuse(9, "no frame, and data that are too long");
}

#[test]
fn a_frame_where_none_is_expected_is_no_header() {
    let (scratch, mut inputs) = (Scratch::new(), Inputs::new(638));
    let [terms, ..] = TokenTerms::all(&mut inputs);
    let framed = frame(&terms.wrap(&Wrap::new(&mut inputs, true, 3)));
    let words = token_words(&scratch, "open", &terms, &[], false);
    run(&words, &framed).must_refuse(4, "a framed token");
}

#[test]
fn writers_and_checksums_refuse_messages_that_are_too_long() {
    let (scratch, mut inputs) = (Scratch::new(), Inputs::new(639));
    let [terms, ..] = TokenTerms::all(&mut inputs);
    let (key, export, usage) = (terms.key, terms.export, 4);
    let messages = Terms { key, export, usage };
    for len in OVER {
        let data = inputs.octets(len);
        for framed in [false, true] {
            let rest = ["7", "0011223344556677", "clear"];
            let wrap = token_words(&scratch, "wrap", &terms, &rest, framed);
            run(&wrap, &data).must_refuse(1, ("wrap", len));
            let mic = token_words(&scratch, "mic", &terms, &["7"], framed);
            run(&mic, &data).must_refuse(1, ("mic", len));
        }
        let encrypt = message_words(&scratch, "encrypt", &messages, &["0011223344556677"]);
        run(&encrypt, &data).must_refuse(1, ("encrypt", len));
        let checksum = ["checksum", &scratch.key(&key), "4"];
        run(&checksum, &data).must_refuse(1, ("checksum", len));
    }
}

/// A length is looked at before the usage.
#[test]
fn messages_and_checksums_refuse_other_usages_and_lengths() {
    let (scratch, mut inputs) = (Scratch::new(), Inputs::new(640));
    let (key, confounder) = (scratch.key(&inputs.array()), "0011223344556677");
    let run = |verb: &str, usage: &str, len| {
        let words: &[&str] = match verb {
            "checksum" => &[verb, &key, usage],
            "encrypt" => &[verb, &key, "export", usage, confounder],
            _ => &[verb, &key, "full", usage],
        };
        run(words, &vec![0x41; len])
    };
    for usage in [
        "0",
        "16",
        "17",
        "255",
        "256",
        "257",
        "65537",
        "2147483648",
        "4294967295",
        "00016",
    ] {
        for verb in ["decrypt", "encrypt", "checksum"] {
            run(verb, usage, 24).must_refuse(3, (verb, usage));
            run(verb, usage, 65_536).must_refuse(1, (verb, usage));
        }
        run("decrypt", usage, 23).must_refuse(1, usage);
    }
    for len in (0..24).chain([32_793, 32_794, 65_536]) {
        run("decrypt", "5", len).must_refuse(1, len);
    }
    for len in [24, 25, 32_792] {
        run("decrypt", "5", len).must_refuse(6, len);
    }
}
