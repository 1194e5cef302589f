//! `krbtoken key`: passwords in UTF-8, compared with the keys that the reference
//! implementation makes of Rust's own UTF-16.

use reference::password_key;
use reference::printed::digits;
use support::Inputs;

use crate::command::{run, Run};

const NOT_UTF_8: &str = "the password is wrong: expected UTF-8";
const TOO_LONG: &str = "standard input is too long: expected at most 1024 octets";

fn key_of(input: impl AsRef<[u8]>) -> Run {
    run(&["key"], input.as_ref())
}

fn key_line(password: &str) -> String {
    digits(&password_key(
        &password.encode_utf16().collect::<Vec<u16>>(),
    ))
}

/// With a closing newline and without, the key is the same.
#[track_caller]
fn check(password: &str) {
    let start: String = password.chars().take(20).collect();
    let what = format!("{} octets, beginning {start:?}", password.len());
    key_of(format!("{password}\n")).must_print(key_line(password), &what);
    if !password.ends_with('\n') {
        key_of(password).must_print(key_line(password), &what);
    }
}

/// RFC 4757, section 2, prints this one.
#[test]
fn the_published_key_is_printed() {
    let printed = "ac8e657f83df82beea5d43bdaf7800cc\n";
    assert_eq!(key_line("foo"), printed);
    key_of("foo").must_print(printed, "foo");
}

#[test]
fn keys_of_ascii_passwords_are_the_references() {
    check("");
    check(" leading and trailing blanks ");
    check("\ttab\u{7f}");
    for octet in 0..128_u8 {
        check(&char::from(octet).to_string());
    }
}

#[test]
fn one_closing_newline_is_not_part_of_the_password_and_only_one() {
    for (input, password) in [
        ("", ""),
        ("\n", ""),
        ("\n\n", "\n"),
        ("\n\n\n", "\n\n"),
        ("kiln\n", "kiln"),
        ("kiln\n\n", "kiln\n"),
        ("kiln\r\n", "kiln\r"),
        ("kiln\n\r", "kiln\n\r"),
        ("\nkiln", "\nkiln"),
        ("ki\nln\n", "ki\nln"),
        ("kiln\u{85}", "kiln\u{85}"),
        ("kiln\u{2028}", "kiln\u{2028}"),
        ("kiln\0\n", "kiln\0"),
    ] {
        key_of(input).must_print(key_line(password), input);
    }
}

#[test]
fn a_zero_is_a_unit_like_any_other() {
    for password in ["\0", "\0\0", "kiln\0", "\0kiln", "ki\0ln", "ki\0\0ln\0"] {
        check(password);
    }
    assert_ne!(key_line("ki"), key_line("ki\0ln"));
}

/// The first and the last character of each length in UTF-8, those beside the
/// surrogates, and some in words.
#[test]
fn characters_of_two_three_and_four_octets_become_their_units() {
    for c in [
        '\u{7f}',
        '\u{80}',
        '\u{ff}',
        '\u{100}',
        '\u{7ff}',
        '\u{800}',
        '\u{fff}',
        '\u{1000}',
        '\u{cfff}',
        '\u{d000}',
        '\u{d7ff}',
        '\u{e000}',
        '\u{feff}',
        '\u{fffd}',
        '\u{fffe}',
        '\u{ffff}',
        '\u{10000}',
        '\u{103ff}',
        '\u{10400}',
        '\u{1f3fa}',
        '\u{3ffff}',
        '\u{40000}',
        '\u{fffff}',
        '\u{100000}',
        '\u{10ffff}',
    ] {
        check(&c.to_string());
        check(&format!("a{c}z"));
        check(&format!("{c}{c}"));
    }
    for password in ["Töpferei", "Керамика", "窯変", "🏺🔥", "aé窯🏺"] {
        check(password);
    }
}

fn any_character(inputs: &mut Inputs) -> char {
    let longest = inputs.pick(&[0x7f, 0x7ff, 0xffff, 0x10_ffff]);
    char::from_u32(inputs.number(0, longest) as u32).unwrap_or('\u{d7ff}')
}

#[test]
fn keys_of_random_passwords_are_the_references() {
    let mut inputs = Inputs::new(621);
    for _ in 0..150 {
        let len = inputs.number(0, 60);
        let password: String = (0..len).map(|_| any_character(&mut inputs)).collect();
        check(&password);
    }
}

#[test]
fn passwords_of_256_units_have_a_key_and_of_257_are_refused() {
    for c in ["a", "é", "窯"] {
        check(&c.repeat(255));
        check(&c.repeat(256));
        key_of(c.repeat(257)).must_refuse(1, c);
        key_of(c.repeat(257) + "\n").must_refuse(1, c);
    }
    check(&"🏺".repeat(127));
    check(&"🏺".repeat(128));
    check(&("🏺".repeat(127) + "aa"));
    key_of("🏺".repeat(129)).must_refuse(1, "258 units");
    key_of("🏺".repeat(128) + "a").must_refuse(1, "the last unit");
    key_of("a".to_string() + &"🏺".repeat(128)).must_refuse(1, "half a pair");
    key_of("a".repeat(256) + "\n\n").must_refuse(1, "a newline as the last unit");
}

#[test]
fn passwords_of_1024_octets_are_read_and_longer_ones_are_wrong_use() {
    for (c, count) in [("a", 1024), ("é", 512), ("🏺", 256)] {
        let password = c.repeat(count);
        key_of(&password).must_refuse(1, c);
        key_of(format!("{password}\n")).must_refuse(1, c);
        key_of(format!("{password}a")).must_be_wrong_use(TOO_LONG, c);
        key_of(format!("{password}a\n")).must_be_wrong_use(TOO_LONG, c);
        key_of(format!("{password}\n\n")).must_be_wrong_use(TOO_LONG, c);
        key_of(format!("{password}\na")).must_be_wrong_use(TOO_LONG, c);
    }
    key_of("窯".repeat(341) + "a").must_refuse(1, "1,024 octets");
    for len in [1026, 1027, 2048, 4096, 65_536, 65_537, 200_000] {
        key_of("a".repeat(len)).must_be_wrong_use(TOO_LONG, len);
    }
}

const FAULTS: [&[u8]; 38] = [
    // Continuations that nothing begins.
    b"\x80",
    b"\xbf",
    b"\xc3\xa9\x80",
    b"\xe7\xaa\xaf\x80",
    b"\xf0\x9f\x8f\xba\x80",
    // Cut off, or with another octet where a continuation must be.
    b"\xc3",
    b"\xe7",
    b"\xe7\xaa",
    b"\xf0",
    b"\xf0\x9f",
    b"\xf0\x9f\x8f",
    b"\xc3\xc3\xa9",
    b"\xe7\xaa\xc3\xa9",
    b"\xf0\x9f\x8f\xc3\xa9",
    b"\xe7\xff\xaf",
    b"\xf0\x9f\x00\xba",
    // Longer than need be.
    b"\xc0\x80",
    b"\xc0\xaf",
    b"\xc1\xbf",
    b"\xe0\x80\x80",
    b"\xe0\x9f\xbf",
    b"\xf0\x80\x80\x80",
    b"\xf0\x8f\xbf\xbf",
    // Surrogates, alone and in a pair.
    b"\xed\xa0\x80",
    b"\xed\xaf\xbf",
    b"\xed\xb0\x80",
    b"\xed\xbf\xbf",
    b"\xed\xa0\xbc\xed\xbf\xba",
    // Above 10FFFF.
    b"\xf4\x90\x80\x80",
    b"\xf4\xbf\xbf\xbf",
    b"\xf5\x80\x80\x80",
    b"\xf7\xbf\xbf\xbf",
    // No first octets at all.
    b"\xf8\x88\x80\x80\x80",
    b"\xfb\xbf\xbf\xbf\xbf",
    b"\xfc\x84\x80\x80\x80\x80",
    b"\xfd\xbf\xbf\xbf\xbf\xbf",
    b"\xfe",
    b"\xff",
];

#[test]
fn every_fault_of_utf_8_is_wrong_use_wherever_it_stands() {
    for fault in FAULTS {
        for (before, after) in [
            ("", ""),
            ("", "\n"),
            ("kiln", "kiln\n"),
            ("窯", "窯"),
            ("", "\0"),
        ] {
            let input = [before.as_bytes(), fault, after.as_bytes()].concat();
            assert!(std::str::from_utf8(&input).is_err(), "{input:02x?}");
            key_of(&input).must_be_wrong_use(NOT_UTF_8, format!("{input:02x?}"));
        }
    }
    key_of([&[b'a'; 256][..], b"\xff"].concat()).must_be_wrong_use(NOT_UTF_8, "as the last");
}

/// A few octets of those that begin, continue and end each kind of character:
/// Rust's own reader says which are UTF-8.
#[test]
fn random_octets_have_a_key_exactly_if_they_are_utf_8() {
    const OCTETS: [u8; 20] = [
        0x00, 0x41, 0x7f, 0x80, 0x8f, 0x90, 0x9f, 0xa0, 0xbf, 0xc1, 0xc2, 0xdf, 0xe0, 0xe1, 0xed,
        0xef, 0xf0, 0xf1, 0xf4, 0xf5,
    ];
    let (mut inputs, mut right) = (Inputs::new(622), 0);
    for _ in 0..300 {
        let len = inputs.number(1, 4);
        let first = inputs.pick(&OCTETS);
        let mut input = vec![first];
        input.extend((1..len).map(|_| inputs.pick(&OCTETS[3..9])));
        match std::str::from_utf8(&input) {
            Ok(password) => {
                right += 1;
                key_of(&input).must_print(key_line(password), &input);
            }
            Err(_) => key_of(&input).must_be_wrong_use(NOT_UTF_8, format!("{input:02x?}")),
        }
    }
    assert!((30..270).contains(&right), "{right} of them were UTF-8");
}
