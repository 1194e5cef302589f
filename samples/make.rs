//! Writes the samples into the folder that is named: what a kiln sends in a
//! morning, and what `krbtoken` must print of it, with the reference
//! implementation alone.

use std::path::Path;
use std::{env, fs, io};

use reference::printed::{billed, digits, opened};
use reference::{frame, frame_outcomes, TokenTerms, Wrap};

/// An example: no session has this key.
const KEY: [u8; 16] = [
    0x00, 0x11, 0x22, 0x33, 0x44, 0x55, 0x66, 0x77, 0x88, 0x99, 0xaa, 0xbb, 0xcc, 0xdd, 0xee, 0xff,
];

/// The kiln's controller.
const INITIATOR: TokenTerms = TokenTerms {
    key: KEY,
    export: false,
    acceptor: false,
};

/// The plant's office.
const ACCEPTOR: TokenTerms = TokenTerms {
    acceptor: true,
    ..INITIATOR
};

/// The morning's first number: three before the numbers begin again at 0.
const FIRST: u32 = 4_294_967_293;

const LONG: &str = "kiln 2 firing 2 cone 10 1285 C 11 h: to 120 C in 1 h, hold 1 h; \
                    to 600 C in 3 h; to 1100 C in 3 h; to 1285 C in 2 h, hold 1 h";

const LONGEST: &str = "kiln 4 firing 1 cone 6 1222 C 9 h: to 120 C in 2 h, hold 1 h; \
                       to 600 C in 2 h; to 1000 C in 2 h; to 1222 C in 1 h 30 min, hold 30 min; \
                       cooled to 900 C, hold 1 h; to 760 C; burner 2 relit once at 310 C; \
                       shelf 3 moved before firing";

/// A record in its frame, the `nth` confounder before it. Fixed confounders are
/// for samples: a real token needs one of random octets.
fn framed(terms: &TokenTerms, nth: u8, sequence: u32, sealed: bool, record: &str) -> Vec<u8> {
    frame(&terms.wrap(&Wrap {
        sequence,
        confounder: std::array::from_fn(|i| 16 * nth + i as u8),
        sealed,
        message: record.into(),
    }))
}

/// One octet of the record changed on its way.
fn damaged(mut framed: Vec<u8>) -> Vec<u8> {
    let place = framed.len() - 12;
    framed[place] ^= 0x20;
    framed
}

/// The morning's last.
fn record() -> Vec<u8> {
    framed(&INITIATOR, 11, 7, true, "kiln 3 firing 3 cone 6 1222 C 8 h")
}

fn morning() -> Vec<u8> {
    let sealed = |nth, sequence, record| framed(&INITIATOR, nth, sequence, true, record);
    let fourth = sealed(4, 0, "kiln 2 firing 1 cone 04 1060 C 7 h");
    let tokens = [
        sealed(1, FIRST, "kiln 3 firing 1 cone 6 1222 C 8 h"),
        sealed(2, FIRST + 1, "kiln 1 firing 1 cone 022 590 C 4 h"),
        sealed(3, FIRST + 2, ""),
        // Refused before 0 is billed: a program that bills the zero that stands
        // for the number of a refused token calls the next one a duplicate.
        damaged(fourth.clone()),
        fourth.clone(),
        fourth,
        // 1 and 2 have not come.
        sealed(5, 3, LONG),
        sealed(6, 4, "kiln 3 firing 2 cone 6 1222 C 8 h"),
        framed(&ACCEPTOR, 7, 1000, true, "received to firing 2 of kiln 3"),
        sealed(8, 5, LONGEST),
        sealed(9, 1, "kiln 1 firing 2 cone 022 590 C 4 h"),
        framed(&INITIATOR, 10, 6, false, "kiln 1 door open"),
        record(),
    ];
    tokens.concat()
}

fn main() -> io::Result<()> {
    let folder = env::args_os().nth(1).expect("the folder to write to");
    let write = |name: &str, octets: &[u8]| fs::write(Path::new(&folder).join(name), octets);

    write("plant.key", digits(&KEY).as_bytes())?;

    let morning = morning();
    let (lines, status) = billed(&INITIATOR, FIRST, &morning);
    assert_eq!(status, 0);
    write("morning.capture", &morning)?;
    write("morning.expected", lines.as_bytes())?;

    let record = record();
    let reading = frame_outcomes::wrap_open(&INITIATOR, &record, 0, record.len());
    write("record.token", &record)?;
    write("record.expected", opened(&reading).as_bytes())
}
