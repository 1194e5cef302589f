//! The reference implementation's front of a capture, by which the command line is
//! tested: a whole frame, the beginning of one, or neither. It is compared with
//! what its reader of whole regions says of every region at the front.

use reference::{frame, frame_with, front, lead, long_form, read_lead, Front, MECHANISM};

/// Tokens whose frames have lengths of one to four octets.
const TOKEN_LENS: [usize; 9] = [0, 1, 33, 116, 117, 244, 245, 65_524, 65_525];

#[test]
fn a_frame_is_told_whatever_follows_and_its_prefixes_are_beginnings() {
    for token_len in TOKEN_LENS {
        let framed = frame(&vec![0x55; token_len]);
        let lead_len = lead(token_len).len();
        for cut in (0..lead_len).chain([framed.len() / 2, framed.len() - 1]) {
            let what = (token_len, cut);
            assert_eq!(front(&framed[..cut]), Front::Beginning, "{what:?}");
        }
        assert_eq!(front(&framed), Front::Frame(&framed));
        let followed = [&framed[..], b"\n"].concat();
        assert_eq!(front(&followed), Front::Frame(&framed));
    }
}

/// Of every first and second octet after the tag, with a mechanism that is right,
/// cut off or wrong.
#[test]
fn a_frame_is_told_where_a_region_at_the_front_is_one() {
    let rests = [&MECHANISM[..], &MECHANISM[..10], &[0x06, 0x08], &[]];
    let mut told = 0;
    for (first, second) in (0..=255).flat_map(|first| (0..=255).map(move |second| (first, second)))
    {
        for rest in rests {
            let octets = [&[0x60, first, second], rest, &[0x02; 20]].concat();
            let short = [&[0x60, first], rest, &[0x02; 20]].concat();
            for octets in [&octets, &short] {
                let region = (0..=octets.len()).find(|&len| read_lead(&octets[..len]).is_some());
                match front(octets) {
                    Front::Frame(frame) => assert_eq!(region, Some(frame.len())),
                    _ => assert_eq!(region, None, "{octets:02x?}"),
                }
                told += u32::from(region.is_some());
            }
        }
    }
    assert!(told > 1_000, "{told}");
}

#[test]
fn octets_that_no_frame_begins_with_are_neither() {
    for octets in [
        &[0x61][..],
        &[0x00],
        &[0x60, 0x00],
        &[0x60, 0x0a],
        &[0x60, 0x80],
        &[0x60, 0xff],
        &[0x60, 0x81, 0x7f],
        &[0x60, 0x81, 0x00],
        &[0x60, 0x82, 0x00],
        &[0x60, 0x83, 0x00],
        &[0x60, 0xfe, 0x00],
        &[0x60, 0x0b, 0x07],
        &[0x60, 0x2c, 0x06, 0x08],
        &[0x60, 0x82, 0x01, 0x00, 0x06, 0x09, 0x2b],
    ] {
        assert_eq!(front(octets), Front::Neither, "{octets:02x?}");
        let before = &octets[..octets.len() - 1];
        assert_eq!(front(before), Front::Beginning, "{before:02x?}");
    }
}

/// What is neither stays so: no octets after it make a frame.
#[test]
fn a_longer_form_of_the_length_is_neither_from_its_first_wrong_octet_on() {
    for token_len in TOKEN_LENS {
        let shortest = lead(token_len).len() - 12;
        for count in shortest..=9 {
            let length = long_form(token_len + 11, count as u8);
            let framed = frame_with(&length, &vec![0x55; token_len]);
            for cut in (1..20).chain([framed.len()]) {
                let cut = cut.min(framed.len());
                let expected = match cut {
                    1 | 2 => Front::Beginning,
                    _ => Front::Neither,
                };
                assert_eq!(
                    front(&framed[..cut]),
                    expected,
                    "{token_len}, {count}, {cut}"
                );
            }
        }
    }
}
