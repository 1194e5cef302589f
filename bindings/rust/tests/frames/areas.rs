//! What the calls for framed tokens do to the areas lent to them, where they
//! differ from those for tokens: regions that are no frame, and the lead.

use rc4hmac::raw;
use reference::{frame_outcomes, TokenTerms, Wrap};
use support::areas::{walled, Guarded, Walled};
use support::calls::Flags;
use support::lent::Lent;
use support::programs::FRAMED;
use support::{must_be_octets, AllTerms, Inputs, RandomWrap};

/// A region that is no frame, by each of its octets.
#[test]
fn regions_that_are_no_frame_change_no_octet_but_the_answers() {
    let mut inputs = Inputs::new(591);
    for alignment in 0..16 {
        let mut lent = Lent::new(&mut inputs, &FRAMED, 100, 30, alignment);
        let terms = lent.terms(alignment % 2 == 0, alignment % 3 == 0);
        let wrap = Wrap::new(&mut inputs, alignment % 2 == 1, 20);
        let (mic, token) = (terms.mic(5, lent.data.lent()), terms.wrap(&wrap));
        for at in 0..13 {
            let [mic, token] = [&mic, &token].map(|token| {
                let mut region = FRAMED.form(token);
                region[at] ^= 0x20;
                region.extend(inputs.octets(100 - region.len()));
                region
            });
            lent.sequence.set(&inputs.array::<4>());
            lent.buf.set(&mic);
            assert_eq!(lent.mic_read(&terms, 0, 37).number, 9, "{at}");
            lent.sequence.set(&inputs.array::<4>());
            lent.sealed.set(&inputs.array::<4>());
            lent.len.set(&inputs.array::<8>());
            lent.buf.set(&token);
            assert_eq!(lent.wrap_open(&terms, 0, 66).number, 9, "{at}");
        }
    }
}

/// Frames that are cut off, before a page that cannot be read.
#[test]
fn no_octet_after_the_end_of_a_region_is_read_as_a_frame() {
    let mut inputs = Inputs::new(593);
    let mut map = Walled::new(4096);
    for terms in TokenTerms::all(&mut inputs) {
        let (calls, flags) = (&FRAMED.calls, Flags::of(&terms));
        let long = terms.wrap(&Wrap::new(&mut inputs, true, 300));
        for framed in [terms.mic(5, b"data"), long].map(|token| FRAMED.form(&token)) {
            for cut in 0..=40.min(framed.len() - 1) {
                let buf = walled(Walled::last, &mut map, &framed[..cut]);
                let read = calls.mic_read_in_place(flags, &terms.key, b"data", buf, 0, cut);
                assert_eq!(read, (9, 0), "{cut}");
                let opened = calls.wrap_open_in_place(flags, &terms.key, buf, 0, cut);
                assert_eq!(opened, (9, 0, 0, 0), "{cut}");
            }
        }
        for first in 0x80..=0xff {
            let buf = walled(Walled::last, &mut map, &[0x60, first]);
            let opened = calls.wrap_open_in_place(flags, &terms.key, buf, 0, 2);
            assert_eq!(opened, (9, 0, 0, 0), "{first}");
        }
    }
}

#[test]
fn the_lead_is_written_and_no_octet_beside_it() {
    let mut inputs = Inputs::new(592);
    for len in [0, 83, 84, 211, 212, 32_768, 32_769, usize::MAX] {
        for alignment in [0, 8] {
            let mut lead = Guarded::new(&mut inputs, 8, alignment);
            let (number, expected) = frame_outcomes::wrap_lead(len);
            let after = lead.with(&expected.to_ne_bytes());
            // SAFETY: the eight octets are lent, and aligned.
            let answer = unsafe { raw::rc4hmac_framed_wrap_lead(len, lead.ptr().cast()) };
            assert_eq!(answer, number, "{len}");
            must_be_octets(&lead.octets, &after, len);
        }
    }
}
