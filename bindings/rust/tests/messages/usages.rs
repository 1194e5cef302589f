//! The fifteen usages by name and by number, and every number beside them.

use rc4hmac::Usage;
use reference::{message_type, outcomes, salt, Outcome, Terms, HEADER, USAGES};
use support::{calls, must_be_octets, Inputs, MustBe};

/// In the order of the list in RFC 4757, section 3.
const NAMED: [Usage; 15] = [
    Usage::AS_REQ_PA_ENC_TIMESTAMP,
    Usage::AS_REP_TGS_REP_TICKET,
    Usage::AS_REP_ENCRYPTED_PART,
    Usage::TGS_REQ_AUTHORIZATION_DATA_SESSION_KEY,
    Usage::TGS_REQ_AUTHORIZATION_DATA_SUBKEY,
    Usage::TGS_REQ_AUTHENTICATOR_CKSUM,
    Usage::TGS_REQ_AUTHENTICATOR,
    Usage::TGS_REP_ENCRYPTED_PART_SESSION_KEY,
    Usage::TGS_REP_ENCRYPTED_PART_SUBKEY,
    Usage::AP_REQ_AUTHENTICATOR_CKSUM,
    Usage::AP_REQ_AUTHENTICATOR,
    Usage::AP_REP_ENCRYPTED_PART,
    Usage::KRB_PRIV_ENCRYPTED_PART,
    Usage::KRB_CRED_ENCRYPTED_PART,
    Usage::KRB_SAFE_CKSUM,
];

/// No usages: beside the first and the last, and numbers that would be one if
/// only some of their octets counted.
const NONE: [u32; 16] = [
    0,
    16,
    17,
    18,
    23,
    31,
    32,
    128,
    255,
    256,
    257,
    0x0001_0001,
    0x0100_0000,
    0x0f00_0000,
    0x8000_0001,
    u32::MAX,
];

#[test]
fn the_names_stand_for_the_numbers_of_the_list() {
    for (number, usage) in (1..).zip(NAMED) {
        assert_eq!(usage.number(), number);
        assert_eq!(Usage::new(number), Some(usage));
    }
}

#[test]
fn there_is_no_usage_with_another_number() {
    for number in NONE {
        assert_eq!(Usage::new(number), None, "{number}");
    }
}

#[test]
fn the_message_type_is_the_usages_number_but_for_3_and_9() {
    for usage in USAGES {
        let expected = if usage == 3 || usage == 9 { 8 } else { usage };
        assert_eq!(message_type(usage), expected);
    }
}

/// T in four octets, low-order first, for export behind "fortybits" and its
/// closing zero.
#[test]
fn the_salts_of_the_reference_are_those_written_out() {
    assert_eq!(salt(false, 3), [8, 0, 0, 0]);
    assert_eq!(salt(false, 15), [15, 0, 0, 0]);
    let fortybits = [0x66, 0x6f, 0x72, 0x74, 0x79, 0x62, 0x69, 0x74, 0x73, 0x00];
    assert_eq!(salt(true, 9), [&fortybits[..], &[8, 0, 0, 0]].concat());
}

#[test]
fn checksums_for_no_usage_are_refused_with_3() {
    let mut inputs = Inputs::new(111);
    for usage in NONE {
        for len in [0, 1, 30, 32_768] {
            let (key, data) = (inputs.array(), inputs.octets(len));
            let before = data.clone();
            let what = (usage, len);
            assert_eq!(
                calls::checksum(&key, usage, &data),
                (3, [0; 16]),
                "{what:?}"
            );
            // One that would be right for a usage of the same low octet.
            let low = (usage % 256).clamp(1, 15);
            let checksum = reference::checksum(&key, low, &data);
            for checksum in [checksum, [0; 16]] {
                let answer = calls::checksum_test(&key, usage, &data, &checksum);
                assert_eq!(answer, 3, "{what:?}");
            }
            must_be_octets(&data, &before, what);
        }
    }
}

#[test]
fn messages_for_no_usage_are_refused_with_3_and_left() {
    let mut inputs = Inputs::new(112);
    for usage in NONE {
        for export in [false, true] {
            let key = inputs.array();
            let terms = Terms { key, export, usage };
            let low = Terms {
                usage: (usage % 256).clamp(1, 15),
                ..terms
            };
            for len in [0, 1, 30, 32_768] {
                let (confounder, data) = (inputs.array(), inputs.octets(len));
                let what = (usage, export, len);

                let plain = [&inputs.octets(HEADER)[..], &data].concat();
                let outcome = calls::encrypt(&terms, &confounder, &plain, 0, len);
                outcome.must_be(&Outcome::refused(3, &plain), what);

                let message = low.encrypt(&confounder, &data);
                let outcome = calls::decrypt(&terms, &message, 0, message.len());
                outcome.must_be(&Outcome::refused(3, &message), what);
            }
        }
    }
}

/// Every number to 300, so that the fifteen are taken and no other.
#[test]
fn the_numbers_1_to_15_are_taken_and_no_other() {
    let mut inputs = Inputs::new(113);
    let (key, confounder, plain) = (inputs.array(), inputs.array(), inputs.octets(40));
    for usage in 0..=300 {
        let taken = (1..=15).contains(&usage);
        assert_eq!(Usage::new(usage).is_some(), taken, "{usage}");
        let number = if taken { 0 } else { 3 };
        assert_eq!(calls::checksum(&key, usage, &plain).0, number, "{usage}");
        for export in [false, true] {
            let terms = Terms { key, export, usage };
            let outcome = calls::encrypt(&terms, &confounder, &plain, 0, 16);
            assert_eq!(outcome.number, number, "{usage}");
            let expected = outcomes::encrypt(&terms, &confounder, &plain, 0, 16);
            outcome.must_be(&expected, usage);
        }
    }
}
