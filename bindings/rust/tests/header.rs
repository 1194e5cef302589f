//! The numbers that the C header names beside those of this binding, and the
//! functions that it declares beside the raw ones.

use std::collections::BTreeMap;

use rc4hmac::{limits, Refusal, Status, Usage};

const HEADER: &str = include_str!("../../../include/rc4hmac.h");
const RAW: &str = include_str!("../src/raw.rs");

/// Every number that the header defines, by its name without `RC4HMAC_`.
fn defined() -> BTreeMap<&'static str, usize> {
    HEADER
        .lines()
        .filter_map(|line| line.strip_prefix("#define RC4HMAC_"))
        .filter_map(|definition| definition.split_once(' '))
        .map(|(name, rest)| {
            let number = rest.split_once('u').expect("an unsigned number").0;
            (name, number.parse().expect("a decimal number"))
        })
        .collect()
}

fn refusals() -> Vec<(&'static str, usize)> {
    let number = |refusal: Refusal| refusal.number() as usize;
    vec![
        ("DONE", 0),
        ("REFUSED_LENGTH", number(Refusal::Length)),
        ("REFUSED_REGION", number(Refusal::Region)),
        ("REFUSED_USAGE", number(Refusal::Usage)),
        ("REFUSED_HEADER", number(Refusal::Header)),
        ("REFUSED_DIRECTION", number(Refusal::Direction)),
        ("REFUSED_CHECKSUM", number(Refusal::Checksum)),
        ("REFUSED_PAD", number(Refusal::Pad)),
        ("REFUSED_FRAME", number(Refusal::Frame)),
    ]
}

fn statuses() -> Vec<(&'static str, usize)> {
    let number = |status: Status| status.number() as usize;
    vec![
        ("STATUS_NONE", 0),
        ("STATUS_IN_ORDER", number(Status::InOrder)),
        ("STATUS_GAP", number(Status::Gap)),
        ("STATUS_LATE", number(Status::Late)),
        ("STATUS_DUPLICATE", number(Status::Duplicate)),
        ("STATUS_OLD", number(Status::Old)),
        ("STATUS_OUTSIDE", number(Status::Outside)),
    ]
}

fn lengths() -> Vec<(&'static str, usize)> {
    vec![
        ("DIGEST_LEN", rc4hmac::DIGEST_LEN),
        ("DIGEST_DATA_MAX", limits::DIGEST_DATA_MAX),
        ("HMAC_KEY_MAX", limits::HMAC_KEY_MAX),
        ("HMAC_TEXT_MAX", limits::HMAC_TEXT_MAX),
        ("RC4_KEY_MIN", limits::RC4_KEY_MIN),
        ("RC4_KEY_MAX", limits::RC4_KEY_MAX),
        ("RC4_DATA_MAX", limits::RC4_DATA_MAX),
        ("KEY_LEN", rc4hmac::KEY_LEN),
        ("CHECKSUM_LEN", rc4hmac::CHECKSUM_LEN),
        ("CONFOUNDER_LEN", rc4hmac::CONFOUNDER_LEN),
        ("PASSWORD_UNITS_MAX", limits::PASSWORD_UNITS_MAX),
        ("MESSAGE_MAX", limits::MESSAGE_MAX),
        ("ENCRYPTED_OVERHEAD", rc4hmac::ENCRYPTED_OVERHEAD),
        ("ENCRYPTED_MIN", limits::ENCRYPTED_MIN),
        ("ENCRYPTED_MAX", limits::ENCRYPTED_MAX),
        ("MIC_LEN", rc4hmac::MIC_LEN),
        ("WRAP_OVERHEAD", rc4hmac::WRAP_OVERHEAD),
        ("WRAP_MESSAGE_OFFSET", rc4hmac::WRAP_MESSAGE_OFFSET),
        ("WRAP_MIN", limits::WRAP_MIN),
        ("WRAP_MAX", limits::WRAP_MAX),
        ("FRAMED_MIC_LEN", rc4hmac::FRAMED_MIC_LEN),
        ("FRAMED_WRAP_MIN", limits::FRAMED_WRAP_MIN),
        ("FRAMED_WRAP_MAX", limits::FRAMED_WRAP_MAX),
        ("WINDOW_WORDS", rc4hmac::WINDOW_WORDS),
        ("WINDOW_MARKS", rc4hmac::WINDOW_MARKS),
    ]
}

macro_rules! usages {
    ($($name:ident)*) => {
        vec![$((concat!("USAGE_", stringify!($name)), Usage::$name.number() as usize)),*]
    };
}

fn usages() -> Vec<(&'static str, usize)> {
    usages! {
        AS_REQ_PA_ENC_TIMESTAMP
        AS_REP_TGS_REP_TICKET
        AS_REP_ENCRYPTED_PART
        TGS_REQ_AUTHORIZATION_DATA_SESSION_KEY
        TGS_REQ_AUTHORIZATION_DATA_SUBKEY
        TGS_REQ_AUTHENTICATOR_CKSUM
        TGS_REQ_AUTHENTICATOR
        TGS_REP_ENCRYPTED_PART_SESSION_KEY
        TGS_REP_ENCRYPTED_PART_SUBKEY
        AP_REQ_AUTHENTICATOR_CKSUM
        AP_REQ_AUTHENTICATOR
        AP_REP_ENCRYPTED_PART
        KRB_PRIV_ENCRYPTED_PART
        KRB_CRED_ENCRYPTED_PART
        KRB_SAFE_CKSUM
    }
}

#[test]
fn the_header_names_the_numbers_of_this_binding_and_no_others() {
    let mut defined = defined();
    for (name, number) in [refusals(), statuses(), lengths(), usages()].concat() {
        assert_eq!(defined.remove(name), Some(number), "{name}");
    }
    assert_eq!(defined, BTreeMap::new());
}

/// The functions that begin so, and the text of their parameters.
fn declared(text: &'static str, begins: &str) -> Vec<(&'static str, Vec<&'static str>)> {
    let declarations = text.split(begins).skip(1);
    declarations
        .map(|rest| {
            let (name, rest) = rest.split_once('(').expect("parameters");
            let (parameters, _) = rest.split_once(')').expect("their end");
            let parameters = parameters.split(',').map(str::trim);
            (name, parameters.filter(|p| !p.is_empty()).collect())
        })
        .collect()
}

/// A parameter of C as Rust declares it.
fn in_rust(parameter: &str) -> String {
    let (constant, rest) = match parameter.strip_prefix("const ") {
        Some(rest) => ("const", rest),
        None => ("mut", parameter),
    };
    let (c_type, name) = rest.split_once(' ').expect("a type and a name");
    let rust_type = match c_type {
        "uint8_t" => "u8",
        "uint16_t" => "u16",
        "uint32_t" => "u32",
        "uint64_t" => "u64",
        "size_t" => "usize",
        _ => panic!("{c_type}"),
    };
    if let Some(name) = name.strip_prefix('*') {
        format!("{name}: *{constant} {rust_type}")
    } else if let Some((name, len)) = name.split_once('[') {
        format!("{name}: *{constant} [{rust_type}; {len}")
    } else {
        format!("{name}: {rust_type}")
    }
}

#[test]
fn the_header_declares_the_raw_functions_with_their_parameters_and_no_others() {
    let header: Vec<(&str, Vec<String>)> = declared(HEADER, "\nuint32_t ")
        .into_iter()
        .map(|(name, parameters)| (name, parameters.into_iter().map(in_rust).collect()))
        .collect();
    let raw = declared(RAW, "    pub fn ");
    assert_eq!(header.len(), 25);
    for ((name, parameters), (raw_name, raw_parameters)) in header.iter().zip(&raw) {
        assert_eq!(
            (name, &parameters[..]),
            (raw_name, &owned(raw_parameters)[..])
        );
    }
    assert_eq!(header.len(), raw.len());
}

fn owned(parameters: &[&str]) -> Vec<String> {
    parameters
        .iter()
        .map(|parameter| parameter.to_string())
        .collect()
}
