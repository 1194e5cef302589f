//! Sealed Wrap tokens of full strength from the initiator in Rust: RFC 4757,
//! section 7, with the 13 and the direction octets that are sent. MD5 is the one
//! with the 64 steps written out and takes the parts of a token where they stand;
//! RC4 is the plain loop, or the one that reads ahead.

use super::md5::Md5;
use super::{hmac_md5, rc4, rc4_reading_ahead};

const HEADER: [u8; 8] = [0x02, 0x01, 0x11, 0x00, 0x10, 0x00, 0xff, 0xff];
const DIRECTION: [u8; 4] = [0x00; 4];
const PAD: u8 = 0x01;

/// Opens a whole token in place: its sequence number and the length of its
/// message.
#[inline(never)]
pub fn wrap_open(key: &[u8; 16], token: &mut [u8]) -> Option<(u32, usize)> {
    open(rc4, key, token)
}

#[inline(never)]
pub fn wrap_open_reading_ahead(key: &[u8; 16], token: &mut [u8]) -> Option<(u32, usize)> {
    open(rc4_reading_ahead, key, token)
}

/// Makes a whole token in place around its message.
#[inline(never)]
pub fn wrap_write(key: &[u8; 16], sequence: u32, confounder: &[u8; 8], token: &mut [u8]) {
    write(rc4, key, sequence, confounder, token);
}

#[inline(never)]
pub fn wrap_write_reading_ahead(
    key: &[u8; 16],
    sequence: u32,
    confounder: &[u8; 8],
    token: &mut [u8],
) {
    write(rc4_reading_ahead, key, sequence, confounder, token);
}

#[inline(always)]
fn open(rc4: impl Fn(&[u8], &mut [u8]), key: &[u8; 16], token: &mut [u8]) -> Option<(u32, usize)> {
    let (front, body) = token.split_first_chunk_mut::<24>()?;
    // The confounder before the message, the pad after it.
    let len = body.len().checked_sub(8 + 1)?;
    if front[..8] != HEADER {
        return None;
    }
    let mut send_seq = [0; 8];
    send_seq.copy_from_slice(&front[8..16]);
    rc4(&kseq(key, &front[16..]), &mut send_seq);
    let (number, direction) = send_seq.split_first_chunk::<4>()?;
    if *direction != DIRECTION {
        return None;
    }
    let kcrypt = kcrypt(key, number);
    rc4(&kcrypt, body);
    if front[16..] != sgn_cksum(key, body)[..8] || body[len + 8] != PAD {
        rc4(&kcrypt, body);
        return None;
    }
    Some((u32::from_be_bytes(*number), len))
}

#[inline(always)]
fn write(
    rc4: impl Fn(&[u8], &mut [u8]),
    key: &[u8; 16],
    sequence: u32,
    confounder: &[u8; 8],
    token: &mut [u8],
) {
    let (front, body) = token.split_at_mut(24);
    body[..8].copy_from_slice(confounder);
    body[body.len() - 1] = PAD;
    front[..8].copy_from_slice(&HEADER);
    front[8..12].copy_from_slice(&sequence.to_be_bytes());
    front[12..16].copy_from_slice(&DIRECTION);
    front[16..].copy_from_slice(&sgn_cksum(key, body)[..8]);
    rc4(&kcrypt(key, &sequence.to_be_bytes()), body);
    let kseq = kseq(key, &front[16..]);
    rc4(&kseq, &mut front[8..16]);
}

/// Of 13, the header and the plain body, without a copy of the body.
fn sgn_cksum(key: &[u8; 16], body: &[u8]) -> [u8; 16] {
    let (mut ksign, mut digest, mut whole) = ([0; 16], [0; 16], [0; 16]);
    hmac_md5(key, b"signaturekey\0", &mut ksign);
    let mut md5 = Md5::new();
    md5.update(&[13, 0, 0, 0]);
    md5.update(&HEADER);
    md5.update(body);
    md5.finish(&mut digest);
    hmac_md5(&ksign, &digest, &mut whole);
    whole
}

fn kseq(key: &[u8; 16], sgn_cksum: &[u8]) -> [u8; 16] {
    salted_twice(key, sgn_cksum)
}

fn kcrypt(key: &[u8; 16], number: &[u8; 4]) -> [u8; 16] {
    salted_twice(&key.map(|octet| octet ^ 0xf0), number)
}

/// Salted with T = 0, and then with another salt.
fn salted_twice(key: &[u8; 16], salt: &[u8]) -> [u8; 16] {
    let (mut first, mut second) = ([0; 16], [0; 16]);
    hmac_md5(key, &[0; 4], &mut first);
    hmac_md5(&first, salt, &mut second);
    second
}
