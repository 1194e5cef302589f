//! GSS-API's outer frame, written around a token and read, from RFC 2743,
//! section 3.1.

/// What a frame begins with.
pub const TAG: u8 = 0x60;

/// The object identifier of the mechanism, with its tag and its length.
pub const MECHANISM: [u8; 11] = [
    0x06, 0x09, 0x2a, 0x86, 0x48, 0x86, 0xf7, 0x12, 0x01, 0x02, 0x02,
];

/// The shortest DER length: a number up to 127 is its own octet; before a higher
/// one's octets, the highest first, stands 80 and how many they are.
pub fn der_length(number: usize) -> Vec<u8> {
    if number <= 127 {
        return vec![number as u8];
    }
    let mut octets = Vec::new();
    let mut rest = number;
    while rest != 0 {
        octets.push((rest % 256) as u8);
        rest /= 256;
    }
    octets.push(0x80 + octets.len() as u8);
    octets.reverse();
    octets
}

/// A number, or what of it fits, in this many octets behind 80 and how many they
/// are, whether it needs them or not.
pub fn long_form(number: usize, count: u8) -> Vec<u8> {
    let mut octets = vec![0x80 + count];
    for place in (0..u32::from(count)).rev() {
        octets.push(number.checked_shr(8 * place).unwrap_or(0) as u8);
    }
    octets
}

/// What stands before a token of this length.
pub fn lead(token_len: usize) -> Vec<u8> {
    let length = der_length(MECHANISM.len() + token_len);
    [&[TAG], &length[..], &MECHANISM].concat()
}

/// The token in its frame.
pub fn frame(token: &[u8]) -> Vec<u8> {
    [&lead(token.len())[..], token].concat()
}

/// The token in a frame with these octets in the length's place.
pub fn frame_with(length: &[u8], token: &[u8]) -> Vec<u8> {
    [&[TAG], length, &MECHANISM, token].concat()
}

/// The number of a DER length that `octets` begin with, and what follows it;
/// nothing if it is cut off, is not the shortest, or says nothing (80).
fn split_length(octets: &[u8]) -> Option<(u128, &[u8])> {
    let (&first, rest) = octets.split_first()?;
    if first < 0x80 {
        return Some((first.into(), rest));
    }
    let (digits, rest) = rest.split_at_checked(usize::from(first - 0x80))?;
    if *digits.first()? == 0 {
        return None;
    }
    let mut number: u128 = 0;
    for &digit in digits {
        // Past 2^120 it is longer than any region, whatever follows.
        number = number.checked_mul(256)? + u128::from(digit);
    }
    (number > 127).then_some((number, rest))
}

/// How many octets stand before the token in a region that is one whole frame.
pub fn read_lead(region: &[u8]) -> Option<usize> {
    let (number, rest) = split_length(region.strip_prefix(&[TAG])?)?;
    if number != rest.len() as u128 {
        return None;
    }
    let token = rest.strip_prefix(&MECHANISM)?;
    Some(region.len() - token.len())
}

/// What stands at the front of the octets that are held of a capture.
#[derive(Clone, Copy, Debug, PartialEq, Eq)]
pub enum Front<'a> {
    /// A whole frame, whatever follows.
    Frame(&'a [u8]),
    /// No frame yet, but octets that follow could make one.
    Beginning,
    /// No frame, whatever follows.
    Neither,
}

/// The number of a DER length that may be cut off, and what follows it. Of a
/// number that does not fit, the highest that does: no capture is that long.
fn front_length(octets: &[u8]) -> Result<(u128, &[u8]), Front<'_>> {
    let (&first, rest) = octets.split_first().ok_or(Front::Beginning)?;
    match first {
        0x00..=0x7f => return Ok((first.into(), rest)),
        0x80 | 0xff => return Err(Front::Neither),
        _ => {}
    }
    let count = usize::from(first - 0x80);
    let digits = &rest[..count.min(rest.len())];
    match digits {
        [0, ..] => return Err(Front::Neither),
        [digit, ..] if count == 1 && *digit < 0x80 => return Err(Front::Neither),
        _ if digits.len() < count => return Err(Front::Beginning),
        _ => {}
    }
    let number = digits.iter().fold(0_u128, |number, &digit| {
        number.saturating_mul(256).saturating_add(digit.into())
    });
    Ok((number, &rest[count..]))
}

/// Looks at one part after the other, as far as they are held.
pub fn front(capture: &[u8]) -> Front<'_> {
    let Some((&tag, rest)) = capture.split_first() else {
        return Front::Beginning;
    };
    if tag != TAG {
        return Front::Neither;
    }
    let (number, rest) = match front_length(rest) {
        Ok(length) => length,
        Err(front) => return front,
    };
    if number < MECHANISM.len() as u128 {
        return Front::Neither;
    }
    let held = rest.len().min(MECHANISM.len());
    if rest[..held] != MECHANISM[..held] {
        return Front::Neither;
    }
    if number > rest.len() as u128 {
        return Front::Beginning;
    }
    Front::Frame(&capture[..capture.len() - rest.len() + number as usize])
}

/// The whole frame that a capture begins with.
pub fn first_frame(capture: &[u8]) -> Option<&[u8]> {
    match front(capture) {
        Front::Frame(frame) => Some(frame),
        _ => None,
    }
}
