//! The refusals of the library, by name and by number.

use std::error::Error;
use std::fmt;

/// Why the library did not do what it was asked.
#[derive(Clone, Copy, Debug, PartialEq, Eq, Hash)]
#[non_exhaustive]
pub enum Refusal {
    /// A length is outside its [limits](crate::limits).
    Length,
    /// The named region does not lie inside the lent buffer.
    Region,
    /// The usage is not 1 to 15. A [`Usage`](crate::Usage) always is: only
    /// the functions of [`raw`](crate::raw) can meet this.
    Usage,
    /// The header is not one of a token of the kind that is read.
    Header,
    /// The direction octets are not those of the expected sender. A wrong key,
    /// a wrong strength and a damaged checksum of a token show here too.
    Direction,
    /// The checksum differs.
    Checksum,
    /// The last octet of a Wrap token, after opening, is not 01.
    Pad,
    /// The region is not one whole frame: it has another tag or mechanism, or a
    /// length that is not in the shortest form or does not end where the region
    /// ends.
    Frame,
    /// A number that this binding has no name for. The archive of the same
    /// version answers none; a later one might.
    Unnamed(u32),
}

impl Refusal {
    /// The number of this refusal in the C interface.
    pub fn number(self) -> u32 {
        match self {
            Refusal::Length => 1,
            Refusal::Region => 2,
            Refusal::Usage => 3,
            Refusal::Header => 4,
            Refusal::Direction => 5,
            Refusal::Checksum => 6,
            Refusal::Pad => 7,
            Refusal::Frame => 9,
            Refusal::Unnamed(number) => number,
        }
    }

    /// What a function of [`raw`](crate::raw) answered.
    pub(crate) fn check(number: u32) -> Result<(), Refusal> {
        match number {
            0 => Ok(()),
            1 => Err(Refusal::Length),
            2 => Err(Refusal::Region),
            3 => Err(Refusal::Usage),
            4 => Err(Refusal::Header),
            5 => Err(Refusal::Direction),
            6 => Err(Refusal::Checksum),
            7 => Err(Refusal::Pad),
            9 => Err(Refusal::Frame),
            _ => Err(Refusal::Unnamed(number)),
        }
    }
}

impl fmt::Display for Refusal {
    fn fmt(&self, f: &mut fmt::Formatter<'_>) -> fmt::Result {
        match self {
            Refusal::Length => f.write_str("a length is outside its limits"),
            Refusal::Region => f.write_str("the region does not lie inside the buffer"),
            Refusal::Usage => f.write_str("the usage is not 1 to 15"),
            Refusal::Header => f.write_str("the header is not one of such a token"),
            Refusal::Direction => f.write_str("the direction is not the expected sender's"),
            Refusal::Checksum => f.write_str("the checksum differs"),
            Refusal::Pad => f.write_str("the pad octet is not 01"),
            Refusal::Frame => f.write_str("the region is not one whole frame"),
            Refusal::Unnamed(number) => write!(f, "refusal number {number}"),
        }
    }
}

impl Error for Refusal {}

#[cfg(test)]
mod tests {
    use super::Refusal;

    #[test]
    fn number_0_is_no_refusal() {
        assert_eq!(Refusal::check(0), Ok(()));
    }

    #[test]
    fn a_number_with_a_name_becomes_that_refusal_and_back() {
        for (number, refusal) in [
            (1, Refusal::Length),
            (2, Refusal::Region),
            (3, Refusal::Usage),
            (4, Refusal::Header),
            (5, Refusal::Direction),
            (6, Refusal::Checksum),
            (7, Refusal::Pad),
            (9, Refusal::Frame),
        ] {
            assert_eq!(Refusal::check(number), Err(refusal));
            assert_eq!(refusal.number(), number);
        }
    }

    #[test]
    fn a_number_without_a_name_is_kept_as_it_is() {
        for number in [8, 10, 255, 256, u32::MAX] {
            let refusal = Refusal::check(number).unwrap_err();
            assert_eq!(refusal, Refusal::Unnamed(number));
            assert_eq!(refusal.number(), number);
            assert!(refusal.to_string().contains(&number.to_string()));
        }
    }
}
