//! Areas that a call may be lent together.

use std::borrow::Cow;

/// `area`, or a copy of it where it shares octets with one of `others`: shared
/// borrows may overlap, the areas lent to one call may not.
#[inline]
pub(crate) fn apart_from<'a>(others: &[&[u8]], area: &'a [u8]) -> Cow<'a, [u8]> {
    let ours = area.as_ptr_range();
    let overlaps = |other: &&[u8]| {
        let theirs = other.as_ptr_range();
        ours.start < theirs.end && theirs.start < ours.end
    };
    if others.iter().any(overlaps) {
        Cow::Owned(area.to_vec())
    } else {
        Cow::Borrowed(area)
    }
}

#[cfg(test)]
mod tests {
    use super::apart_from;
    use std::borrow::Cow;

    fn is_copied(others: &[&[u8]], area: &[u8]) -> bool {
        let apart = apart_from(others, area);
        assert_eq!(*apart, *area);
        matches!(apart, Cow::Owned(_))
    }

    #[test]
    fn an_area_that_shares_octets_with_another_is_copied() {
        let octets: Vec<u8> = (0..100).collect();
        let area = &octets[40..56];
        for other in [0..41, 40..56, 45..47, 55..100, 0..100] {
            let other = &octets[other];
            assert!(is_copied(&[other], area));
            assert!(is_copied(&[&octets[..10], other], area));
            assert!(is_copied(&[other, &octets[90..]], area));
        }
    }

    #[test]
    fn an_area_apart_from_the_others_is_lent_as_it_is() {
        let octets: Vec<u8> = (0..100).collect();
        let area = &octets[40..56];
        assert!(!is_copied(&[], area));
        assert!(!is_copied(&[&octets[..40]], area));
        assert!(!is_copied(&[&octets[56..]], area));
        assert!(!is_copied(&[&octets[..40], &octets[56..]], area));
    }
}
