//! The statuses of a sequence number in a receive window.

use std::fmt;

/// What a sequence number is to a [`Window`](crate::Window). The names in
/// brackets are those of RFC 2743, section 1.2.3.
///
/// The distance of a number is the number minus the session's first, modulo
/// 2^32. The next expected distance is 0 for a new window and then one above the
/// highest billed. [`Outside`](Self::Outside) comes before all the others.
///
/// ```
/// use rc4hmac::{Status, Window};
///
/// let mut window = Window::new(100);
/// assert_eq!(window.bill(100), Status::InOrder);
/// assert_eq!(window.bill(103), Status::Gap);
/// assert_eq!(window.bill(101), Status::Late);
/// assert_eq!(window.bill(101), Status::Duplicate);
/// assert_eq!(window.bill(99), Status::Outside);
/// assert_eq!(window.bill(200), Status::Gap);
/// assert_eq!(window.bill(102), Status::Old);
/// ```
#[derive(Clone, Copy, Debug, PartialEq, Eq, Hash)]
#[must_use = "whether the number is billed depends on it"]
pub enum Status {
    /// Billed: its distance is the next expected one (GSS_S_COMPLETE).
    InOrder,
    /// Billed: its distance is above the next expected one (GSS_S_GAP_TOKEN).
    Gap,
    /// Billed: its distance is below the next expected one by at most
    /// [`WINDOW_MARKS`](crate::WINDOW_MARKS), and it had not been billed
    /// (GSS_S_UNSEQ_TOKEN).
    Late,
    /// Not billed: as [`Late`](Self::Late), but it had been billed
    /// (GSS_S_DUPLICATE_TOKEN).
    Duplicate,
    /// Not billed: its distance is further below the next expected one
    /// (GSS_S_OLD_TOKEN).
    Old,
    /// Not billed: its distance is 2^31 or more. RFC 2743 has no name for it.
    Outside,
}

impl Status {
    /// The number of this status in the C interface.
    pub fn number(self) -> u32 {
        match self {
            Status::InOrder => 1,
            Status::Gap => 2,
            Status::Late => 3,
            Status::Duplicate => 4,
            Status::Old => 5,
            Status::Outside => 6,
        }
    }

    /// Whether the number was billed: in order, gap and late are.
    pub fn is_billed(self) -> bool {
        matches!(self, Status::InOrder | Status::Gap | Status::Late)
    }

    /// What a function of [`raw`](crate::raw) wrote when it refused nothing.
    pub(crate) fn of(number: u32) -> Status {
        match number {
            1 => Status::InOrder,
            2 => Status::Gap,
            3 => Status::Late,
            4 => Status::Duplicate,
            5 => Status::Old,
            6 => Status::Outside,
            _ => unreachable!("the archive has no status {number}"),
        }
    }
}

impl fmt::Display for Status {
    fn fmt(&self, f: &mut fmt::Formatter<'_>) -> fmt::Result {
        f.write_str(match self {
            Status::InOrder => "in order",
            Status::Gap => "gap",
            Status::Late => "late",
            Status::Duplicate => "duplicate",
            Status::Old => "old",
            Status::Outside => "outside",
        })
    }
}

#[cfg(test)]
mod tests {
    use super::Status;

    const STATUSES: [(u32, Status, &str, bool); 6] = [
        (1, Status::InOrder, "in order", true),
        (2, Status::Gap, "gap", true),
        (3, Status::Late, "late", true),
        (4, Status::Duplicate, "duplicate", false),
        (5, Status::Old, "old", false),
        (6, Status::Outside, "outside", false),
    ];

    #[test]
    fn a_status_has_its_number_its_words_and_its_bill() {
        for (number, status, words, is_billed) in STATUSES {
            assert_eq!(Status::of(number), status);
            assert_eq!(status.number(), number);
            assert_eq!(status.to_string(), words);
            assert_eq!(status.is_billed(), is_billed);
        }
    }
}
