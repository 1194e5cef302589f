//! Areas to lend: between guard octets, between pages that cannot be read, and
//! empty ones.

mod guarded;
mod walled;

use std::ptr;

pub use guarded::Guarded;
pub use walled::Walled;

pub type Side = fn(&mut Walled, usize) -> &mut [u8];

/// Right behind the first wall and right before the last.
pub const SIDES: [Side; 2] = [Walled::first, Walled::last];

/// Pointers that may stand for an empty area, none of them to be followed.
pub fn empty_pointers() -> [*mut u8; 4] {
    [
        ptr::null_mut(),
        ptr::dangling_mut(),
        ptr::without_provenance_mut(0x1000 - 1),
        ptr::without_provenance_mut(usize::MAX),
    ]
}

/// The octets at one side of a mapping.
pub fn walled<'a>(side: Side, map: &'a mut Walled, octets: &[u8]) -> &'a mut [u8] {
    let area = side(map, octets.len());
    area.copy_from_slice(octets);
    area
}
