//! Areas between guard octets.

use crate::Inputs;

const GUARD: usize = 64;

/// An area whose octets start at a chosen alignment, with guard octets on both
/// sides, all pseudo-random.
pub struct Guarded {
    pub octets: Vec<u8>,
    start: usize,
    len: usize,
    alignment: usize,
}

impl Guarded {
    pub fn new(inputs: &mut Inputs, len: usize, alignment: usize) -> Guarded {
        let octets = inputs.octets(GUARD + 16 + len + GUARD);
        let at = octets.as_ptr() as usize + GUARD;
        let start = GUARD + (16 + alignment - at % 16) % 16;
        Guarded {
            octets,
            start,
            len,
            alignment,
        }
    }

    pub fn ptr(&mut self) -> *mut u8 {
        let ptr = self.octets[self.start..].as_mut_ptr();
        assert_eq!(ptr as usize % 16, self.alignment);
        ptr
    }

    pub fn lent(&self) -> &[u8] {
        &self.octets[self.start..][..self.len]
    }

    /// Puts `area` in the place of the lent octets.
    pub fn set(&mut self, area: &[u8]) {
        self.octets[self.start..][..self.len].copy_from_slice(area);
    }

    /// All octets, with `area` in the place of the lent ones.
    pub fn with(&self, area: &[u8]) -> Vec<u8> {
        let mut octets = self.octets.clone();
        octets[self.start..][..self.len].copy_from_slice(area);
        octets
    }
}
