//! What the tests of the binding share: the functions of the archive on slices,
//! the same calls beside the reference implementation, buffers between guard
//! octets or unmapped pages, inputs, faults and assertions.

pub mod areas;
mod assertions;
pub mod calls;
mod faults;
mod inputs;
pub mod lent;
pub mod programs;
mod random_terms;
mod window_inputs;

pub use assertions::{must_be_octets, MustBe};
pub use faults::{fault_sets, first, refused_mic_tokens, Faults};
pub use inputs::{counting, Inputs, OVER_MESSAGE};
pub use random_terms::{AllTerms, RandomWrap};
pub use window_inputs::HIGH;
