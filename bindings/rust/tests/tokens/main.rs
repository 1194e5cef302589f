//! MIC and Wrap tokens; `answers`, `areas` and `regions` also in the frame.

mod answers;
mod areas;
mod checksums;
mod damaged;
mod headers;
mod limits;
mod mic;
mod pads;
mod random;
mod refusal_order;
mod regions;
mod rfc4757_steps;
mod wrap;
mod wrong_contexts;
