//! Tokens in the frame of GSS-API.

mod areas;
mod faults;
mod fronts;
mod length_faults;
mod lengths;
mod limits;
mod random;
mod received;
mod refusal_order;
mod refused_receipts;
mod regions;
mod whole;
