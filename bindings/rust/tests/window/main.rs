//! Receive windows, and tokens that are opened and billed in one call.

mod areas;
mod pages;
mod received_sessions;
mod received_tokens;
mod refused_receipts;
mod rules;
mod runs;
mod safe;
mod words;
