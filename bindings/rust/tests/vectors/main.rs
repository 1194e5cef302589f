//! Values from published texts, other programs and other implementations.

mod attributed;
mod computed;
mod computed_tokens;
mod data;
mod interoperability;
mod printed_tokens;
mod published;
