//! The program `krbtoken`, run as a user runs it.

mod bill;
mod bill_faults;
mod bill_long;
mod bill_open_pipe;
mod command;
mod files;
mod messages;
mod numbers;
mod passwords;
mod refusals;
mod secrets;
mod tokens;
mod verbs;
mod words;
