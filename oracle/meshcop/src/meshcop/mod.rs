//! The Rust's `meshcop` module, of which only the diagnostic values are here.

pub mod diag;
