//! The Rust's `diag` module around its own files.

#[path = "../../../rust/crates/meshcop/src/meshcop/diag/decode.rs"]
mod decode;
#[path = "../../../rust/crates/meshcop/src/meshcop/diag/diag_flags.rs"]
pub mod diag_flags;
#[path = "../../../rust/crates/meshcop/src/meshcop/diag/model.rs"]
mod model;

pub use model::*;
