//! The module tree around the Rust's own files, which are taken by path, unchanged, from `oracle/rust`.

// Debian's zeroize_derive is older than this lint of the compiler.
#![allow(non_local_definitions)]

#[macro_use]
#[path = "../../rust/crates/meshcop/src/flags.rs"]
mod flags;

#[path = "../../rust/crates/meshcop/src/dataset.rs"]
pub mod dataset;
pub mod error;
pub mod meshcop;
#[path = "../../rust/crates/meshcop/src/tlv.rs"]
pub mod tlv;
#[path = "../../rust/crates/meshcop/src/wire.rs"]
mod wire;

pub use error::{Error, Result};
