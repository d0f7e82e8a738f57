//! Stands in for the Rust's error.rs, which is not among the files: only what the others use of it.

use crate::tlv::TlvError;

#[derive(Debug)]
pub enum Error {
    Dataset(String),
    Tlv(TlvError),
    Hex(hex::FromHexError),
}

pub type Result<T> = core::result::Result<T, Error>;

impl From<TlvError> for Error {
    fn from(error: TlvError) -> Self {
        Error::Tlv(error)
    }
}

impl From<hex::FromHexError> for Error {
    fn from(error: hex::FromHexError) -> Self {
        Error::Hex(error)
    }
}
