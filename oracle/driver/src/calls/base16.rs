//! Hex texts: `hexbytes`, `hexframe`, `hexdata`, `tohex`.

use super::framing::entries_words;
use super::{lent, value};
use crate::answer::Answer;
use crate::framed;
use crate::sizes;

pub fn hexbytes(text: &[u8], cap: u64) -> Answer {
    sizes::test_hex_text(text)?;
    let bytes = hex::decode(text).map_err(framed::refusal_of_hex)?;
    lent(&bytes, cap)
}

pub fn hexframe(text: &[u8]) -> Answer {
    value(entries_words(&framed::read_hex_dataset(text)?.entries))
}

/// The bytes as decoded, not written afresh.
pub fn hexdata(text: &[u8], cap: u64) -> Answer {
    framed::read_hex_dataset(text)?;
    let bytes = hex::decode(text).map_err(framed::refusal_of_hex)?;
    lent(&bytes, cap)
}

pub fn tohex(bytes: &[u8], cap: u64) -> Answer {
    let read = framed::read_dataset(bytes)?;
    let text = read.dataset.to_hex().map_err(framed::refusal_of_writing)?;
    lent(text.as_bytes(), cap)
}
