//! Changes of a dataset: `set`, `push`, `remove`.

use meshcop::tlv::{TlvEntry, TlvSet};

use super::lent;
use crate::answer::{Answer, Refusal};
use crate::framed;
use crate::sizes;

pub fn set(ty: u8, value: Vec<u8>, bytes: &[u8], cap: u64) -> Answer {
    lent(&with_set(ty, value, bytes)?, cap)
}

/// Refusals 1, 2, 3, 13, 10, or the dataset with the value set.
pub fn with_set(ty: u8, value: Vec<u8>, bytes: &[u8]) -> Result<Vec<u8>, Refusal> {
    let mut dataset = framed::read_dataset(bytes)?.dataset;
    dataset.set_raw(ty, value);
    let written = framed::write_dataset(&dataset)?;
    sizes::test_result(&written, dataset.entries().len())?;
    Ok(written)
}

/// The Rust has it of a set of entries, not of a dataset.
pub fn push(ty: u8, value: Vec<u8>, bytes: &[u8], cap: u64) -> Answer {
    framed::read_dataset(bytes)?;
    let mut entries = TlvSet::parse(bytes).expect("just seen to be framed");
    entries.push(TlvEntry::new(ty, value));
    let written = entries.encode().map_err(framed::refusal_of_tlv)?;
    sizes::test_result(&written, entries.entries().len())?;
    lent(&written, cap)
}

pub fn remove(ty: u8, bytes: &[u8], cap: u64) -> Answer {
    lent(&without(ty, bytes)?, cap)
}

/// Refusals 1, 2, 3, or the dataset without the type. It is no longer than what was read, so 10 is not tested.
pub fn without(ty: u8, bytes: &[u8]) -> Result<Vec<u8>, Refusal> {
    let mut dataset = framed::read_dataset(bytes)?.dataset;
    dataset.remove_all(ty);
    framed::write_dataset(&dataset)
}
