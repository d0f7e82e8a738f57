//! Reading a dataset with the Rust, and finding by its own `parse_one` the places that it does not tell.

use hex::FromHexError;
use meshcop::Error;
use meshcop::dataset::Dataset;
use meshcop::tlv::{self, TlvError};

use crate::answer::Refusal;
use crate::sizes;

/// An entry that the Rust framed, and where it stands in the input.
pub struct PlacedEntry {
    pub ty: u8,
    /// Where its type byte stands.
    pub start: usize,
    /// The size of its header, 2 or 4.
    pub header: usize,
    pub value: Vec<u8>,
}

/// A dataset as the Rust read it, with the places of its entries.
pub struct ReadDataset {
    pub dataset: Dataset,
    pub entries: Vec<PlacedEntry>,
}

impl ReadDataset {
    /// The last entry of a type, which is the one that the Rust's queries use.
    pub fn last(&self, ty: u8) -> Option<&PlacedEntry> {
        self.entries.iter().rev().find(|entry| entry.ty == ty)
    }
}

/// Refusals 1, 2, 3, or the dataset.
pub fn read_dataset(bytes: &[u8]) -> Result<ReadDataset, Refusal> {
    sizes::test_bytes(bytes)?;
    let read = Dataset::from_bytes(bytes);
    let placed = entries_in_place(bytes);
    assert_eq!(read.is_ok(), placed.is_ok(), "the Rust frames a whole exactly when it frames each entry");
    let entries = placed?;
    sizes::test_count(entries.iter().map(|entry| entry.start))?;
    let dataset = read.expect("just seen to be framed");
    Ok(ReadDataset { dataset, entries })
}

/// Refusals 1, 7, 8, 2, 3, or the dataset that the hex text stands for.
pub fn read_hex_dataset(text: &[u8]) -> Result<ReadDataset, Refusal> {
    sizes::test_hex_text(text)?;
    match Dataset::from_hex(text) {
        Err(Error::Hex(error)) => Err(refusal_of_hex(error)),
        // Framed or not, the places are those of the decoded bytes.
        _ => read_dataset(&hex::decode(text).map_err(refusal_of_hex)?),
    }
}

/// Refusal 2, or the entries. Steps through the input with `parse_one`: an entry, or the refusal of one, stands where the
/// bytes still to be read begin.
pub fn entries_in_place(bytes: &[u8]) -> Result<Vec<PlacedEntry>, Refusal> {
    let mut entries = Vec::new();
    let mut rest = bytes;
    while !rest.is_empty() {
        let start = bytes.len() - rest.len();
        let (entry, after) = first_entry(rest).map_err(|refusal| Refusal { place: start, ..refusal })?;
        entries.push(PlacedEntry { start, ..entry });
        rest = after;
    }
    Ok(entries)
}

/// The entry at the start of the bytes, and the bytes after it. Refusal 2 only, at 0.
pub fn first_entry(bytes: &[u8]) -> Result<(PlacedEntry, &[u8]), Refusal> {
    let (entry, after) = tlv::parse_one(bytes).map_err(refusal_of_tlv)?;
    let header = bytes.len() - after.len() - entry.value.len();
    Ok((PlacedEntry { ty: entry.ty, start: 0, header, value: entry.value }, after))
}

/// The dataset written afresh. Refusal 13 only, of a value that was not read but set.
pub fn write_dataset(dataset: &Dataset) -> Result<Vec<u8>, Refusal> {
    dataset.to_bytes().map_err(refusal_of_writing)
}

/// Document 01's number for an error of a dataset's writing.
pub fn refusal_of_writing(error: Error) -> Refusal {
    match error {
        Error::Tlv(error) => refusal_of_tlv(error),
        Error::Dataset(_) | Error::Hex(_) => unreachable!("only by what reads"),
    }
}

/// Document 01's number for an error of tlv.rs, at place 0.
pub fn refusal_of_tlv(error: TlvError) -> Refusal {
    match error {
        TlvError::BufferTooSmall => Refusal::at(2, 0),
        TlvError::InvalidLength => Refusal::at(4, 0),
        TlvError::ValueTooLarge(_) => Refusal::at(13, 0),
        TlvError::InvalidValue => unreachable!("no file of the Rust here gives it"),
    }
}

/// Document 01's number for an error of the hex crate.
pub fn refusal_of_hex(error: FromHexError) -> Refusal {
    match error {
        FromHexError::OddLength => Refusal::at(7, 0),
        FromHexError::InvalidHexCharacter { index, .. } => Refusal::at(8, index),
        FromHexError::InvalidStringLength => unreachable!("only for a target of fixed length"),
    }
}
