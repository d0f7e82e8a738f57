//! The index beside a dataset, which the Rust does not have: document 02's, over the Rust's entries. Where the Rust's query
//! does not find what the index tells, this ends the run. `index`, `ixload`, `ixquery`, `ixlook`, `ixset`, `ixremove`.

use meshcop::dataset::Dataset;

use super::edits::{with_set, without};
use super::framing::raw;
use super::{lent, value};
use crate::answer::{Answer, Found, Refusal};
use crate::framed::{self, PlacedEntry};
use crate::sizes;
use crate::words::bytes_word;

pub const INDEX_MARK: [u8; 2] = [0x49, 0x58];

/// Of a stored index: the mark, then for each type its count and its place, two bytes each.
pub const INDEX_BYTES: usize = INDEX_MARK.len() + 256 * 4;

/// 17, always at place 0 of the second input.
const OTHER_INDEX: Refusal = Refusal { number: 17, place: 0, input: 1 };

pub fn index(bytes: &[u8], cap: u64) -> Answer {
    lent(&index_of(bytes)?, cap)
}

pub fn ixload(bytes: &[u8], stored: &[u8]) -> Answer {
    load(bytes, stored)?;
    value("")
}

pub fn ixquery(ty: u8, bytes: &[u8], stored: &[u8]) -> Answer {
    load(bytes, stored)?;
    raw(ty, bytes)
}

/// By the index alone: of the dataset nothing is looked at but its size and the entry at the type's place.
pub fn ixlook(ty: u8, bytes: &[u8], stored: &[u8]) -> Answer {
    sizes::test_bytes(bytes)?;
    if stored.len() != INDEX_BYTES || !stored.starts_with(&INDEX_MARK) {
        return Err(OTHER_INDEX);
    }
    match look(ty, bytes, stored)? {
        Some(entry) => value(format!("{} @{}", bytes_word(&entry.value), entry.start + entry.header)),
        None => Ok(Found::Absent),
    }
}

pub fn ixset(ty: u8, value: Vec<u8>, bytes: &[u8], stored: &[u8], cap: u64, index_cap: u64) -> Answer {
    load(bytes, stored)?;
    both(&with_set(ty, value, bytes)?, cap, index_cap)
}

pub fn ixremove(ty: u8, bytes: &[u8], stored: &[u8], cap: u64, index_cap: u64) -> Answer {
    load(bytes, stored)?;
    both(&without(ty, bytes)?, cap, index_cap)
}

/// The edited dataset and its index, built afresh; 11 where either has no room.
fn both(edited: &[u8], cap: u64, index_cap: u64) -> Answer {
    let index = index_of(edited).expect("an edited dataset is framed and within the sizes");
    sizes::test_room(edited.len(), cap)?;
    sizes::test_room(index.len(), index_cap)?;
    value(format!("{} {}", bytes_word(edited), bytes_word(&index)))
}

/// Refusals 1, 2, 3 of the dataset, then 17: the stored index is not the one that the dataset gives.
fn load(bytes: &[u8], stored: &[u8]) -> Result<(), Refusal> {
    if index_of(bytes)? != stored {
        return Err(OTHER_INDEX);
    }
    Ok(())
}

/// Refusals 1, 2, 3, or the index that the dataset gives.
fn index_of(bytes: &[u8]) -> Result<Vec<u8>, Refusal> {
    let read = framed::read_dataset(bytes)?;
    let index = stored_index(&read.entries);
    for ty in 0..=u8::MAX {
        see_that_the_rust_finds(ty, &read.dataset, bytes, &index);
    }
    Ok(index)
}

/// The index of these entries, as it is stored.
pub fn stored_index(entries: &[PlacedEntry]) -> Vec<u8> {
    let mut stored = INDEX_MARK.to_vec();
    for ty in 0..=u8::MAX {
        let places: Vec<usize> = entries.iter().filter(|entry| entry.ty == ty).map(|entry| entry.start).collect();
        for number in [places.len(), places.last().copied().unwrap_or(0)] {
            stored.extend(u16::try_from(number).expect("counts and places have two bytes").to_be_bytes());
        }
    }
    stored
}

/// Where the count of a type stands in a stored index; its place stands after it.
pub fn slot_of(ty: u8) -> usize {
    INDEX_MARK.len() + 4 * usize::from(ty)
}

/// How many entries of a type a stored index tells of, and where the last begins.
pub fn count_and_place(ty: u8, stored: &[u8]) -> (usize, usize) {
    let slot = &stored[slot_of(ty)..];
    let number = |at: usize| usize::from(u16::from_be_bytes([slot[at], slot[at + 1]]));
    (number(0), number(2))
}

/// The type's entry where the index says it is; `None` where it counts none, 17 where no such entry is framed there.
fn look(ty: u8, bytes: &[u8], stored: &[u8]) -> Result<Option<PlacedEntry>, Refusal> {
    match count_and_place(ty, stored) {
        (0, _) => Ok(None),
        (_, place) => Ok(Some(entry_at(ty, place, bytes).ok_or(OTHER_INDEX)?)),
    }
}

/// The entry that the Rust frames there, if it is of the type, whatever stands before and after it.
fn entry_at(ty: u8, place: usize, bytes: &[u8]) -> Option<PlacedEntry> {
    let (entry, _) = framed::first_entry(bytes.get(place..)?).ok()?;
    Some(PlacedEntry { start: place, ..entry }).filter(|entry| entry.ty == ty)
}

/// That the index counts as many entries of the type as the Rust has, and leads to the value that the Rust's query gives.
fn see_that_the_rust_finds(ty: u8, dataset: &Dataset, bytes: &[u8], index: &[u8]) {
    let there = dataset.entries().iter().filter(|entry| entry.ty == ty).count();
    let looked = look(ty, bytes, index).map(|found| found.map(|entry| entry.value));
    let by_index = (count_and_place(ty, index).0, looked);
    let by_rust = (there, Ok(dataset.raw(ty).map(<[u8]>::to_vec)));
    assert_eq!(by_index, by_rust, "the index and the Rust on type {ty} of the dataset {}", bytes_word(bytes));
}
