//! Framing and the writing of entries: `frame`, `one`, `rewrite`, `entry`, `header`, `raw`.

use meshcop::tlv::{self, TlvEntry};

use super::{lent, value};
use crate::answer::{Answer, Found, Refusal};
use crate::framed::{self, PlacedEntry};
use crate::words::bytes_word;

pub fn frame(dataset: &[u8]) -> Answer {
    value(entries_words(&framed::read_dataset(dataset)?.entries))
}

/// The count, then `type:start:header:length` for each.
pub fn entries_words(entries: &[PlacedEntry]) -> String {
    let mut words = entries.len().to_string();
    for entry in entries {
        words += &format!(" {}:{}:{}:{}", entry.ty, entry.start, entry.header, entry.value.len());
    }
    words
}

pub fn one(bytes: &[u8]) -> Answer {
    let (entry, _) = framed::first_entry(bytes)?;
    value(format!("{} {} {}", entry.ty, entry.header, entry.value.len()))
}

pub fn rewrite(dataset: &[u8], cap: u64) -> Answer {
    let read = framed::read_dataset(dataset)?;
    lent(&framed::write_dataset(&read.dataset)?, cap)
}

pub fn entry(ty: u8, bytes: Vec<u8>, cap: u64) -> Answer {
    let mut written = Vec::new();
    TlvEntry::new(ty, bytes).encode(&mut written).map_err(framed::refusal_of_tlv)?;
    lent(&written, cap)
}

pub fn header(ty: u8, length: usize, cap: u64) -> Answer {
    let mut written = Vec::new();
    tlv::encode_header(ty, length, &mut written).map_err(framed::refusal_of_tlv)?;
    lent(&written, cap)
}

pub fn raw(ty: u8, bytes: &[u8]) -> Answer {
    match raw_words(ty, bytes)? {
        Some(words) => value(words),
        None => Ok(Found::Absent),
    }
}

/// Refusals 1, 2, 3, or the type's last value and where it begins, if there is one.
pub fn raw_words(ty: u8, bytes: &[u8]) -> Result<Option<String>, Refusal> {
    let read = framed::read_dataset(bytes)?;
    let Some(found) = read.dataset.raw(ty) else {
        return Ok(None);
    };
    let last = read.last(ty).expect("the Rust found one");
    let offset = last.start + last.header;
    assert_eq!(found, &bytes[offset..offset + found.len()], "the Rust's value stands at the derived place");
    Ok(Some(format!("{} @{offset}", bytes_word(found))))
}
