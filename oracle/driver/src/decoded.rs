//! Reading diagnostic payloads and values with the Rust. Its errors tell no number and no place, and it knows no 12: these
//! come from document 01's rules, entry by entry. Where the Rust and the rules are not of one mind, this ends the run.

use meshcop::Error;
use meshcop::meshcop::diag::NetDiagData;
use meshcop::tlv::TlvEntry;

use crate::answer::Refusal;
use crate::framed::{self, PlacedEntry};
use crate::rules;
use crate::sizes;
use crate::words::bytes_word;

/// Refusals 1, 2, 3, then the first of 4, 5, 12, or the payload's record.
pub fn read_payload(payload: &[u8]) -> Result<NetDiagData, Refusal> {
    sizes::test_bytes(payload)?;
    let read = NetDiagData::decode(payload);
    let placed = framed::entries_in_place(payload);
    let cut = matches!(read, Err(Error::Tlv(_)));
    assert_eq!(cut, placed.is_err(), "the Rust frames a payload exactly when it frames each entry");
    let entries = placed?;
    see_that_entries_tell(&read, &entries);
    let faults: Vec<Refusal> = entries.iter().filter_map(fault_in_place).collect();
    sizes::test_count(entries.iter().map(|entry| entry.start))?;
    match faults.first() {
        Some(first) => Err(*first),
        None => Ok(read.expect("no entry is at fault")),
    }
}

/// That the Rust refuses a payload exactly where it refuses an entry by itself, and in the words it has for the first such.
fn see_that_entries_tell(read: &meshcop::Result<NetDiagData>, entries: &[PlacedEntry]) {
    let first = entries.iter().find_map(|entry| decode_alone(entry.ty, &entry.value).err());
    let (whole, first) = (read.as_ref().err().map(text_of), first.as_ref().map(text_of));
    assert_eq!(whole, first, "the Rust refuses a payload as it refuses the first entry at fault");
}

fn fault_in_place(entry: &PlacedEntry) -> Option<Refusal> {
    let number = read_value(entry.ty, &entry.value).err()?;
    Some(Refusal::at(number, entry.start))
}

/// 4, 5 or 12, or the record of a payload that has this value and nothing else.
pub fn read_value(ty: u8, value: &[u8]) -> Result<NetDiagData, u32> {
    let read = decode_alone(ty, value);
    let by_rust = read.as_ref().err().map(number_of);
    let by_rules = rules::fault_of(ty, value, &sizes::ANY_NETWORK_DATA);
    assert_eq!(by_rust, by_rules, "the Rust and document 01's rules on type {ty}, value {}", bytes_word(value));
    match rules::fault_of(ty, value, &sizes::NETWORK_DATA) {
        Some(number) => Err(number),
        None => Ok(read.expect("without the sizes there is no fault either")),
    }
}

fn decode_alone(ty: u8, value: &[u8]) -> meshcop::Result<NetDiagData> {
    let mut payload = Vec::new();
    TlvEntry::new(ty, value).encode(&mut payload)?;
    NetDiagData::decode(&payload)
}

/// Document 01's number for the Rust's error of a value, whose text says "truncated" of what is cut and of nothing else.
pub fn number_of(error: &Error) -> u32 {
    if text_of(error).contains("truncated") { 5 } else { 4 }
}

fn text_of(error: &Error) -> &str {
    match error {
        Error::Dataset(text) => text,
        Error::Tlv(_) | Error::Hex(_) => unreachable!("the payload is framed, and no hex text"),
    }
}
