//! Change lists: `ops`, `run`, `fold`, `fold2`. A run is the Rust's edits, one after the other; reading and folding a list
//! is not in the Rust.

use meshcop::tlv::TlvEntry;

use super::{lent, value};
use crate::answer::{Answer, Refusal};
use crate::framed;
use crate::operations::{Operation, REMOVE_MARK, SET_MARK, read_list};
use crate::sizes;
use crate::words::bytes_word;

/// The count, then `s:type:value` or `r:type` for each.
pub fn ops(list: &[u8]) -> Answer {
    let operations = read_list(list)?;
    let mut words = operations.len().to_string();
    for operation in &operations {
        words += &match operation {
            Operation::Set(entry) => format!(" s:{}:{}", entry.ty, bytes_word(&entry.value)),
            Operation::Remove(ty) => format!(" r:{ty}"),
        };
    }
    value(words)
}

pub fn run(bytes: &[u8], list: &[u8], cap: u64) -> Answer {
    let mut dataset = framed::read_dataset(bytes)?.dataset;
    for operation in read_list(list).map_err(Refusal::of_second)? {
        match operation {
            Operation::Set(entry) => dataset.set_raw(entry.ty, entry.value),
            Operation::Remove(ty) => dataset.remove_all(ty),
        }
    }
    let written = framed::write_dataset(&dataset)?;
    sizes::test_result(&written, dataset.entries().len())?;
    lent(&written, cap)
}

/// What is left is no longer than what was read, so 10 is not tested.
pub fn fold(list: &[u8], cap: u64) -> Answer {
    let operations = read_list(list)?;
    lent(&written(&folded(&operations))?, cap)
}

pub fn fold2(first: &[u8], second: &[u8], cap: u64) -> Answer {
    let mut operations = read_list(first)?;
    operations.extend(read_list(second).map_err(Refusal::of_second)?);
    let folded = folded(&operations);
    let written = written(&folded)?;
    sizes::test_result(&written, folded.len())?;
    lent(&written, cap)
}

/// Each type's last operation: removals first, types ascending, then sets in the order of those last operations.
fn folded(operations: &[Operation]) -> Vec<&Operation> {
    let is_last = |place: usize| operations[place + 1..].iter().all(|later| later.ty() != operations[place].ty());
    let last = (0..operations.len()).filter(|place| is_last(*place)).map(|place| &operations[place]);
    let (mut folded, sets): (Vec<_>, Vec<_>) = last.partition(|operation| matches!(operation, Operation::Remove(_)));
    folded.sort_by_key(|removal| removal.ty());
    folded.extend(sets);
    folded
}

/// The operations as a list, the Rust writing each set's TLV.
fn written(operations: &[&Operation]) -> Result<Vec<u8>, Refusal> {
    let mut list = Vec::new();
    for operation in operations {
        match operation {
            Operation::Set(entry) => append_set(&mut list, entry)?,
            Operation::Remove(ty) => list.extend([REMOVE_MARK[0], REMOVE_MARK[1], *ty]),
        }
    }
    Ok(list)
}

fn append_set(list: &mut Vec<u8>, entry: &TlvEntry) -> Result<(), Refusal> {
    list.extend(SET_MARK);
    entry.encode(list).map_err(framed::refusal_of_tlv)
}
