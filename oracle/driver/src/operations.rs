//! Change lists, which the Rust does not have: document 01's operations, each set's TLV read by the Rust's `parse_one`.

use meshcop::tlv::TlvEntry;

use crate::answer::Refusal;
use crate::framed;
use crate::sizes;

pub const SET_MARK: [u8; 2] = [0x53, 0x45];
pub const REMOVE_MARK: [u8; 2] = [0x52, 0x4d];

pub enum Operation {
    Set(TlvEntry),
    Remove(u8),
}

impl Operation {
    pub fn ty(&self) -> u8 {
        match self {
            Operation::Set(entry) => entry.ty,
            Operation::Remove(ty) => *ty,
        }
    }
}

/// Refusals 1, 9, 3, or the operations in order.
pub fn read_list(list: &[u8]) -> Result<Vec<Operation>, Refusal> {
    sizes::test_bytes(list)?;
    let mut operations = Vec::new();
    let mut places = Vec::new();
    let mut rest = list;
    while !rest.is_empty() {
        let place = list.len() - rest.len();
        let (operation, after) = first_operation(rest).ok_or(Refusal::at(9, place))?;
        operations.push(operation);
        places.push(place);
        rest = after;
    }
    sizes::test_count(places)?;
    Ok(operations)
}

/// The operation at the start of the bytes, and the bytes after it; `None` if its mark is unknown or it is cut short.
fn first_operation(bytes: &[u8]) -> Option<(Operation, &[u8])> {
    let (mark, after) = bytes.split_first_chunk()?;
    match *mark {
        SET_MARK => {
            let (entry, after) = framed::first_entry(after).ok()?;
            Some((Operation::Set(TlvEntry::new(entry.ty, entry.value)), after))
        }
        REMOVE_MARK => {
            let (ty, after) = after.split_first()?;
            Some((Operation::Remove(*ty), after))
        }
        _ => None,
    }
}
