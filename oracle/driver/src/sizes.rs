//! The refusals by sizes, document 01's as document 02 raised them, of which the Rust knows none. The order of the tests is
//! 01's: 1, then the Rust's 7, 8 and 2, or 9, then 3, the Rust's 4, 5, 6 with 12 among them, or 02's 17, the Rust's 13, then 14,
//! 10, and 11.

use crate::answer::Refusal;

pub const MOST_BYTES: usize = 16_384;
pub const MOST_HEX_DIGITS: usize = 2 * MOST_BYTES;
/// Of entries, and of operations.
pub const MOST_ENTRIES: usize = 256;

/// Document 01's own sizes, which a handset not yet updated has. Nothing is refused by them; requests are made about them.
pub const OLDER_BYTES: usize = 8_192;
pub const OLDER_HEX_DIGITS: usize = 2 * OLDER_BYTES;
pub const OLDER_ENTRIES: usize = 128;

/// 1: a dataset, payload, list or bare value to read over the most bytes.
pub fn test_bytes(bytes: &[u8]) -> Result<(), Refusal> {
    if bytes.len() > MOST_BYTES {
        return Err(Refusal::at(1, 0));
    }
    Ok(())
}

/// 1: a hex text over the most hex digits, in characters, digits or not.
pub fn test_hex_text(text: &[u8]) -> Result<(), Refusal> {
    if text.len() > MOST_HEX_DIGITS {
        return Err(Refusal::at(1, 0));
    }
    Ok(())
}

/// 3: more than the most entries or operations, at the first that is over; these are the places of all.
pub fn test_count(places: impl IntoIterator<Item = usize>) -> Result<(), Refusal> {
    match places.into_iter().nth(MOST_ENTRIES) {
        Some(place) => Err(Refusal::at(3, place)),
        None => Ok(()),
    }
}

/// 10: the result is a dataset or list of over the most bytes as written, or of more than the most entries or operations.
pub fn test_result(written: &[u8], count: usize) -> Result<(), Refusal> {
    if written.len() > MOST_BYTES || count > MOST_ENTRIES {
        return Err(Refusal::at(10, 0));
    }
    Ok(())
}

/// 11: of a lent output or table there is less than the result takes.
pub fn test_room(taken: usize, lent: u64) -> Result<(), Refusal> {
    if taken as u64 > lent {
        return Err(Refusal::at(11, 0));
    }
    Ok(())
}

/// How many rows of each kind a Network Data value may have; 12 where it has more.
pub struct MostRows {
    pub prefixes: usize,
    pub has_routes: usize,
    pub border_routers: usize,
}

pub const NETWORK_DATA: MostRows = MostRows { prefixes: 64, has_routes: 96, border_routers: 96 };

/// As the Rust has it.
pub const ANY_NETWORK_DATA: MostRows =
    MostRows { prefixes: usize::MAX, has_routes: usize::MAX, border_routers: usize::MAX };
