//! Document 01's rules for diagnostic values. The Rust does not tell where its refusal lies, and has no sizes, so the
//! number is found here; `decoded.rs` sees that the Rust says the same of every value.

use crate::sizes::MostRows;

pub const NETWORK_DATA: u8 = 7;

/// Types of Network Data TLVs, as they stand in the byte, twice the type: a prefix, and what is inside one.
pub mod network_tlvs {
    pub const PREFIX: u8 = 2;
    pub const HAS_ROUTE: u8 = 0;
    pub const BORDER_ROUTER: u8 = 4;
    pub const CONTEXT: u8 = 6;
}

/// The first fault of a value, in wire order: 4, 5, or 12 where a Network Data value has more rows than it may have.
pub fn fault_of(ty: u8, value: &[u8], most: &MostRows) -> Option<u32> {
    let length = value.len();
    let fits = match ty {
        1 | 15 => length == 2,
        2 | 14 => length == 1,
        3 => length == 4,
        4 => length >= 7,
        5 => length >= 9 && length == 9 + bits_set(&value[1..9]),
        6 | 23 => length == 8,
        NETWORK_DATA => return network_data_fault(value, most).err(),
        8 => length % 16 == 0,
        9 => length == 36,
        16 => length % 3 == 0,
        30 => length >= 2 && (length - 2) % 16 == 0,
        // 0, 17 and 18 have no rule, and what is not known is skipped.
        _ => true,
    };
    if fits { None } else { Some(4) }
}

fn bits_set(mask: &[u8]) -> usize {
    mask.iter().map(|byte| byte.count_ones() as usize).sum()
}

/// The rows met so far, over all prefixes of a value.
#[derive(Default)]
struct Rows {
    prefixes: usize,
    has_routes: usize,
    border_routers: usize,
}

/// Each TLV is looked into before the next is framed.
fn network_data_fault(value: &[u8], most: &MostRows) -> Result<(), u32> {
    let mut rows = Rows::default();
    let mut rest = value;
    while !rest.is_empty() {
        let (ty, inner, after) = first_tlv(rest).ok_or(5u32)?;
        if ty == 1 {
            rows.prefixes += 1;
            within(rows.prefixes, most.prefixes)?;
            prefix_fault(inner, &mut rows, most)?;
        }
        rest = after;
    }
    Ok(())
}

fn prefix_fault(value: &[u8], rows: &mut Rows, most: &MostRows) -> Result<(), u32> {
    let mut rest = inside_prefix(value).ok_or(5u32)?;
    while !rest.is_empty() {
        let (ty, inner, after) = first_tlv(rest).ok_or(5u32)?;
        match ty {
            0 => {
                rows.has_routes += whole_rows(inner, 3)?;
                within(rows.has_routes, most.has_routes)?;
            }
            2 => {
                rows.border_routers += whole_rows(inner, 4)?;
                within(rows.border_routers, most.border_routers)?;
            }
            3 if inner.len() != 2 => return Err(4),
            _ => {}
        }
        rest = after;
    }
    Ok(())
}

/// What stands after the prefix's own bytes; `None` if these are cut.
pub fn inside_prefix(value: &[u8]) -> Option<&[u8]> {
    let [_domain, bits, after @ ..] = value else {
        return None;
    };
    after.get(usize::from(*bits).div_ceil(8)..)
}

/// Type, value, and the bytes after a Network Data TLV, of which 255 is a length like any other; `None` if it is cut.
pub fn first_tlv(bytes: &[u8]) -> Option<(u8, &[u8], &[u8])> {
    let (header, after) = bytes.split_first_chunk::<2>()?;
    let (value, after) = after.split_at_checked(usize::from(header[1]))?;
    Some((header[0] / 2, value, after))
}

fn whole_rows(value: &[u8], size: usize) -> Result<usize, u32> {
    if value.len() % size == 0 { Ok(value.len() / size) } else { Err(4) }
}

fn within(rows: usize, most: usize) -> Result<(), u32> {
    if rows > most { Err(12) } else { Ok(()) }
}
