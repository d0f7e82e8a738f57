//! Diagnostic values and payloads: `d.TYPE`, `nd`, `diag`, `timeout`.

use meshcop::meshcop::diag::{ChildTableEntry, ModeData, NetDiagData, NetworkData};

use super::records::record_words;
use super::value;
use crate::answer::{Answer, Refusal};
use crate::decoded::{read_payload, read_value};
use crate::rules;
use crate::sizes;

/// Refusal 1, then the value's own fault, or the one field.
pub fn bare(ty: u8, bytes: &[u8]) -> Answer {
    value(record_words(&read_bare(ty, bytes)?))
}

fn read_bare(ty: u8, bytes: &[u8]) -> Result<NetDiagData, Refusal> {
    sizes::test_bytes(bytes)?;
    read_value(ty, bytes).map_err(|number| Refusal::at(number, 0))
}

/// Lent places for prefixes, HasRoute rows and BorderRouter rows.
pub struct Tables {
    pub prefixes: u64,
    pub has_routes: u64,
    pub border_routers: u64,
}

pub fn nd(bytes: &[u8], tables: &Tables) -> Answer {
    let data = read_bare(rules::NETWORK_DATA, bytes)?;
    let by_itself = NetworkData::decode(bytes).ok();
    assert_eq!(data.network_data, by_itself, "the Rust decodes a value by itself as it does in a payload");
    test_tables(&data, tables)?;
    value(record_words(&data))
}

pub fn diag(payload: &[u8], tables: &Tables) -> Answer {
    let data = read_payload(payload)?;
    test_tables(&data, tables)?;
    value(record_words(&data))
}

/// 11: a table has fewer places than the Network Data of the record has rows.
fn test_tables(data: &NetDiagData, tables: &Tables) -> Result<(), Refusal> {
    let prefixes = data.network_data.as_ref().map_or(&[][..], |data| &data.prefixes);
    sizes::test_room(prefixes.len(), tables.prefixes)?;
    sizes::test_room(prefixes.iter().map(|prefix| prefix.has_route.len()).sum(), tables.has_routes)?;
    sizes::test_room(prefixes.iter().map(|prefix| prefix.border_routers.len()).sum(), tables.border_routers)
}

/// The Rust's sum overflows from exponent 36 on. A row's exponent has five bits, and the call takes so many of any.
pub fn timeout(exponent: u8) -> Answer {
    let row = ChildTableEntry {
        timeout_exponent: exponent % 32,
        incoming_link_quality: 0,
        child_id: 0,
        mode: ModeData::default(),
    };
    value(row.timeout_seconds().to_string())
}
