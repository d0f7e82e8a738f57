//! The settings screen's twelve queries, of a full dataset.
use crate::inputs::{ENTRY, entry};
use crate::ours;
use meshcop::dataset::{
    TLV_ACTIVE_TIMESTAMP, TLV_CHANNEL, TLV_CHANNEL_MASK, TLV_DELAY_TIMER, TLV_EXTENDED_PAN_ID, TLV_MESH_LOCAL_PREFIX, TLV_NETWORK_KEY, TLV_NETWORK_NAME,
    TLV_PAN_ID, TLV_PENDING_TIMESTAMP, TLV_PSKC, TLV_SECURITY_POLICY,
};
use meshcop::tlv::TlvSet;

/// The types that are asked for.
const ASKED: [u8; 12] = [
    TLV_CHANNEL,
    TLV_PAN_ID,
    TLV_EXTENDED_PAN_ID,
    TLV_NETWORK_NAME,
    TLV_PSKC,
    TLV_NETWORK_KEY,
    TLV_MESH_LOCAL_PREFIX,
    TLV_SECURITY_POLICY,
    TLV_ACTIVE_TIMESTAMP,
    TLV_PENDING_TIMESTAMP,
    TLV_DELAY_TIMER,
    TLV_CHANNEL_MASK,
];

/// Their entries, each with the length of its value, in the order in which they stand. Six types stand twice, and the name and the mask have another length
/// then, so that the answer tells which of the two was found.
const SETTINGS: [(u8, u8); 18] = [
    (TLV_CHANNEL, 3),
    (TLV_NETWORK_NAME, 16),
    (TLV_ACTIVE_TIMESTAMP, 8),
    (TLV_PAN_ID, 2),
    (TLV_CHANNEL_MASK, 12),
    (TLV_EXTENDED_PAN_ID, 8),
    (TLV_PSKC, 16),
    (TLV_MESH_LOCAL_PREFIX, 8),
    (TLV_NETWORK_KEY, 16),
    (TLV_DELAY_TIMER, 4),
    (TLV_PENDING_TIMESTAMP, 8),
    (TLV_SECURITY_POLICY, 4),
    (TLV_NETWORK_NAME, 9),
    (TLV_CHANNEL, 3),
    (TLV_PSKC, 16),
    (TLV_CHANNEL_MASK, 6),
    (TLV_NETWORK_KEY, 16),
    (TLV_SECURITY_POLICY, 4),
];

/// As many entries as a dataset may have.
const MOST_ENTRIES: usize = 256;

/// The bytes of an index.
pub const INDEX: usize = 1026;

pub struct Settings {
    pub dataset: Vec<u8>,
    pub index: Vec<u8>,
    pub parsed: TlvSet,
}

/// A dataset of just that many bytes: the settings, evenly spread between entries of other types, which have about ENTRY bytes each, or more where there would
/// be too many of them.
fn dataset(size: usize) -> Vec<u8> {
    let rest = size - SETTINGS.iter().map(|&(_, len)| 2 + len as usize).sum::<usize>();
    let others = (rest / ENTRY).min(MOST_ENTRIES - SETTINGS.len());
    let other = |k: usize| entry(64 + (k % 192) as u8, ((k + 1) * rest / others - k * rest / others - 2) as u8);
    let mut bytes = Vec::new();
    for (j, &(ty, len)) in SETTINGS.iter().enumerate() {
        bytes.extend(entry(ty, len));
        bytes.extend((j * others / SETTINGS.len()..(j + 1) * others / SETTINGS.len()).flat_map(other));
    }
    bytes
}

/// The answers as one number: the lengths of the values that are found, each weighed by its type.
pub fn twelve(len: impl Fn(u8) -> u64) -> u64 {
    ASKED.iter().map(|&ty| (1 + u64::from(ty)) * len(ty)).sum()
}

impl Settings {
    /// The index is built, and the Rust's entries are parsed, here: neither is counted in the queries.
    pub fn of(size: usize) -> Settings {
        let dataset = dataset(size);
        let mut index = vec![0; INDEX];
        ours::index(&dataset, &mut index);
        let parsed = TlvSet::parse(&dataset).expect("a dataset");
        Settings { dataset, index, parsed }
    }
}
