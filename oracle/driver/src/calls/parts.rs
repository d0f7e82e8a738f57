//! Values made from their parts and taken apart: `maskitem`, `ts.build`, `ts.parts`, `flags.get`, `flags.set`,
//! `flags.has`, `channel.bytes`, `policy.bytes`.

use meshcop::dataset::{
    Channel, ChannelMaskEntry, SecurityPolicy, SecurityPolicyFlags, ThreadProtocolVersion, Timestamp,
};

use super::queries::timestamp_words;
use super::{lent, value};
use crate::answer::{Answer, Refusal};
use crate::words::bytes_word;

/// The words for versions, which are also the Rust's names.
pub const VERSIONS: &[(&str, ThreadProtocolVersion)] = &[
    ("V1Or2", ThreadProtocolVersion::V1Or2),
    ("V3", ThreadProtocolVersion::V3),
    ("V4", ThreadProtocolVersion::V4),
    ("V5", ThreadProtocolVersion::V5),
    ("V6", ThreadProtocolVersion::V6),
    ("V7", ThreadProtocolVersion::V7),
    ("V8", ThreadProtocolVersion::V8),
    ("V9", ThreadProtocolVersion::V9),
    ("V10", ThreadProtocolVersion::V10),
];

pub fn version_of(word: &[u8]) -> Option<ThreadProtocolVersion> {
    VERSIONS.iter().find(|(name, _)| name.as_bytes() == word).map(|(_, version)| *version)
}

fn version_word(version: ThreadProtocolVersion) -> &'static str {
    VERSIONS.iter().find(|(_, other)| *other == version).expect("every version has a word").0
}

pub fn maskitem(page: u8, mask: Vec<u8>, cap: u64) -> Answer {
    let written = ChannelMaskEntry::encode_all(&[ChannelMaskEntry { page, mask }]);
    // The Rust's only error here is of an item that is too long.
    lent(&written.map_err(|_| Refusal::at(13, 0))?, cap)
}

pub fn ts_build(seconds: u64, ticks: u16, authoritative: bool) -> Answer {
    value(bytes_word(&Timestamp::from_components(seconds, ticks, authoritative).to_value()))
}

/// `None` unless there are 8 bytes, since the call takes no others.
pub fn ts_parts(bytes: &[u8]) -> Option<Answer> {
    Some(value(timestamp_words(Timestamp::parse(bytes).ok()?)))
}

pub fn flags_get(flags: u16) -> Answer {
    value(version_word(SecurityPolicyFlags::from_bits_retain(flags).version_threshold_for_routing()))
}

pub fn flags_set(flags: u16, version: ThreadProtocolVersion) -> Answer {
    value(with_threshold(SecurityPolicyFlags::from_bits_retain(flags), version).bits().to_string())
}

pub fn with_threshold(mut flags: SecurityPolicyFlags, version: ThreadProtocolVersion) -> SecurityPolicyFlags {
    flags.set_version_threshold_for_routing(version);
    flags
}

pub fn flags_has(flags: u16, mask: u16) -> Answer {
    value(u8::from(SecurityPolicyFlags::from_bits_retain(flags).contains(mask)).to_string())
}

pub fn channel_bytes(page: u8, channel: u16) -> Answer {
    value(bytes_word(&Channel { page, channel }.to_value()))
}

pub fn policy_bytes(rotation_time: u16, flags: u16) -> Answer {
    let flags = SecurityPolicyFlags::from_bits_retain(flags);
    value(bytes_word(&SecurityPolicy { rotation_time, flags }.to_value()))
}
