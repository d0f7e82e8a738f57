//! The typed values of a dataset, asked for by `q.KIND` and read by themselves by `v.KIND`.

use meshcop::dataset::{
    Channel, ChannelMaskEntry, Dataset, SecurityPolicy, TLV_ACTIVE_TIMESTAMP, TLV_CHANNEL, TLV_CHANNEL_MASK,
    TLV_DELAY_TIMER, TLV_EXTENDED_PAN_ID, TLV_MESH_LOCAL_PREFIX, TLV_NETWORK_KEY, TLV_NETWORK_NAME, TLV_PAN_ID,
    TLV_PENDING_TIMESTAMP, TLV_PSKC, TLV_SECURITY_POLICY, Timestamp,
};

use super::value;
use crate::answer::{Answer, Found, Refusal};
use crate::framed;
use crate::sizes;
use crate::words::bytes_word;

/// What the Rust has for one type of value, and the words for what it gives.
pub struct Kind {
    pub ty: u8,
    /// Document 01's number for the one error that the Rust gives for such a value: 4 of a length, 5 of a mask item
    /// that is cut, 6 of what is not UTF-8. (Of PSKc no length is wrong.)
    pub fault: u32,
    /// Its query of a dataset.
    pub query: fn(&Dataset) -> meshcop::Result<Option<String>>,
    /// Its reading of a value by itself, where that is public.
    pub parse: Option<Parse>,
}

type Parse = fn(&[u8]) -> meshcop::Result<String>;

pub const CHANNEL: Kind = Kind {
    ty: TLV_CHANNEL,
    fault: 4,
    query: |dataset| Ok(dataset.channel()?.map(channel_words)),
    parse: Some(|bytes| Channel::parse(bytes).map(channel_words)),
};

pub const PAN_ID: Kind = Kind {
    ty: TLV_PAN_ID,
    fault: 4,
    query: |dataset| Ok(dataset.pan_id()?.map(|number| number.to_string())),
    parse: None,
};

pub const EXTENDED_PAN_ID: Kind = Kind {
    ty: TLV_EXTENDED_PAN_ID,
    fault: 4,
    query: |dataset| Ok(dataset.extended_pan_id()?.map(|bytes| bytes_word(&bytes))),
    parse: None,
};

pub const NETWORK_KEY: Kind = Kind {
    ty: TLV_NETWORK_KEY,
    fault: 4,
    query: |dataset| Ok(dataset.network_key()?.map(|bytes| bytes_word(&bytes))),
    parse: None,
};

pub const MESH_LOCAL_PREFIX: Kind = Kind {
    ty: TLV_MESH_LOCAL_PREFIX,
    fault: 4,
    query: |dataset| Ok(dataset.mesh_local_prefix()?.map(|bytes| bytes_word(&bytes))),
    parse: None,
};

pub const NETWORK_NAME: Kind = Kind {
    ty: TLV_NETWORK_NAME,
    fault: 6,
    query: |dataset| Ok(dataset.network_name()?.map(|name| bytes_word(name.as_bytes()))),
    parse: None,
};

pub const PSKC: Kind =
    Kind { ty: TLV_PSKC, fault: 4, query: |dataset| Ok(dataset.pskc().map(bytes_word)), parse: None };

pub const SECURITY_POLICY: Kind = Kind {
    ty: TLV_SECURITY_POLICY,
    fault: 4,
    query: |dataset| Ok(dataset.security_policy()?.map(policy_words)),
    parse: Some(|bytes| SecurityPolicy::parse(bytes).map(policy_words)),
};

pub const ACTIVE_TIMESTAMP: Kind = Kind {
    ty: TLV_ACTIVE_TIMESTAMP,
    fault: 4,
    query: |dataset| Ok(dataset.active_timestamp()?.map(timestamp_words)),
    parse: Some(|bytes| Timestamp::parse(bytes).map(timestamp_words)),
};

pub const PENDING_TIMESTAMP: Kind = Kind {
    ty: TLV_PENDING_TIMESTAMP,
    fault: 4,
    query: |dataset| Ok(dataset.pending_timestamp()?.map(timestamp_words)),
    parse: Some(|bytes| Timestamp::parse(bytes).map(timestamp_words)),
};

pub const DELAY_TIMER: Kind = Kind {
    ty: TLV_DELAY_TIMER,
    fault: 4,
    query: |dataset| Ok(dataset.delay_timer()?.map(|number| number.to_string())),
    parse: None,
};

pub const CHANNEL_MASK: Kind = Kind {
    ty: TLV_CHANNEL_MASK,
    fault: 5,
    query: |dataset| Ok(dataset.channel_mask()?.map(mask_words)),
    parse: Some(|bytes| ChannelMaskEntry::parse_all(bytes).map(mask_words)),
};

/// Page and number.
fn channel_words(channel: Channel) -> String {
    format!("{} {}", channel.page, channel.channel)
}

/// Rotation and flags.
fn policy_words(policy: SecurityPolicy) -> String {
    format!("{} {}", policy.rotation_time, policy.flags.bits())
}

/// Seconds, ticks, and 1 if it is authoritative.
pub fn timestamp_words(timestamp: Timestamp) -> String {
    format!("{} {} {}", timestamp.seconds(), timestamp.ticks(), u8::from(timestamp.authoritative()))
}

/// The count, then `page:bytes` for each item.
fn mask_words(items: Vec<ChannelMaskEntry>) -> String {
    let mut words = items.len().to_string();
    for item in items {
        words += &format!(" {}:{}", item.page, bytes_word(&item.mask));
    }
    words
}

/// Refusals 1, 2, 3 of the dataset, then the fault of the value that the Rust looked at: the last of its type.
pub fn query(kind: &Kind, bytes: &[u8]) -> Answer {
    let read = framed::read_dataset(bytes)?;
    match (kind.query)(&read.dataset) {
        Ok(Some(words)) => value(words),
        Ok(None) => Ok(Found::Absent),
        Err(_) => {
            let last = read.last(kind.ty).expect("the Rust found one that does not fit");
            Err(Refusal::at(kind.fault, last.start))
        }
    }
}

/// Refusal 1, then the value's own fault.
pub fn bare(kind: &Kind, bytes: &[u8]) -> Answer {
    sizes::test_bytes(bytes)?;
    let read = match kind.parse {
        Some(parse) => parse(bytes),
        None => query_alone(kind, bytes),
    };
    value(read.map_err(|_| Refusal::at(kind.fault, 0))?)
}

/// The Rust's query of a dataset that has this value and nothing else.
fn query_alone(kind: &Kind, bytes: &[u8]) -> meshcop::Result<String> {
    let mut dataset = Dataset::default();
    dataset.set_raw(kind.ty, bytes);
    Ok((kind.query)(&dataset)?.expect("just set"))
}
