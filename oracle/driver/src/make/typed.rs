//! Values and datasets for requests that look at a type's values: such that fit the type's rule, and such that do not.

use meshcop::dataset::{
    TLV_ACTIVE_TIMESTAMP, TLV_CHANNEL, TLV_CHANNEL_MASK, TLV_DELAY_TIMER, TLV_EXTENDED_PAN_ID, TLV_MESH_LOCAL_PREFIX,
    TLV_NETWORK_KEY, TLV_NETWORK_NAME, TLV_PAN_ID, TLV_PENDING_TIMESTAMP, TLV_SECURITY_POLICY,
};

use super::datasets::{
    HEADER_EDGES, TYPES, damaged, dataset_of_entries, entry, near_most_bytes, near_most_entries, whole_dataset,
};
use super::masks::{cut_mask, mask, mask_edges, mask_of_size};
use super::names::{name_edges, spoilt_text, text, text_of_size};
use crate::random::Random;

/// What document 01 asks of the values of a type.
pub enum Rule {
    Length(usize),
    MaskItems,
    Utf8,
    Any,
}

pub const fn rule_of(ty: u8) -> Rule {
    match ty {
        TLV_CHANNEL => Rule::Length(3),
        TLV_PAN_ID => Rule::Length(2),
        TLV_EXTENDED_PAN_ID | TLV_MESH_LOCAL_PREFIX | TLV_ACTIVE_TIMESTAMP | TLV_PENDING_TIMESTAMP => Rule::Length(8),
        TLV_NETWORK_KEY => Rule::Length(16),
        TLV_SECURITY_POLICY | TLV_DELAY_TIMER => Rule::Length(4),
        TLV_CHANNEL_MASK => Rule::MaskItems,
        TLV_NETWORK_NAME => Rule::Utf8,
        _ => Rule::Any,
    }
}

/// A random value for a type, which fits in most cases.
pub fn value(random: &mut Random, ty: u8) -> Vec<u8> {
    if random.once_in(5) { misfit(random, ty) } else { fitting(random, ty) }
}

pub fn fitting(random: &mut Random, ty: u8) -> Vec<u8> {
    match rule_of(ty) {
        Rule::Length(length) => random.bytes(length),
        Rule::MaskItems => mask(random),
        Rule::Utf8 => text(random),
        Rule::Any => any(random),
    }
}

/// A value that does not fit, in most cases; where there is no such value, any.
pub fn misfit(random: &mut Random, ty: u8) -> Vec<u8> {
    match rule_of(ty) {
        Rule::Length(length) => of_other_length(random, length, 16),
        Rule::MaskItems => cut_mask(random),
        Rule::Utf8 => spoilt_text(random),
        Rule::Any => any(random),
    }
}

/// A value of another length, in most cases; `longest` is the greatest that a type of its kind has.
pub fn of_other_length(random: &mut Random, length: usize, longest: usize) -> Vec<u8> {
    let other = match random.below(4) {
        0 => length - 1,
        1 => length + 1,
        2 => random.below(2 * length + 4),
        _ => random.pick(&[0, 1, 2, 3, 4, 8, longest, 254, 255, 256]),
    };
    random.bytes(other)
}

fn any(random: &mut Random) -> Vec<u8> {
    let length = if random.once_in(40) { random.between(250, 260) } else { random.below(20) };
    random.bytes(length)
}

/// A value of so many bytes, which fits where its type has no length.
pub fn value_of_size(random: &mut Random, ty: u8, bytes: usize) -> Vec<u8> {
    match rule_of(ty) {
        Rule::MaskItems => mask_of_size(random, bytes),
        Rule::Utf8 => text_of_size(random, bytes),
        Rule::Length(_) | Rule::Any => random.bytes(bytes),
    }
}

/// Values at each boundary of the type's rule, and of the header that a dataset gives them.
pub fn value_edges(random: &mut Random, ty: u8) -> Vec<Vec<u8>> {
    let mut edges: Vec<Vec<u8>> = HEADER_EDGES.map(|length| value_of_size(random, ty, length)).collect();
    match rule_of(ty) {
        Rule::Length(length) => edges.extend((0..=length + 2).map(|length| random.bytes(length))),
        Rule::MaskItems => edges.extend(mask_edges(random)),
        Rule::Utf8 => edges.extend(name_edges(random)),
        Rule::Any => edges.extend((0..=18).map(|length| random.bytes(length))),
    }
    edges
}

/// A random dataset to ask for a type: it is there in most cases, often more than once. Sizes and damage are much as
/// in `dataset`.
pub fn typed_dataset(random: &mut Random, wanted: u8) -> Vec<u8> {
    let whole = match random.below(1_000) {
        0..=2 => {
            let bytes = near_most_bytes(random);
            bytes_ending_in(random, wanted, bytes)
        }
        3..=62 => {
            let entries = near_most_entries(random);
            entries_ending_in(random, wanted, entries)
        }
        _ => small_typed_dataset(random, wanted),
    };
    damaged(random, whole)
}

fn small_typed_dataset(random: &mut Random, wanted: u8) -> Vec<u8> {
    let mut out = Vec::new();
    for _ in 0..random.below(6) {
        let ty = match random.below(8) {
            0..=3 => wanted,
            4 => random.byte(),
            _ => random.pick(TYPES),
        };
        out.extend(typed_entry(random, ty));
    }
    out
}

pub fn typed_entry(random: &mut Random, ty: u8) -> Vec<u8> {
    let value = value(random, ty);
    entry(ty, &value, random.once_in(6))
}

/// A dataset of so many bytes, the last entry being of the type.
pub fn bytes_ending_in(random: &mut Random, ty: u8, bytes: usize) -> Vec<u8> {
    let last = typed_entry(random, ty);
    [whole_dataset(random, 3, bytes - last.len()), last].concat()
}

/// A dataset of so many entries, the last one being of the type.
pub fn entries_ending_in(random: &mut Random, ty: u8, entries: usize) -> Vec<u8> {
    [dataset_of_entries(random, entries - 1), typed_entry(random, ty)].concat()
}
