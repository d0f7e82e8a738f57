//! Diagnostic values for requests: such that fit their type's rule, such that do not, and those at each boundary.

use super::datasets::HEADER_EDGES;
use super::network::{faulty_network_data, network_data, network_data_edges, network_data_of_size};
use super::typed::of_other_length;
use crate::random::Random;
use crate::rules::NETWORK_DATA;

/// The types that are known.
pub const TYPES: &[u8] = &[0, 1, 2, 3, 4, 5, 6, 7, 8, 9, 14, 15, 16, 17, 18, 23, 30];

pub const MAC_ADDRESS: u8 = 1;
pub const CHILD_TABLE: u8 = 16;
pub const CHILD_ADDRESSES: u8 = 30;

const ADDRESS: usize = 16;

/// What document 01 asks of the length of a type's values.
enum Rule {
    Length(usize),
    AtLeast(usize),
    /// So many bytes, then whole rows of a size.
    Rows(usize, usize),
    Route64,
    NetworkData,
    Any,
}

const fn rule_of(ty: u8) -> Rule {
    match ty {
        MAC_ADDRESS | 15 => Rule::Length(2),
        2 | 14 => Rule::Length(1),
        3 => Rule::Length(4),
        4 => Rule::AtLeast(7),
        5 => Rule::Route64,
        6 | 23 => Rule::Length(8),
        NETWORK_DATA => Rule::NetworkData,
        8 => Rule::Rows(0, ADDRESS),
        9 => Rule::Length(36),
        CHILD_TABLE => Rule::Rows(0, 3),
        CHILD_ADDRESSES => Rule::Rows(2, ADDRESS),
        _ => Rule::Any,
    }
}

/// The length of a value that fits, and that each bit of can be tried in.
pub const fn common_length(ty: u8) -> usize {
    match rule_of(ty) {
        Rule::Length(length) => length,
        // Both late fields are there.
        Rule::AtLeast(length) => length + 3,
        Rule::Rows(before, row) => before + 2 * row,
        Rule::Route64 => 9,
        Rule::NetworkData | Rule::Any => 8,
    }
}

/// A random value for a type, which fits in most cases.
pub fn value(random: &mut Random, ty: u8, misfit_once_in: usize) -> Vec<u8> {
    if random.once_in(misfit_once_in) { misfit(random, ty) } else { fitting(random, ty) }
}

pub fn fitting(random: &mut Random, ty: u8) -> Vec<u8> {
    let count = if random.once_in(30) { random.below(40) } else { random.below(5) };
    match rule_of(ty) {
        Rule::Length(length) => random.bytes(length),
        Rule::AtLeast(length) => random.bytes(length + count),
        Rule::Rows(before, row) => random.bytes(before + count * row),
        Rule::Route64 => {
            let mask = route_mask(random);
            route64(random, mask)
        }
        Rule::NetworkData => network_data(random),
        Rule::Any => random.bytes(3 * count),
    }
}

/// A value that does not fit; where there is no such value, any.
pub fn misfit(random: &mut Random, ty: u8) -> Vec<u8> {
    match rule_of(ty) {
        Rule::Length(length) => of_other_length(random, length, 36),
        Rule::AtLeast(length) => {
            let fewer = random.below(length);
            random.bytes(fewer)
        }
        Rule::Rows(before, row) => {
            let length = random.below(before + 4 * row);
            random.bytes(length)
        }
        Rule::Route64 => misfit_route64(random),
        Rule::NetworkData => faulty_network_data(random),
        Rule::Any => random.bytes(2),
    }
}

/// A mask of no router, one, few, many, or all.
fn route_mask(random: &mut Random) -> u64 {
    match random.below(6) {
        0 => 0,
        1 => 1 << random.below(64),
        2 => random.next(),
        3 if random.once_in(3) => u64::MAX,
        _ => random.next() & random.next() & random.next(),
    }
}

/// A sequence, the mask, and a byte for each of its bits.
pub fn route64(random: &mut Random, mask: u64) -> Vec<u8> {
    let routes = random.bytes(mask.count_ones() as usize);
    [&[random.byte()], &mask.to_be_bytes()[..], &routes].concat()
}

/// A byte lost or added at the end, a bit of the mask turned, or under 9 bytes.
fn misfit_route64(random: &mut Random) -> Vec<u8> {
    let mask = route_mask(random);
    let mut value = route64(random, mask);
    match random.below(4) {
        0 => drop(value.pop()),
        1 => value.push(random.byte()),
        2 => value[random.between(1, 8)] ^= 1 << random.below(8),
        _ => value.truncate(random.below(9)),
    }
    value
}

/// Values at each boundary of the type's rule, and of the header that a payload gives them.
pub fn value_edges(random: &mut Random, ty: u8) -> Vec<Vec<u8>> {
    let mut edges: Vec<Vec<u8>> = HEADER_EDGES.map(|length| random.bytes(length)).collect();
    match rule_of(ty) {
        Rule::Length(length) => edges.extend((0..=length + 2).map(|length| random.bytes(length))),
        Rule::AtLeast(length) => edges.extend((0..=length + 6).map(|length| random.bytes(length))),
        Rule::Rows(before, row) => edges.extend((0..=before + 2 * row + 1).map(|length| random.bytes(length))),
        Rule::Route64 => edges.extend(route64_edges(random)),
        Rule::NetworkData => edges.extend(network_data_edges(random)),
        Rule::Any => edges.extend((0..=9).map(|length| random.bytes(length))),
    }
    edges
}

/// Under 9 bytes, and masks of 0, 1, 2, 63 and 64 bits with all route bytes, one less and one more.
fn route64_edges(random: &mut Random) -> Vec<Vec<u8>> {
    let mut edges: Vec<Vec<u8>> = (0..=9).map(|length| vec![0; length]).collect();
    for mask in [0, 1, 1 << 63, 1 << 55, 1 << 56, 1 << 63 | 1, u64::MAX << 1, u64::MAX >> 1, u64::MAX] {
        let whole = route64(random, mask);
        edges.push(whole[..whole.len() - 1].to_vec());
        edges.push([&whole[..], &[0]].concat());
        edges.push(whole);
    }
    edges
}

/// A value of so many bytes, which fits where its type has any such.
pub fn value_of_size(random: &mut Random, ty: u8, bytes: usize) -> Vec<u8> {
    match rule_of(ty) {
        Rule::NetworkData => network_data_of_size(random, bytes),
        _ => random.bytes(bytes),
    }
}
