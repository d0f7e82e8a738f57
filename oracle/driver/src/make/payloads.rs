//! Diagnostic payloads for requests: random ones, whole or damaged, and those at each boundary.

use super::about::{FULLEST, byte_edges, entry_edges};
use super::datasets::{damaged, dataset_edges, entry, of_each_size, without_last};
use super::diag_values::{CHILD_ADDRESSES, TYPES, fitting, misfit, value, value_edges};
use super::network::{bare_prefix, item, many_rows};
use crate::random::Random;
use crate::rules::NETWORK_DATA;

/// Types whose values may be any bytes, and types that are not known.
const FREE_TYPES: &[u8] = &[0, 17, 18, 10, 19, 22, 24, 29, 31, 200, 255];

/// One value in so many does not fit.
const MISFIT_ONCE_IN: usize = 24;

/// A random payload: most are small and whole, some damaged, some of about the most entries, few of about
/// the most bytes.
pub fn payload(random: &mut Random) -> Vec<u8> {
    let whole = of_each_size(random, 3, free_payload, payload_of_entries, small_payload);
    if random.once_in(2) { whole } else { damaged(random, whole) }
}

/// A few entries; of two types alone in some cases, so that types stand more than once.
fn small_payload(random: &mut Random) -> Vec<u8> {
    let two = [random.pick(TYPES), random.pick(TYPES)];
    let types = if random.once_in(3) { &two[..] } else { TYPES };
    let entries = random.below(9);
    (0..entries).flat_map(|_| typed_entry(random, types)).collect()
}

fn typed_entry(random: &mut Random, types: &[u8]) -> Vec<u8> {
    let ty = match random.below(20) {
        0..=1 => random.byte(),
        2..=5 => NETWORK_DATA,
        _ => random.pick(types),
    };
    let value = value(random, ty, MISFIT_ONCE_IN);
    entry(ty, &value, random.once_in(8))
}

/// So many short entries, address lists among them, and one of any known type.
pub fn payload_of_entries(random: &mut Random, entries: usize) -> Vec<u8> {
    let special = random.below(entries);
    let one = |number| match random.below(3) {
        _ if number == special => typed_entry(random, TYPES),
        0 => entry(CHILD_ADDRESSES, &random.bytes(2), false),
        1 => entry(random.pick(FREE_TYPES), &[], random.once_in(20)),
        _ => entry(14, &random.bytes(1), false),
    };
    (0..entries).flat_map(one).collect()
}

/// A payload of exactly so many entries and bytes, at least two bytes an entry, of values that may be any bytes.
pub fn free_payload(random: &mut Random, entries: usize, bytes: usize) -> Vec<u8> {
    let mut payload: Vec<u8> = (1..entries).flat_map(|_| [random.pick(FREE_TYPES), 0]).collect();
    let size = bytes - payload.len();
    let long_header = size > 2 + 254;
    let value = random.bytes(if long_header { size - 4 } else { size - 2 });
    payload.extend(entry(random.pick(FREE_TYPES), &value, long_header));
    payload
}

/// Payloads with each value at a boundary, in each order of faults, and at the sizes.
pub fn payload_edges(random: &mut Random) -> Vec<Vec<u8>> {
    let mut edges = dataset_edges(random);
    for ty in TYPES {
        edges.extend(value_in_payload_edges(random, *ty));
    }
    edges.push(TYPES.iter().flat_map(|ty| entry(*ty, &fitting(random, *ty), false)).collect());
    edges.push(TYPES.iter().rev().flat_map(|ty| entry(*ty, &fitting(random, *ty), true)).collect());
    edges.extend(payload_size_edges(random));
    edges.extend(network_data_twice(random));
    edges
}

/// Each value at a boundary, alone or after others; with another of the type before and after; the fault of one type
/// before that of another.
fn value_in_payload_edges(random: &mut Random, ty: u8) -> Vec<Vec<u8>> {
    let mut edges = Vec::new();
    for (number, value) in value_edges(random, ty).iter().enumerate() {
        let asked = entry(ty, value, number % 2 == 0);
        let before = match number % 3 {
            0 => vec![],
            1 => entry(ty, &fitting(random, ty), false),
            _ => entry(200, &[1], true),
        };
        edges.push([before, asked].concat());
    }
    let (fits, wrong) = (entry(ty, &fitting(random, ty), false), entry(ty, &misfit(random, ty), true));
    let other = random.pick(&[1, 3, 6, 9, 23]);
    let other_wrong = entry(other, &misfit(random, other), false);
    edges.push([&fits[..], &wrong].concat());
    edges.push([&wrong[..], &fits].concat());
    edges.push([&wrong[..], &other_wrong].concat());
    edges.push([&other_wrong[..], &wrong].concat());
    edges.push([&wrong[..], &[ty]].concat());
    edges.push(entry(ty, &[], false));
    edges
}

/// Payloads at the sizes, also with a fault of a value before, which comes after 1, 2 and 3.
fn payload_size_edges(random: &mut Random) -> Vec<Vec<u8>> {
    let mut edges = Vec::new();
    for bytes in byte_edges() {
        edges.push(free_payload(random, 3, bytes));
        edges.push(without_last(free_payload(random, 3, bytes + 1)));
        edges.push([vec![1, 0], free_payload(random, 3, bytes - 2)].concat());
        edges.push([vec![1, 0], without_last(free_payload(random, 3, bytes - 1))].concat());
    }
    for entries in entry_edges() {
        let whole = payload_of_entries(random, entries);
        let free = free_payload(random, entries - 1, 2 * entries + 7);
        edges.push([&[1, 0], &free[..]].concat());
        edges.push([&free[..], &[1, 0]].concat());
        edges.push([&[1, 0], &free[..], &[1]].concat());
        edges.push([vec![NETWORK_DATA, 1, 0], free].concat());
        edges.push(without_last(whole.clone()));
        edges.push(whole);
        edges.push((0..entries).flat_map(|_| [CHILD_ADDRESSES, 2, random.byte(), random.byte()]).collect());
    }
    for (entries, bytes) in FULLEST {
        edges.push(free_payload(random, entries, bytes));
    }
    edges
}

/// Two values of Network Data: each must be without fault and within the sizes, and the second alone is in the record.
fn network_data_twice(random: &mut Random) -> Vec<Vec<u8>> {
    let rows = |count: usize| bare_prefix(&item(0, &vec![0x28; 3 * count]));
    let over = bare_prefix(&[]).repeat(65);
    let values =
        [vec![], bare_prefix(&[]), rows(59), [rows(59), rows(59)].concat(), over, vec![2], many_rows(random), rows(0)];
    let mut edges = Vec::new();
    for first in &values {
        for second in &values {
            let both = [entry(NETWORK_DATA, first, false), entry(NETWORK_DATA, second, false)].concat();
            edges.push(both);
        }
    }
    edges
}
