//! Change lists for requests: random ones, whole or damaged, and those at each boundary.

use super::about::{FULLEST, byte_edges, entry_edges};
use super::datasets::{HEADER_EDGES, TYPES, damaged, entry, of_each_size, whole_dataset, without_last};
use super::short::{string, strings};
use crate::framed;
use crate::operations::{REMOVE_MARK, SET_MARK};
use crate::random::Random;
use crate::sizes::{MOST_BYTES, MOST_ENTRIES};

pub fn set(ty: u8, value: &[u8], long_header: bool) -> Vec<u8> {
    [&SET_MARK[..], &entry(ty, value, long_header)].concat()
}

pub fn remove(ty: u8) -> Vec<u8> {
    [&REMOVE_MARK[..], &[ty]].concat()
}

pub fn removals(types: impl Iterator<Item = u8>) -> Vec<u8> {
    types.flat_map(remove).collect()
}

/// Operations that a run or a fold tells apart, by a letter each, and all lists of up to so many of them: on either of two
/// types, with a value or without, with the shortest header or a long one.
const SHAPES: &[u8] = b"serlo-";

pub const fn shaped_lists(most: u32) -> usize {
    strings(SHAPES.len(), 0, most)
}

pub fn shaped_list(number: usize) -> Vec<u8> {
    let shape = |letter| match letter {
        b's' => set(3, b"A", false),
        b'e' => set(3, b"", false),
        b'r' => remove(3),
        b'l' => set(0, b"BC", true),
        b'o' => set(0, b"D", false),
        _ => remove(0),
    };
    string(SHAPES, 0, number).into_iter().flat_map(shape).collect()
}

/// A random list: most are small and whole, some damaged, some of about the most operations, few of about the
/// most bytes.
pub fn list(random: &mut Random) -> Vec<u8> {
    let whole = of_each_size(random, 4, whole_list, many_operations, small_list);
    damaged(random, whole)
}

/// Few types, so that they stand more than once.
fn small_list(random: &mut Random) -> Vec<u8> {
    let kinds = random.pick(&[2, 3, TYPES.len()]);
    let first_kind = random.below(TYPES.len() - kinds + 1);
    let types = &TYPES[first_kind..first_kind + kinds];
    let operations = random.below(8);
    (0..operations).flat_map(|_| operation(random, types)).collect()
}

fn operation(random: &mut Random, types: &[u8]) -> Vec<u8> {
    let ty = if random.once_in(12) { random.byte() } else { random.pick(types) };
    if random.once_in(3) {
        return remove(ty);
    }
    let length = match random.below(40) {
        0 => random.between(250, 260),
        1..=9 => 0,
        _ => random.below(9),
    };
    let value = random.bytes(length);
    set(ty, &value, random.once_in(5))
}

/// So many short operations, on few types or on any.
pub fn many_operations(random: &mut Random, operations: usize) -> Vec<u8> {
    let any_type = random.once_in(2);
    let short = |_| {
        let ty = if any_type { random.byte() } else { random.pick(TYPES) };
        let length = random.below(3);
        if random.once_in(2) { remove(ty) } else { set(ty, &random.bytes(length), random.once_in(8)) }
    };
    (0..operations).flat_map(short).collect()
}

/// A list of exactly so many sets and bytes, which must be at least four bytes a set.
pub fn whole_list(random: &mut Random, sets: usize, bytes: usize) -> Vec<u8> {
    as_sets(&whole_dataset(random, sets, bytes - SET_MARK.len() * sets))
}

/// The list that sets each entry of a dataset.
pub fn as_sets(dataset: &[u8]) -> Vec<u8> {
    let entries = framed::entries_in_place(dataset).expect("only for whole datasets");
    let of_entry = |entry: &framed::PlacedEntry| {
        let end = entry.start + entry.header + entry.value.len();
        [&SET_MARK[..], &dataset[entry.start..end]].concat()
    };
    entries.iter().flat_map(of_entry).collect()
}

/// Lists at each boundary of their operations and of the sizes.
pub fn list_edges(random: &mut Random) -> Vec<Vec<u8>> {
    let mut edges = vec![vec![], random.bytes(1)];
    for bytes in byte_edges() {
        let sets = random.between(1, 4);
        edges.push(whole_list(random, sets, bytes));
        edges.push(without_last(whole_list(random, sets, bytes + 1)));
    }
    for operations in entry_edges() {
        let whole = many_operations(random, operations);
        edges.push(removals((0..operations).map(|_| 3)));
        // Descending; past the last of the types from the first on again.
        edges.push(removals((0..operations).map(|number| !(number as u8))));
        edges.push(without_last(whole.clone()));
        edges.push([&whole[..], &[0x53]].concat());
        edges.push([&whole[..], &[0, 0, 0]].concat());
        edges.push(whole);
    }
    for (operations, bytes) in FULLEST {
        edges.push(whole_list(random, operations, bytes));
    }
    edges.push(without_last(whole_list(random, MOST_ENTRIES + 1, MOST_BYTES + 1)));
    edges.extend(cut_edges(random));
    edges
}

/// Every cut of short operations, sets at each length where a header changes, and marks that are none.
fn cut_edges(random: &mut Random) -> Vec<Vec<u8>> {
    let three = [set(3, b"AB", true), remove(7), set(0, b"C", false)].concat();
    let mut edges: Vec<Vec<u8>> = (1..=three.len()).map(|length| three[..length].to_vec()).collect();
    for length in HEADER_EDGES {
        let value = random.bytes(length);
        edges.push(set(3, &value, true));
        edges.push(set(3, &value, false));
        edges.push([remove(3), without_last(set(3, &value, true))].concat());
    }
    for mark in [[0x45, 0x53], [0x4d, 0x52], [0x53, 0x4d], [0x52, 0x45], [0x73, 0x65], [0x72, 0x6d], [0, 0]] {
        edges.push([&mark[..], &[3, 0]].concat());
        edges.push([&remove(3)[..], &mark, &[3]].concat());
    }
    edges
}
