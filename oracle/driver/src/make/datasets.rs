//! Datasets for requests: random ones, whole or damaged, and those at each boundary.

use super::about::{FULLEST, byte_edges, entry_edges, some_most_bytes, some_most_entries};
use crate::random::Random;
use crate::sizes::{MOST_BYTES, MOST_ENTRIES};

/// Few types, so that queries find something and types stand more than once.
pub const TYPES: &[u8] = &[0x00, 0x01, 0x02, 0x03, 0x04, 0x05, 0x07, 0x0c, 0x0e, 0x33, 0x34, 0x35];

/// A type that only a damaged dataset has.
pub const NO_SUCH_TYPE: u8 = 0xc8;

/// Lengths around 254, the last that the short header carries, and 255, the mark of the long one.
pub const HEADER_EDGES: std::ops::RangeInclusive<usize> = 253..=257;

/// An entry, with the long header where it must be, or where it is asked for though the short one would do.
pub fn entry(ty: u8, value: &[u8], long_header: bool) -> Vec<u8> {
    let mut out = if long_header || value.len() > 254 {
        let length = (value.len() as u16).to_be_bytes();
        vec![ty, 255, length[0], length[1]]
    } else {
        vec![ty, value.len() as u8]
    };
    out.extend(value);
    out
}

/// A random dataset: most are small and whole, some damaged, some of about the most entries, few of about
/// the most bytes.
pub fn dataset(random: &mut Random) -> Vec<u8> {
    let whole = if random.once_in(1_500) {
        of_about_most_bytes(random, whole_dataset)
    } else if random.once_in(16) {
        of_about_most_entries(random, dataset_of_entries)
    } else if random.once_in(60) {
        let entries = random.between(1, 3);
        let bytes = random.between(250, 270);
        whole_dataset(random, entries, bytes)
    } else {
        small_dataset(random)
    };
    damaged(random, whole)
}

/// Makes a dataset, a payload or a list of so many entries or operations and of so many bytes.
type OfBytes = fn(&mut Random, usize, usize) -> Vec<u8>;

/// Makes one of so many entries or operations.
type OfEntries = fn(&mut Random, usize) -> Vec<u8>;

/// One of each size: `long` in 1,000 are of about the most bytes, 45 of about the most entries, all others small.
pub fn of_each_size(
    random: &mut Random,
    long: usize,
    of_bytes: OfBytes,
    of_entries: OfEntries,
    small: fn(&mut Random) -> Vec<u8>,
) -> Vec<u8> {
    match random.below(1_000) {
        number if number < long => of_about_most_bytes(random, of_bytes),
        number if number < long + 45 => of_about_most_entries(random, of_entries),
        _ => small(random),
    }
}

fn of_about_most_bytes(random: &mut Random, of_bytes: OfBytes) -> Vec<u8> {
    let bytes = near_most_bytes(random);
    let entries = random.between(1, MOST_ENTRIES + 2);
    of_bytes(random, entries, bytes)
}

fn of_about_most_entries(random: &mut Random, of_entries: OfEntries) -> Vec<u8> {
    let entries = near_most_entries(random);
    of_entries(random, entries)
}

/// A number of entries of about the most, more of them over than not.
pub fn near_most_entries(random: &mut Random) -> usize {
    some_most_entries(random) - 1 + random.pick(&[0, 1, 2, 2, 2, 3, 3, 4])
}

/// So many entries, most of them with values of few bytes or none.
pub fn dataset_of_entries(random: &mut Random, entries: usize) -> Vec<u8> {
    let spare = random.below(12);
    whole_dataset(random, entries, 2 * entries + spare)
}

/// A number of bytes of about the most, in most cases.
pub fn near_most_bytes(random: &mut Random) -> usize {
    let most = some_most_bytes(random);
    match random.below(4) {
        0 => random.between(most / 4, most + most / 10),
        1 => most,
        _ => random.between(most - 2, most + 2),
    }
}

fn small_dataset(random: &mut Random) -> Vec<u8> {
    let kinds = if random.once_in(3) { 2 } else { TYPES.len() };
    let first_kind = random.below(TYPES.len() - kinds + 1);
    let types = &TYPES[first_kind..first_kind + kinds];
    let mut out = Vec::new();
    for _ in 0..random.below(7) {
        let ty = if random.once_in(12) { random.byte() } else { random.pick(types) };
        let length = match random.below(16) {
            0..=3 => 0,
            4..=12 => random.below(9),
            13..=14 => random.below(20),
            _ => random.below(48),
        };
        let value = random.bytes(length);
        out.extend(entry(ty, &value, random.once_in(6)));
    }
    out
}

/// A dataset of exactly so many entries and bytes, which must be at least two bytes an entry.
pub fn whole_dataset(random: &mut Random, entries: usize, bytes: usize) -> Vec<u8> {
    let large = random.below(entries);
    let mut spare = bytes - 2 * entries;
    let mut spaces: Vec<usize> = (0..entries).map(|_| take(&mut spare, random.below(8))).collect();
    spaces[large] += spare;
    spaces.iter().flat_map(|&space| entry_of_size(random, 2 + space)).collect()
}

fn take(from: &mut usize, wanted: usize) -> usize {
    let taken = wanted.min(*from);
    *from -= taken;
    taken
}

/// An entry of so many bytes in all, two or more; where both headers can make it, either.
fn entry_of_size(random: &mut Random, size: usize) -> Vec<u8> {
    let long_header = size > 2 + 254 || (size >= 4 && random.once_in(4));
    let value = random.bytes(if long_header { size - 4 } else { size - 2 });
    entry(random.pick(TYPES), &value, long_header)
}

/// The bytes themselves, in most cases; else cut, with a bit turned, a byte lost, bytes added, or others altogether.
pub fn damaged(random: &mut Random, mut bytes: Vec<u8>) -> Vec<u8> {
    let place = random.below(bytes.len());
    match random.below(20) {
        0..=2 => bytes.truncate(place),
        3..=4 if !bytes.is_empty() => bytes[place] ^= 1 << random.below(8),
        5 if !bytes.is_empty() => drop(bytes.remove(place)),
        6 => {
            let added = random.between(1, 4);
            bytes.extend(random.bytes(added));
        }
        7 => {
            let length = random.below(24);
            bytes = random.bytes(length);
        }
        _ => {}
    }
    bytes
}

/// Datasets at each boundary of framing and of the sizes.
pub fn dataset_edges(random: &mut Random) -> Vec<Vec<u8>> {
    let mut edges = vec![vec![], random.bytes(1)];
    for bytes in (2..=4).chain(HEADER_EDGES).chain(byte_edges()) {
        let entries = random.between(1, (bytes / 2).min(4));
        edges.push(whole_dataset(random, entries, bytes));
        edges.push(without_last(whole_dataset(random, entries, bytes + 1)));
    }
    for entries in entry_edges() {
        let sparse = 2 * entries + 5;
        edges.push(whole_dataset(random, entries, 2 * entries));
        edges.push(whole_dataset(random, entries, sparse));
        edges.push(without_last(whole_dataset(random, entries, sparse)));
        edges.push([whole_dataset(random, entries, sparse), vec![3]].concat());
    }
    for (entries, bytes) in FULLEST {
        edges.push(whole_dataset(random, entries, bytes));
    }
    edges.push(without_last(whole_dataset(random, MOST_ENTRIES + 1, MOST_BYTES + 1)));
    edges.push(vec![0; MOST_BYTES]);
    edges.push(all_headers_long(random));
    edges.extend(header_edges(random));
    edges
}

/// Both headers at each length where they change, whole and cut, alone and after another entry.
fn header_edges(random: &mut Random) -> Vec<Vec<u8>> {
    let mut edges = Vec::new();
    for length in (0..=2).chain(HEADER_EDGES) {
        let value = random.bytes(length);
        edges.push(entry(3, &value, false));
        edges.push(entry(3, &value, true));
        edges.push(without_last(entry(3, &value, true)));
    }
    let cut: [&[u8]; 6] = [&[3], &[3, 1], &[3, 254], &[3, 255], &[3, 255, 0], &[3, 255, 255, 255]];
    for header in cut {
        edges.push(header.to_vec());
        edges.push([&[7, 1, 65], header].concat());
    }
    edges
}

/// As many entries and bytes as a dataset may have, each entry two bytes longer than it need be.
pub fn all_headers_long(random: &mut Random) -> Vec<u8> {
    let length = MOST_BYTES / MOST_ENTRIES - 4;
    let long_entry = |_| entry(random.pick(TYPES), &random.bytes(length), true);
    (0..MOST_ENTRIES).flat_map(long_entry).collect()
}

pub fn without_last(mut bytes: Vec<u8>) -> Vec<u8> {
    bytes.pop();
    bytes
}
