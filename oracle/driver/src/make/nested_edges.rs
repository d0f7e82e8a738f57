//! Requests on the nested listing around each boundary.

use super::about::{byte_edges, entry_edges};
use super::caps::{with_each_edge_cap, with_edge_caps_in_turn};
use super::datasets::{dataset_edges, entry, without_last};
use super::framing::words_of;
use super::nested::{LIST_ANYWHERE, opened};
use super::network::{bare_prefix, item, network_data_edges};
use crate::random::Random;
use crate::rules::NETWORK_DATA;
use crate::rules::network_tlvs::{CONTEXT, PREFIX};
use crate::sizes::{MOST_BYTES, MOST_ENTRIES};
use crate::words::bytes_word;

/// A prefix without a value: two lines, the most text that two bytes can have.
const DENSEST: &[u8] = &[PREFIX, 0];

const LONG_HEADER: usize = 4;

/// Network Data that is empty, whole, or cut: at once or after a TLV, in a prefix, and in what is inside one.
const VALUES: &[&[u8]] = &[
    &[],
    &[0, 0],
    &[2, 2, 0, 0],
    &[3, 6, 0, 0, 6, 0, 8, 0],
    &[14, 2, 2, 0],
    &[2],
    &[9, 1],
    &[0, 0, 2],
    &[2, 0],
    &[3, 1, 0],
    &[2, 3, 0, 9, 0],
    &[2, 5, 0, 0, 6, 0, 8],
];

pub fn nested_edges(random: &mut Random) -> Vec<String> {
    let mut payloads = dataset_edges(random);
    payloads.extend(in_payloads(&network_data_edges(random)));
    payloads.extend(two_values());
    payloads.extend(entry_count_edges());
    payloads.extend(byte_count_edges());
    let mut edges = with_edge_caps_in_turn("nested", &words_of(&payloads));
    let small = [worked(), shortest(), inner_cuts(), two_cuts(), not_opened()].concat();
    edges.extend(small.iter().flat_map(|payload| with_every_cap(payload)));
    edges.extend(with_every_cap(&densest(MOST_BYTES)));
    edges
}

/// Just enough, one too few, one too many, nothing, and much.
fn with_every_cap(payload: &[u8]) -> Vec<String> {
    let words = bytes_word(payload);
    let mut edges = with_each_edge_cap("nested", &words);
    edges.extend([format!("{words} 0"), format!("{words} {}", u64::MAX)]);
    edges
}

/// Each value in a payload, by either header, alone or with another entry before or after it.
fn in_payloads(values: &[Vec<u8>]) -> Vec<Vec<u8>> {
    let in_payload = |(number, value): (usize, &Vec<u8>)| {
        let asked = entry(NETWORK_DATA, value, number % 2 == 0);
        match number % 3 {
            0 => asked,
            1 => [&[14, 1, 90], &asked[..]].concat(),
            _ => [&asked[..], &[15, 255, 0, 2, 11, 184]].concat(),
        }
    };
    values.iter().enumerate().map(in_payload).collect()
}

/// Each value before each, every one of which is opened, and at times with another entry between them.
fn two_values() -> Vec<Vec<u8>> {
    let mut edges = Vec::new();
    for first in VALUES {
        for (number, second) in VALUES.iter().enumerate() {
            let between = if number % 3 == 0 { entry(1, LIST_ANYWHERE, number % 2 == 0) } else { vec![] };
            edges.push([opened(first), between, entry(NETWORK_DATA, second, number % 5 == 0)].concat());
        }
    }
    edges
}

/// Entries at their number, and a cut one after them, which comes first.
fn entry_count_edges() -> Vec<Vec<u8>> {
    let mut edges = Vec::new();
    for entries in entry_edges() {
        for value in [&[][..], &[3], DENSEST, &[3, 4, 0, 0, 6, 0]] {
            let whole = opened(value).repeat(entries);
            edges.push([&whole[..], &[NETWORK_DATA]].concat());
            edges.push(whole);
        }
    }
    edges
}

/// Payloads at the size, whole and cut: of much text, of as many entries as may be, and of much inside prefixes.
fn byte_count_edges() -> Vec<Vec<u8>> {
    let mut edges = Vec::new();
    for bytes in byte_edges() {
        edges.push(densest(bytes));
        edges.push(without_last(densest(bytes + 1)));
    }
    let of_each_entry = MOST_BYTES / MOST_ENTRIES - 2;
    edges.push(opened(&DENSEST.repeat(of_each_entry / 2)).repeat(MOST_ENTRIES));
    let fullest_prefix = bare_prefix(&[0; 253]);
    edges.push(entry(NETWORK_DATA, &fullest_prefix.repeat(MOST_BYTES / fullest_prefix.len()), true));
    edges
}

/// A payload of exactly so many bytes; where they are odd, its Network Data ends in a cut.
fn densest(bytes: usize) -> Vec<u8> {
    let value = DENSEST.repeat(bytes);
    entry(NETWORK_DATA, &value[..bytes - LONG_HEADER], true)
}

/// A short prefix that is not the last, one that is, a cut at once, and a prefix inside a prefix.
fn worked() -> Vec<Vec<u8>> {
    let values: [&[u8]; 4] = [&[2, 0, 0, 0], &[2, 0], &[3], &[2, 5, 0, 0, 3, 1, 0]];
    values.iter().map(|value| opened(value)).collect()
}

/// Nothing at all, and up to three bytes by either header.
fn shortest() -> Vec<Vec<u8>> {
    let mut edges = vec![vec![]];
    for length in 0..=3 {
        for first in [0, PREFIX] {
            edges.push(entry(NETWORK_DATA, &[first, 0, 1][..length], false));
            edges.push(entry(NETWORK_DATA, &[first, 1, 0][..length], true));
        }
    }
    edges
}

/// After none, one and two TLVs inside a prefix, which is the last, or is not.
fn inner_cuts() -> Vec<Vec<u8>> {
    let mut edges = Vec::new();
    for whole in 0..=2 {
        for cut in [&[CONTEXT][..], &[CONTEXT, 1], &[CONTEXT + 1, 255, 0]] {
            let prefix = bare_prefix(&[&item(CONTEXT, &[0x1f]).repeat(whole), cut].concat());
            edges.push(opened(&prefix));
            edges.push(opened(&[prefix, item(9, b"")].concat()));
        }
    }
    edges
}

/// Two cuts in one value: of one prefix and another, and of a prefix and the list that it stands in.
fn two_cuts() -> Vec<Vec<u8>> {
    let prefixes = [item(PREFIX, &[0]), item(PREFIX + 1, &[0, 17, 0, 0]), bare_prefix(&[CONTEXT])];
    let ends_of_list = [vec![PREFIX], vec![8, 2]];
    let mut edges = Vec::new();
    for first in &prefixes {
        for second in prefixes.iter().chain(&ends_of_list) {
            edges.push(opened(&[&first[..], second].concat()));
        }
    }
    edges
}

/// What looks like a list, where none is opened: in a payload, in Network Data and in a prefix.
fn not_opened() -> Vec<Vec<u8>> {
    let mut edges = Vec::new();
    for ty in [0, 1, 6, 8, 135, 255] {
        edges.push(entry(ty, LIST_ANYWHERE, false));
        edges.push(entry(ty, LIST_ANYWHERE, true));
    }
    for ty in [0, 4, 14, 15, 255] {
        edges.push(opened(&item(ty, LIST_ANYWHERE)));
    }
    for ty in [2, 3, 14, 15, 255] {
        edges.push(opened(&bare_prefix(&item(ty, LIST_ANYWHERE))));
    }
    edges
}
