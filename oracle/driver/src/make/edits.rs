//! Requests on changes of a dataset: `set`, `push`, `remove`.

use meshcop::dataset::Dataset;

use super::Maker;
use super::about::{byte_edges, entries_before_edges, some_most_bytes, some_most_entries};
use super::caps::{with_cap, with_each_edge_cap, with_edge_caps_in_turn};
use super::datasets::{
    HEADER_EDGES, NO_SUCH_TYPE, TYPES, all_headers_long, dataset_edges, dataset_of_entries, entry, whole_dataset,
};
use super::framing::with_types;
use super::short::{Family, string, strings};
use super::typed::{typed_dataset, value};
use crate::random::Random;
use crate::sizes::{MOST_BYTES, MOST_ENTRIES, OLDER_BYTES, OLDER_ENTRIES};
use crate::words::bytes_word;

/// Entries that an edit tells apart, by a letter each, and all datasets of up to three of them: of the type or of
/// another, with a value or without, with the shortest header or a long one.
const SHAPES: &[u8] = b"teosl";
pub const SHAPED: usize = strings(SHAPES.len(), 0, 3);
/// Those of up to two, which come first.
pub const FEW_SHAPED: usize = strings(SHAPES.len(), 0, 2);

/// The type that is set, removed or asked for in such a dataset.
pub const SHAPED_TYPE: u8 = 3;

pub fn shaped(number: usize) -> Vec<u8> {
    let shape = |letter| match letter {
        b't' => entry(SHAPED_TYPE, b"A", false),
        b'e' => entry(SHAPED_TYPE, b"", true),
        b'o' => entry(7, b"", false),
        b's' => entry(0, b"B", false),
        _ => entry(0, b"C", true),
    };
    string(SHAPES, 0, number).into_iter().flat_map(shape).collect()
}

pub const SET: Maker = Maker {
    call: "set",
    share: 24,
    random: |random| random_set(random, "set"),
    edges: |random| set_edges(random, "set"),
    short: SHORT,
};

/// Asked with the same words.
pub const PUSH: Maker = Maker {
    call: "push",
    share: 12,
    random: |random| random_set(random, "push"),
    edges: |random| set_edges(random, "push"),
    short: SHORT,
};

const SHORT: &[Family] = &[
    Family {
        size: SHAPED,
        words: |number| format!("{SHAPED_TYPE} - {} {}", bytes_word(&shaped(number)), 2 + number % 7),
    },
    Family {
        size: SHAPED,
        words: |number| format!("{SHAPED_TYPE} 44 {} {}", bytes_word(&shaped(number)), 3 + number % 7),
    },
    Family { size: 256, words: |ty| format!("{ty} 44 03014107000c00 {}", 8 + ty % 4) },
];

pub fn set_words(ty: u8, value: &[u8], dataset: &[u8]) -> String {
    format!("{ty} {} {}", bytes_word(value), bytes_word(dataset))
}

fn random_set(random: &mut Random, call: &str) -> String {
    let words = some_set(random);
    with_cap(random, call, &words)
}

/// A type, a value and a dataset to set it in.
pub fn some_set(random: &mut Random) -> String {
    match random.below(600) {
        0 => huge_set(random),
        1..=10 => set_near_most_bytes(random),
        11..=90 => set_near_most_entries(random),
        _ => {
            let ty = some_type(random);
            let value = value(random, ty);
            set_words(ty, &value, &typed_dataset(random, ty))
        }
    }
}

pub fn some_type(random: &mut Random) -> u8 {
    if random.once_in(8) { random.byte() } else { random.pick(TYPES) }
}

/// A value of about 65,535 bytes.
fn huge_set(random: &mut Random) -> String {
    let ty = some_type(random);
    let length = random.between(65_533, 65_538);
    set_words(ty, &random.bytes(length), &typed_dataset(random, ty))
}

/// A result of about the most bytes: most of them are set, or most of them were there.
fn set_near_most_bytes(random: &mut Random) -> String {
    let ty = some_type(random);
    let most = some_most_bytes(random);
    let dataset = if random.once_in(2) {
        typed_dataset(random, ty)
    } else {
        let entries = random.between(1, MOST_ENTRIES);
        let bytes = random.between(most - 300, most);
        whole_dataset(random, entries, bytes)
    };
    let bytes = random.between(most - 1, most + 2);
    let value = value_to_fill(random, ty, &dataset, bytes);
    set_words(ty, &value, &dataset)
}

/// A value that, set in the dataset, makes it so many bytes long, as far as there is one.
pub fn value_to_fill(random: &mut Random, ty: u8, dataset: &[u8], bytes: usize) -> Vec<u8> {
    let mut others = Dataset::from_bytes(dataset).unwrap_or_default();
    others.remove_all(ty);
    let taken = others.to_bytes().map_or(0, |written| written.len());
    let room = bytes.saturating_sub(taken);
    let header = if room <= 2 + 254 { 2 } else { 4 };
    random.bytes(room.saturating_sub(header))
}

/// A result of about the most entries; most often the type is a new one.
fn set_near_most_entries(random: &mut Random) -> String {
    let entries = some_most_entries(random) - 2 + random.pick(&[0, 1, 1, 2, 2, 2, 2, 3]);
    let dataset = dataset_of_entries(random, entries);
    let ty = if random.once_in(4) { random.pick(TYPES) } else { random.byte() };
    let value = value(random, ty);
    set_words(ty, &value, &dataset)
}

/// Types, values and datasets to set them in, about each boundary.
pub fn some_set_edges(random: &mut Random) -> Vec<String> {
    let mut all_words = set_value_edges(random);
    all_words.extend(set_size_edges(random));
    for words in with_types(&dataset_edges(random)) {
        let (ty, dataset) = words.split_once(' ').expect("two words");
        all_words.push(format!("{ty} {} {dataset}", bytes_word(&random.bytes(2))));
    }
    all_words
}

fn set_edges(random: &mut Random, call: &str) -> Vec<String> {
    let mut edges = with_edge_caps_in_turn(call, &some_set_edges(random));
    let longest = value_to_fill(random, 3, &[7, 0], MOST_BYTES);
    edges.extend(with_each_edge_cap(call, &set_words(3, &longest, &[7, 0])));
    edges.extend(with_each_edge_cap(call, &set_words(3, &random.bytes(65_536), &[7, 0])));
    edges
}

/// Values at each length where a header, the result's size or the writing of an entry ends, also in faulty datasets.
fn set_value_edges(random: &mut Random) -> Vec<String> {
    let mut all_words = Vec::new();
    let long = [OLDER_BYTES - 4, OLDER_BYTES - 3, MOST_BYTES, MOST_BYTES + 1, 65_535, 65_536];
    for length in (0..=2).chain(HEADER_EDGES).chain(MOST_BYTES - 5..=MOST_BYTES - 3).chain(long) {
        all_words.push(set_words(3, &random.bytes(length), &[]));
    }
    let too_many = dataset_of_entries(random, MOST_ENTRIES + 1);
    for dataset in [vec![3, 1, 65, 7, 0], vec![7], vec![3, 255, 0], too_many.clone(), vec![0; MOST_BYTES + 1]] {
        all_words.push(set_words(3, &random.bytes(MOST_BYTES), &dataset));
    }
    for dataset in [vec![3, 1], too_many] {
        all_words.push(set_words(3, &random.bytes(65_536), &dataset));
    }
    all_words
}

/// Results at the sizes, where the type is new, where it was there once, and where it was all there was.
fn set_size_edges(random: &mut Random) -> Vec<String> {
    let mut all_words = Vec::new();
    for entries in entries_before_edges() {
        let others = dataset_of_entries(random, entries);
        all_words.push(set_words(NO_SUCH_TYPE, &[], &others));
        all_words.push(set_words(NO_SUCH_TYPE, b"A", &others));
        let once = [&[NO_SUCH_TYPE, 0], &dataset_of_entries(random, entries - 1)[..]].concat();
        all_words.push(set_words(NO_SUCH_TYPE, b"A", &once));
        all_words.push(set_words(0, &[], &vec![0; 2 * entries]));
    }
    for bytes in byte_edges() {
        let long = whole_dataset(random, 4, bytes - 5);
        for dataset in [long, vec![3, 255, 0, 1, 65], vec![]] {
            let value = value_to_fill(random, NO_SUCH_TYPE, &dataset, bytes);
            all_words.push(set_words(NO_SUCH_TYPE, &value, &dataset));
        }
    }
    // Each header shrinks by two bytes, so there is room for a value, though not for an entry more.
    let all_long = all_headers_long(random);
    all_words.push(set_words(NO_SUCH_TYPE, b"A", &all_long));
    all_words.push(set_words(all_long[0], &random.bytes(100), &all_long));
    all_words
}

pub const REMOVE: Maker = Maker {
    call: "remove",
    share: 12,
    random: |random| {
        let ty = some_type(random);
        let words = format!("{ty} {}", bytes_word(&typed_dataset(random, ty)));
        with_cap(random, "remove", &words)
    },
    edges: remove_edges,
    short: &[
        Family {
            size: SHAPED,
            words: |number| format!("{SHAPED_TYPE} {} {}", bytes_word(&shaped(number)), number % 7),
        },
        Family { size: 256, words: |ty| format!("{ty} 03014107000c00 {}", 3 + ty % 4) },
    ],
};

fn remove_edges(random: &mut Random) -> Vec<String> {
    let mut all_words = with_types(&dataset_edges(random));
    for entries in [1, OLDER_ENTRIES + 1, MOST_ENTRIES, MOST_ENTRIES + 1] {
        all_words.push(format!("0 {}", bytes_word(&vec![0; 2 * entries])));
    }
    let mut edges = with_edge_caps_in_turn("remove", &all_words);
    let longest = bytes_word(&whole_dataset(random, 5, MOST_BYTES));
    edges.extend(with_each_edge_cap("remove", &format!("{NO_SUCH_TYPE} {longest}")));
    edges
}
