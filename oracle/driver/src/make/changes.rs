//! Requests on change lists: `ops`, `run`, `fold`, `fold2`.

use super::Maker;
use super::about::{byte_edges, entries_before_edges, some_most_bytes, some_most_entries};
use super::caps::{with_cap, with_each_edge_cap, with_edge_caps_in_turn};
use super::datasets::{
    NO_SUCH_TYPE, TYPES, all_headers_long, dataset, dataset_edges, dataset_of_entries, entry, whole_dataset,
};
use super::edits::{FEW_SHAPED, SHAPED, shaped, value_to_fill};
use super::framing::words_of;
use super::lists::{
    as_sets, list, list_edges, many_operations, removals, remove, set, shaped_list, shaped_lists, whole_list,
};
use super::short::{Family, ZERO_OR_ONE_BYTE, string, strings, zero_or_one_byte};
use crate::operations::{REMOVE_MARK, SET_MARK};
use crate::random::Random;
use crate::sizes::{MOST_BYTES, MOST_ENTRIES, OLDER_ENTRIES};
use crate::words::bytes_word;

/// Both marks, types and lengths where the reading of operations forks, in as few bytes as show it.
const FORKS: &[u8] = &[0x00, 0x01, 0x45, 0x4d, 0x52, 0x53, 0xff];

pub const OPS: Maker = Maker {
    call: "ops",
    share: 12,
    random: |random| bytes_word(&list(random)),
    edges: |random| words_of(&list_edges(random)),
    short: &[
        Family { size: ZERO_OR_ONE_BYTE, words: |number| bytes_word(&zero_or_one_byte(number)) },
        Family { size: 4 * 256, words: |number| bytes_word(&marked(number)) },
        Family { size: shaped_lists(3), words: |number| bytes_word(&shaped_list(number)) },
        Family { size: strings(FORKS.len(), 2, 5), words: |number| bytes_word(&string(FORKS, 2, number)) },
    ],
};

/// An operation whose mark differs from a known one in at most one byte, which is tried with all its values.
fn marked(number: usize) -> Vec<u8> {
    let (mut mark, rest) = if number % 2 == 0 { (SET_MARK, &[0, 0][..]) } else { (REMOVE_MARK, &[0][..]) };
    mark[number / 2 % 2] = (number / 4) as u8;
    [&mark[..], rest].concat()
}

pub fn two_words(first: &[u8], second: &[u8]) -> String {
    format!("{} {}", bytes_word(first), bytes_word(second))
}

/// Lists of up to two.
const FEW_LISTS: usize = shaped_lists(2);

pub const RUN: Maker = Maker {
    call: "run",
    share: 26,
    random: random_run,
    edges: run_edges,
    short: &[
        Family {
            size: FEW_SHAPED * FEW_LISTS,
            words: |number| {
                let words = two_words(&shaped(number / FEW_LISTS), &shaped_list(number % FEW_LISTS));
                format!("{words} {}", 3 + number % 7)
            },
        },
        Family { size: SHAPED, words: |number| format!("{} - {}", bytes_word(&shaped(number)), 3 + number % 7) },
        Family { size: 256, words: |ty| format!("03014107000c00 524d{ty:02x} {}", 3 + ty % 5) },
    ],
};

fn random_run(random: &mut Random) -> String {
    let words = match random.below(100) {
        0 => run_near_most_bytes(random),
        1..=10 => run_near_most_entries(random),
        _ => two_words(&dataset(random), &list(random)),
    };
    with_cap(random, "run", &words)
}

/// A result of about the most bytes: one type's value is set so that it fills the rest; or, where it is changed again, about
/// so many on the way.
fn run_near_most_bytes(random: &mut Random) -> String {
    let most = some_most_bytes(random);
    let there = random.between(most / 4, most);
    let dataset = whole_dataset(random, 3, there);
    let bytes = random.between(most - 1, most + 2);
    let value = value_to_fill(random, NO_SUCH_TYPE, &dataset, bytes);
    let after = match random.below(4) {
        0 => remove(NO_SUCH_TYPE),
        1 => set(NO_SUCH_TYPE, b"A", false),
        _ => remove(NO_SUCH_TYPE + 1),
    };
    two_words(&dataset, &[set(NO_SUCH_TYPE, &value, false), after].concat())
}

/// A result of about the most entries, or so many on the way.
fn run_near_most_entries(random: &mut Random) -> String {
    let most = some_most_entries(random);
    let entries = random.between(most - 18, most);
    let operations = random.between(1, 24);
    let after = if random.once_in(2) { remove(random.pick(TYPES)) } else { Vec::new() };
    two_words(&dataset_of_entries(random, entries), &[many_operations(random, operations), after].concat())
}

fn run_edges(random: &mut Random) -> Vec<String> {
    let mut all_words = Vec::new();
    let change = [set(NO_SUCH_TYPE, b"A", false), remove(3)].concat();
    for dataset in dataset_edges(random) {
        all_words.push(two_words(&dataset, &change));
    }
    for list in list_edges(random) {
        all_words.push(two_words(&[3, 255, 0, 1, 65, 7, 0], &list));
    }
    all_words.extend(both_faulty(random));
    all_words.extend(run_size_edges(random));
    let mut edges = with_edge_caps_in_turn("run", &all_words);
    let longest = two_words(&whole_dataset(random, 3, MOST_BYTES), &remove(NO_SUCH_TYPE));
    edges.extend(with_each_edge_cap("run", &longest));
    edges
}

/// Each fault of a dataset, or none, with each fault of a list.
fn both_faulty(random: &mut Random) -> Vec<String> {
    let datasets = [vec![7, 0], vec![7], vec![0; 2 * MOST_ENTRIES + 2], random.bytes(MOST_BYTES + 1)];
    let mut all_words = Vec::new();
    for dataset in &datasets {
        for list in faulty_lists(random) {
            all_words.push(two_words(dataset, &list));
        }
    }
    all_words
}

fn faulty_lists(random: &mut Random) -> Vec<Vec<u8>> {
    vec![vec![0x53, 0x45, 3], removals((0..=MOST_ENTRIES).map(|_| 3)), random.bytes(MOST_BYTES + 1)]
}

/// Results at the sizes, also such as pass them on the way.
fn run_size_edges(random: &mut Random) -> Vec<String> {
    let mut all_words = Vec::new();
    for entries in entries_before_edges() {
        let there = vec![0; 2 * entries];
        all_words.push(two_words(&there, &set(1, b"", false)));
        all_words.push(two_words(&there, &[set(1, b"", false), set(2, b"", true)].concat()));
        all_words.push(two_words(&there, &[set(1, b"", false), set(2, b"", false), remove(1)].concat()));
        all_words.push(two_words(&there, &[set(1, b"", false), remove(0)].concat()));
        all_words.push(two_words(&there, &set(0, b"", false)));
    }
    for bytes in byte_edges() {
        let value = random.bytes(bytes - 6);
        let short = random.bytes(100);
        all_words.push(two_words(&[7, 0], &set(3, &value, false)));
        all_words.push(two_words(&entry(3, &value[..bytes - 106], false), &set(7, &short, false)));
        let back = [set(7, &random.bytes(bytes / 2), false), set(7, &short, false)].concat();
        all_words.push(two_words(&entry(3, &value[..bytes - 106], false), &back));
    }
    // Each header shrinks by two bytes, so there is room for a value, though not for an entry more.
    let all_long = all_headers_long(random);
    all_words.push(two_words(&all_long, &[]));
    all_words.push(two_words(&all_long, &set(NO_SUCH_TYPE, b"A", false)));
    all_words.push(two_words(&all_long, &set(all_long[0], &random.bytes(100), false)));
    all_words
}

pub const FOLD: Maker = Maker {
    call: "fold",
    share: 16,
    random: |random| {
        let words = bytes_word(&list(random));
        with_cap(random, "fold", &words)
    },
    edges: fold_edges,
    short: &[
        Family { size: ZERO_OR_ONE_BYTE, words: |number| format!("{} 3", bytes_word(&zero_or_one_byte(number))) },
        Family {
            size: shaped_lists(4),
            words: |number| format!("{} {}", bytes_word(&shaped_list(number)), 3 + number % 11),
        },
        Family { size: 256, words: |ty| format!("53458000524d{ty:02x}524d80 {}", 3 + ty % 5) },
    ],
};

fn fold_edges(random: &mut Random) -> Vec<String> {
    let mut lists = list_edges(random);
    // As many sets of such entries as have room beside their marks.
    let size = MOST_BYTES / MOST_ENTRIES;
    let sets = MOST_BYTES / (SET_MARK.len() + size);
    lists.push(as_sets(&all_headers_long(random)[..size * sets]));
    // Each type once.
    lists.push((0..=u8::MAX).flat_map(|number| set(255 - number, &[number], true)).collect());
    let mut edges = with_edge_caps_in_turn("fold", &words_of(&lists));
    let longest = bytes_word(&set(3, &random.bytes(MOST_BYTES - 6), false));
    edges.extend(with_each_edge_cap("fold", &longest));
    edges
}

pub const FOLD2: Maker = Maker {
    call: "fold2",
    share: 20,
    random: random_fold2,
    edges: fold2_edges,
    short: &[Family {
        size: FEW_LISTS * FEW_LISTS,
        words: |number| {
            let words = two_words(&shaped_list(number / FEW_LISTS), &shaped_list(number % FEW_LISTS));
            format!("{words} {}", 3 + number % 11)
        },
    }],
};

fn random_fold2(random: &mut Random) -> String {
    let words = match random.below(100) {
        0 => {
            let most = some_most_bytes(random);
            let first = random.between(100, most);
            let second = most + random.below(7) - first.min(most - 40);
            two_words(&whole_list(random, 2, first), &whole_list(random, 2, second.min(most)))
        }
        1..=8 => {
            let most = some_most_entries(random);
            let (first, second) = (random.between(most * 2 / 3, most), random.between(most / 4, most));
            two_words(&many_operations(random, first), &many_operations(random, second))
        }
        _ => two_words(&list(random), &list(random)),
    };
    with_cap(random, "fold2", &words)
}

fn fold2_edges(random: &mut Random) -> Vec<String> {
    let mut all_words = Vec::new();
    let other = [set(3, b"A", true), remove(7)].concat();
    for list in list_edges(random) {
        all_words.push(two_words(&list, &other));
        all_words.push(two_words(&other, &list));
    }
    for first in faulty_lists(random) {
        for second in faulty_lists(random) {
            all_words.push(two_words(&first, &second));
        }
    }
    all_words.extend(fold2_size_edges(random));
    let mut edges = with_edge_caps_in_turn("fold2", &all_words);
    let longest = two_words(&set(3, &random.bytes(MOST_BYTES - 9), false), &remove(7));
    edges.extend(with_each_edge_cap("fold2", &longest));
    edges
}

/// Folds at the sizes, of lists that together are within them or over them.
fn fold2_size_edges(random: &mut Random) -> Vec<String> {
    let mut all_words = Vec::new();
    // There are no more types than a list may have operations, so a fold never has too many.
    for types in [OLDER_ENTRIES, OLDER_ENTRIES + 1, MOST_ENTRIES - 1, MOST_ENTRIES] {
        let last = (types - 1) as u8;
        all_words.push(two_words(&removals(0..100), &removals(100..=last)));
        all_words.push(two_words(&removals(0..=last), &removals((0..=last).rev())));
        all_words.push(two_words(&removals(0..=last), &removals(255 - last..=255)));
        let sets = (100..=last).flat_map(|ty| set(ty, b"", false)).collect::<Vec<u8>>();
        all_words.push(two_words(&removals(0..100), &sets));
    }
    for bytes in byte_edges() {
        let value = random.bytes(bytes - 9);
        let half = bytes / 2;
        all_words.push(two_words(&set(3, &value[..half - 6], false), &set(7, &value[..bytes - half - 6], false)));
        all_words.push(two_words(&set(3, &value, false), &remove(7)));
    }
    let longest = set(3, &random.bytes(MOST_BYTES - 6), false);
    all_words.push(two_words(&longest, &longest));
    all_words.push(two_words(&longest, &remove(3)));
    all_words.push(two_words(&longest, &set(3, b"A", false)));
    // One list's last operation is cut, and the other's first bytes would complete it.
    all_words.push(two_words(&[0x53], &[0x45, 0, 0]));
    all_words.push(two_words(&[0x52, 0x4d], &[0]));
    all_words
}
