//! Requests on hex texts: `hexbytes`, `hexframe`, `hexdata`, `tohex`.

use super::Maker;
use super::caps::{with_cap, with_each_edge_cap, with_edge_caps_in_turn};
use super::datasets::{dataset, dataset_edges, whole_dataset};
use super::edits::{SHAPED, shaped};
use super::framing::words_of;
use super::short::{Family, TWO_BYTES, ZERO_OR_ONE_BYTE, string, strings, two_bytes, zero_or_one_byte};
use super::texts::{damaged_hex_text, dataset_text_edges, digits, length_edges};
use crate::random::Random;
use crate::sizes::{MOST_BYTES, MOST_HEX_DIGITS};
use crate::words::bytes_word;

/// Digits, letters of both cases, and their neighbours.
const TEXT_FORKS: &[u8] = b"03fFgG";

pub const FORKED_TEXTS: usize = strings(TEXT_FORKS.len(), 2, 4);

pub fn forked_text(number: usize) -> Vec<u8> {
    string(TEXT_FORKS, 2, number)
}

pub const HEXBYTES: Maker = Maker {
    call: "hexbytes",
    share: 10,
    random: random_hexbytes,
    edges: hexbytes_edges,
    short: &[
        Family { size: ZERO_OR_ONE_BYTE, words: |number| format!("{} 1", bytes_word(&zero_or_one_byte(number))) },
        Family { size: FORKED_TEXTS, words: |number| format!("{} {}", bytes_word(&forked_text(number)), number % 4) },
        Family { size: TWO_BYTES, words: |number| format!("{} 1", bytes_word(&two_bytes(number))) },
    ],
};

fn random_hexbytes(random: &mut Random) -> String {
    let bytes = if random.once_in(2) { dataset(random) } else { random_bytes(random) };
    let words = bytes_word(&damaged_hex_text(random, &bytes));
    with_cap(random, "hexbytes", &words)
}

fn random_bytes(random: &mut Random) -> Vec<u8> {
    let length = random.below(20);
    random.bytes(length)
}

fn hexbytes_edges(random: &mut Random) -> Vec<String> {
    let mut edges = with_edge_caps_in_turn("hexbytes", &words_of(&length_edges(random)));
    let longest = bytes_word(&digits(random, MOST_HEX_DIGITS));
    edges.extend(with_each_edge_cap("hexbytes", &longest));
    edges
}

pub const HEXFRAME: Maker = Maker {
    call: "hexframe",
    share: 10,
    random: |random| {
        let bytes = dataset(random);
        bytes_word(&damaged_hex_text(random, &bytes))
    },
    edges: |random| words_of(&dataset_text_edges(random)),
    short: &[Family { size: FORKED_TEXTS, words: |number| bytes_word(&forked_text(number)) }],
};

pub const HEXDATA: Maker = Maker {
    call: "hexdata",
    share: 10,
    random: |random| {
        let bytes = dataset(random);
        let words = bytes_word(&damaged_hex_text(random, &bytes));
        with_cap(random, "hexdata", &words)
    },
    edges: hexdata_edges,
    short: &[Family {
        size: FORKED_TEXTS,
        words: |number| format!("{} {}", bytes_word(&forked_text(number)), number % 4),
    }],
};

fn hexdata_edges(random: &mut Random) -> Vec<String> {
    let mut edges = with_edge_caps_in_turn("hexdata", &words_of(&dataset_text_edges(random)));
    let longest = bytes_word(&digits(random, MOST_HEX_DIGITS));
    edges.extend(with_each_edge_cap("hexdata", &longest));
    edges
}

pub const TOHEX: Maker = Maker {
    call: "tohex",
    share: 8,
    random: |random| {
        let words = bytes_word(&dataset(random));
        with_cap(random, "tohex", &words)
    },
    edges: tohex_edges,
    short: &[
        Family { size: ZERO_OR_ONE_BYTE, words: |number| format!("{} 4", bytes_word(&zero_or_one_byte(number))) },
        Family { size: SHAPED, words: |number| format!("{} {}", bytes_word(&shaped(number)), 4 + number % 13) },
    ],
};

fn tohex_edges(random: &mut Random) -> Vec<String> {
    let mut edges = with_edge_caps_in_turn("tohex", &words_of(&dataset_edges(random)));
    let longest = bytes_word(&whole_dataset(random, 3, MOST_BYTES));
    edges.extend(with_each_edge_cap("tohex", &longest));
    edges
}
