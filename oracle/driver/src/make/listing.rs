//! Requests on the listing: `flat`, `hexflat`, `prog`.

use super::Maker;
use super::base16::{FORKED_TEXTS, forked_text};
use super::caps::{with_cap, with_each_edge_cap, with_edge_caps_in_turn};
use super::datasets::{dataset, dataset_edges, whole_dataset};
use super::framing::{FORKED, forked, words_of};
use super::short::{Family, ZERO_OR_ONE_BYTE, string, strings, zero_or_one_byte};
use super::texts::{damaged_hex_text, dataset_text_edges, digits, hex_text};
use crate::random::Random;
use crate::sizes::{MOST_BYTES, MOST_ENTRIES, MOST_HEX_DIGITS};
use crate::words::bytes_word;

pub const FLAT: Maker = Maker {
    call: "flat",
    share: 8,
    random: |random| {
        let words = bytes_word(&dataset(random));
        with_cap(random, "flat", &words)
    },
    edges: flat_edges,
    short: &[
        Family { size: ZERO_OR_ONE_BYTE, words: |number| format!("{} 9", bytes_word(&zero_or_one_byte(number))) },
        Family { size: FORKED, words: |number| format!("{} {}", bytes_word(&forked(number)), 13 + number % 4) },
    ],
};

fn flat_edges(random: &mut Random) -> Vec<String> {
    let mut edges = with_edge_caps_in_turn("flat", &words_of(&dataset_edges(random)));
    let longest = bytes_word(&whole_dataset(random, MOST_ENTRIES, MOST_BYTES));
    edges.extend(with_each_edge_cap("flat", &longest));
    edges
}

pub const HEXFLAT: Maker = Maker {
    call: "hexflat",
    share: 8,
    random: |random| {
        let bytes = dataset(random);
        let words = bytes_word(&damaged_hex_text(random, &bytes));
        with_cap(random, "hexflat", &words)
    },
    edges: hexflat_edges,
    short: &[Family {
        size: FORKED_TEXTS,
        words: |number| format!("{} {}", bytes_word(&forked_text(number)), 13 + number % 4),
    }],
};

fn hexflat_edges(random: &mut Random) -> Vec<String> {
    let mut edges = with_edge_caps_in_turn("hexflat", &words_of(&dataset_text_edges(random)));
    let longest = whole_dataset(random, MOST_ENTRIES, MOST_BYTES);
    let longest = bytes_word(&hex_text(random, &longest));
    edges.extend(with_each_edge_cap("hexflat", &longest));
    edges
}

/// Ends of a standard input: of which one newline is dropped, and nothing else.
const ENDS: &[&[u8]] = &[b"\n", b"", b"\n\n", b"\r\n", b" \n", b"\n "];

/// Two digits, a letter of each case, a character that is no digit, and the ends of lines.
const INPUT_FORKS: &[u8] = b"0fFg\n\r";

pub const PROG: Maker = Maker {
    call: "prog",
    share: 10,
    random: |random| {
        let bytes = dataset(random);
        let text = damaged_hex_text(random, &bytes);
        let end = if random.once_in(3) { random.pick(ENDS) } else { ENDS[0] };
        bytes_word(&[&text, end].concat())
    },
    edges: prog_edges,
    short: &[
        Family { size: ZERO_OR_ONE_BYTE, words: |number| bytes_word(&zero_or_one_byte(number)) },
        Family { size: strings(INPUT_FORKS.len(), 2, 4), words: |number| bytes_word(&string(INPUT_FORKS, 2, number)) },
    ],
};

/// Each text with one newline or, every other, with one of the ends in turn; and the longest ones with every end, since the
/// drop comes before the size.
fn prog_edges(random: &mut Random) -> Vec<String> {
    let mut inputs = Vec::new();
    for (number, text) in dataset_text_edges(random).iter().enumerate() {
        let end = if number % 2 == 0 { ENDS[0] } else { ENDS[number / 2 % ENDS.len()] };
        inputs.push([text, end].concat());
    }
    for count in MOST_HEX_DIGITS - 1..=MOST_HEX_DIGITS + 1 {
        let text = digits(random, count);
        inputs.extend(ENDS.iter().map(|end| [&text, *end].concat()));
    }
    words_of(&inputs)
}
