//! Requests on framing and the writing of entries: `frame`, `one`, `rewrite`, `entry`, `header`, `raw`.

use meshcop::tlv::TlvSet;

use super::Maker;
use super::about::some_most_bytes;
use super::caps::{with_cap, with_each_edge_cap, with_edge_caps_in_turn};
use super::damage::{NO_BYTES, NO_NUMBERS, NUMBERS};
use super::datasets::{HEADER_EDGES, NO_SUCH_TYPE, TYPES, dataset, dataset_edges, entry, whole_dataset, without_last};
use super::short::{Family, TWO_BYTES, ZERO_OR_ONE_BYTE, string, strings, two_bytes, zero_or_one_byte};
use crate::answer::LONGEST_LINE;
use crate::random::Random;
use crate::sizes::{MOST_BYTES, OLDER_BYTES};
use crate::words::bytes_word;

/// The lengths where framing forks, in as few bytes as show it.
const FORKS: &[u8] = &[0x00, 0x01, 0x02, 0x03, 0xfe, 0xff];
/// Fewer still, for inputs that reach past a long header.
const LONG_FORKS: &[u8] = &[0x00, 0x01, 0xff];

pub const FORKED: usize = strings(FORKS.len(), 3, 4);
const LONG_FORKED: usize = strings(LONG_FORKS.len(), 5, 6);

pub fn forked(number: usize) -> Vec<u8> {
    string(FORKS, 3, number)
}

fn long_forked(number: usize) -> Vec<u8> {
    string(LONG_FORKS, 5, number)
}

/// Framing looks at the first bytes alone, so here every short input is tried.
const SHORT_INPUTS: &[Family] = &[
    Family { size: ZERO_OR_ONE_BYTE, words: |number| bytes_word(&zero_or_one_byte(number)) },
    Family { size: FORKED, words: |number| bytes_word(&forked(number)) },
    Family { size: LONG_FORKED, words: |number| bytes_word(&long_forked(number)) },
    Family { size: TWO_BYTES, words: |number| bytes_word(&two_bytes(number)) },
];

pub const FRAME: Maker = Maker {
    call: "frame",
    share: 16,
    random: |random| bytes_word(&dataset(random)),
    edges: frame_edges,
    short: SHORT_INPUTS,
};

fn frame_edges(random: &mut Random) -> Vec<String> {
    let mut edges = words_of(&dataset_edges(random));
    edges.push(bytes_word(&random.bytes((LONGEST_LINE - "frame ".len()) / 2)));
    edges
}

pub const ONE: Maker = Maker {
    call: "one",
    share: 6,
    random: |random| bytes_word(&dataset(random)),
    edges: one_edges,
    short: SHORT_INPUTS,
};

/// A single entry has no size of its own but what its two length bytes can say.
fn one_edges(random: &mut Random) -> Vec<String> {
    let mut edges = words_of(&dataset_edges(random));
    for length in [65_534, 65_535] {
        let whole = entry(3, &random.bytes(length), true);
        edges.push(bytes_word(&without_last(whole.clone())));
        edges.push(bytes_word(&[&whole[..], &[7]].concat()));
        edges.push(bytes_word(&whole));
    }
    edges
}

pub const REWRITE: Maker = Maker {
    call: "rewrite",
    share: 14,
    random: |random| {
        let words = bytes_word(&dataset(random));
        with_cap(random, "rewrite", &words)
    },
    edges: rewrite_edges,
    short: &[
        Family { size: FORKED, words: |number| format!("{} {}", bytes_word(&forked(number)), 2 + number % 3) },
        Family { size: LONG_FORKED, words: |number| format!("{} 4", bytes_word(&long_forked(number))) },
    ],
};

fn rewrite_edges(random: &mut Random) -> Vec<String> {
    let mut edges = with_edge_caps_in_turn("rewrite", &words_of(&dataset_edges(random)));
    let longest = bytes_word(&whole_dataset(random, 3, MOST_BYTES));
    edges.extend(with_each_edge_cap("rewrite", &longest));
    edges
}

pub const ENTRY: Maker = Maker {
    call: "entry",
    share: 8,
    random: random_entry,
    edges: entry_edges,
    short: &[
        Family { size: 256, words: |ty| format!("{ty} - {}", 1 + ty % 3) },
        Family { size: 256, words: |ty| format!("{ty} {:02x} {}", 255 - ty, 2 + ty % 3) },
    ],
};

fn random_entry(random: &mut Random) -> String {
    let length = match random.below(3_000) {
        0 => random.between(65_530, 65_540),
        1 => some_most_bytes(random) - 200 + random.below(400),
        2..=100 => random.between(250, 260),
        _ => random.below(20),
    };
    let words = format!("{} {}", random.byte(), bytes_word(&random.bytes(length)));
    with_cap(random, "entry", &words)
}

fn entry_edges(random: &mut Random) -> Vec<String> {
    let mut edges = Vec::new();
    for length in (0..=4).chain(HEADER_EDGES).chain([OLDER_BYTES, MOST_BYTES, 65_534, 65_535, 65_536, 65_537]) {
        let words = format!("{} {}", random.byte(), bytes_word(&random.bytes(length)));
        edges.extend(with_each_edge_cap("entry", &words));
    }
    let longest = bytes_word(&random.bytes((LONGEST_LINE - "entry 0  0".len()) / 2));
    edges.push(format!("0 {longest} 0"));
    edges.extend(odd_words());
    edges
}

pub const HEADER: Maker = Maker {
    call: "header",
    share: 4,
    random: |random| {
        let length = if random.once_in(2) { random.below(520) } else { random.below(70_000) };
        let words = format!("{} {length}", random.byte());
        with_cap(random, "header", &words)
    },
    edges: |random| {
        let long = [OLDER_BYTES, MOST_BYTES, 65_534, 65_535, 65_536, 65_537, usize::MAX];
        let lengths = (0..=2).chain(HEADER_EDGES).chain(long);
        let words = lengths.map(|length| format!("{} {length}", random.byte())).collect::<Vec<_>>();
        words.iter().flat_map(|words| with_each_edge_cap("header", words)).collect()
    },
    short: &[Family { size: 256, words: |ty| format!("{ty} {} {}", 250 + ty % 8, 1 + ty % 5) }],
};

/// This call has a word of each form, so here each odd word is tried in each place.
fn odd_words() -> Vec<String> {
    let numbers = NUMBERS.iter().chain(NO_NUMBERS);
    let odd_numbers = numbers.flat_map(|word| [format!("{word} 00 9"), format!("7 00 {word}")]);
    let odd_bytes = NO_BYTES.iter().map(|word| format!("7 {word} 9"));
    odd_numbers.chain(odd_bytes).collect()
}

pub const RAW: Maker = Maker {
    call: "raw",
    share: 16,
    random: random_raw,
    edges: raw_edges,
    short: &[Family { size: FORKED, words: |number| format!("{} {}", number % 2, bytes_word(&forked(number))) }],
};

fn random_raw(random: &mut Random) -> String {
    let bytes = dataset(random);
    let wanted = match random.below(8) {
        0 => random.byte(),
        1..=4 => random.pick(TYPES),
        5 => last_type(&bytes),
        _ => bytes.first().copied().unwrap_or(0),
    };
    format!("{wanted} {}", bytes_word(&bytes))
}

fn raw_edges(random: &mut Random) -> Vec<String> {
    with_types(&dataset_edges(random))
}

/// The words of type and dataset, for each of these; every fourth has no such type.
pub fn with_types(datasets: &[Vec<u8>]) -> Vec<String> {
    let with_type = |(number, bytes): (usize, &Vec<u8>)| {
        let wanted = if number % 4 == 0 { NO_SUCH_TYPE } else { last_type(bytes) };
        format!("{wanted} {}", bytes_word(bytes))
    };
    datasets.iter().enumerate().map(with_type).collect()
}

/// The type of a dataset's last entry; of one that is cut or empty, any.
pub fn last_type(bytes: &[u8]) -> u8 {
    let set = TlvSet::parse(bytes).unwrap_or_default();
    set.entries().last().map_or(TYPES[0], |entry| entry.ty)
}

pub fn words_of(inputs: &[Vec<u8>]) -> Vec<String> {
    inputs.iter().map(|input| bytes_word(input)).collect()
}
