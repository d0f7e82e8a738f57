//! Requests on diagnostic values and payloads: `d.TYPE`, `nd`, `diag`, `timeout`.

use super::Maker;
use super::about::{byte_edges, some_most_bytes};
use super::caps::{with_each_edge_tables, with_edge_tables_in_turn, with_tables};
use super::datasets::{damaged, entry};
use super::diag_values::{CHILD_ADDRESSES, CHILD_TABLE, common_length, value, value_edges, value_of_size};
use super::framing::words_of;
use super::network::{bare_prefix, item, long_network_data, network_data_edges};
use super::payloads::{payload, payload_edges};
use super::short::{Family, ZERO_OR_ONE_BYTE, in_order, lone_bit, lone_bits, string, strings, zero_or_one_byte};
use crate::random::Random;
use crate::rules::NETWORK_DATA;
use crate::words::bytes_word;

/// The maker for bare values of a type. Each bit of one that fits is tried, and all values of its first byte.
pub const fn bare<const TY: u8>(call: &'static str) -> Maker {
    Maker {
        call,
        share: 4,
        random: random_bare::<TY>,
        edges: bare_edges::<TY>,
        short: const {
            &[
                Family { size: ZERO_OR_ONE_BYTE, words: |number| bytes_word(&zero_or_one_byte(number)) },
                Family { size: 256, words: |first| bytes_word(&with_first(common_length(TY), first as u8)) },
                Family {
                    size: lone_bits(common_length(TY)),
                    words: |number| bytes_word(&lone_bit(common_length(TY), number)),
                },
            ]
        },
    }
}

fn with_first(length: usize, first: u8) -> Vec<u8> {
    let mut bytes = vec![0; length];
    bytes[0] = first;
    bytes
}

fn random_bare<const TY: u8>(random: &mut Random) -> String {
    if random.once_in(500) {
        let most = some_most_bytes(random);
        let bytes = random.between(most - 1, most + 3);
        return bytes_word(&value_of_size(random, TY, bytes));
    }
    bytes_word(&value(random, TY, 4))
}

fn bare_edges<const TY: u8>(random: &mut Random) -> Vec<String> {
    let mut edges = value_edges(random, TY);
    for bytes in byte_edges() {
        edges.push(value_of_size(random, TY, bytes));
    }
    words_of(&edges)
}

pub const ROUTE64: Maker = Maker {
    short: &[
        Family { size: 64 * 4, words: |number| bytes_word(&one_route(number % 64, 0x55 * (number / 64) as u8)) },
        Family { size: 256, words: |route| bytes_word(&one_route(0, route as u8)) },
        Family { size: 8 * 256, words: |number| bytes_word(&routes_of_byte(number % 8, number / 8)) },
    ],
    ..bare::<5>("d.5")
};

/// One router, and its route byte.
fn one_route(router: usize, route: u8) -> Vec<u8> {
    [&[7], &(1u64 << (63 - router)).to_be_bytes()[..], &[route]].concat()
}

/// The routers of one byte of the mask, which stands at one of its eight places; their route bytes number them.
fn routes_of_byte(place: usize, byte: usize) -> Vec<u8> {
    let mut value = with_first(9, byte as u8);
    value[1 + place] = byte as u8;
    value.extend(0..byte.count_ones() as u8);
    value
}

pub const CHILDREN: Maker = Maker {
    short: &[
        Family { size: strings(3, 0, 7), words: |number| bytes_word(&string(&[0x00, 0x81, 0xff], 0, number)) },
        Family { size: 256, words: |first| format!("{first:02x}050f") },
        Family { size: 256, words: |mode| format!("8105{mode:02x}") },
        Family { size: 512, words: |id| format!("{:02x}{:02x}08", 0x80 + id / 256, id % 256) },
    ],
    ..bare::<CHILD_TABLE>("d.16")
};

pub const ADDRESSES: Maker = Maker {
    short: &[
        Family { size: ZERO_OR_ONE_BYTE, words: |number| bytes_word(&zero_or_one_byte(number)) },
        Family { size: lone_bits(18), words: |number| bytes_word(&lone_bit(18, number)) },
        // All child IDs, of several parents.
        Family { size: 4_096, words: |number| format!("{:04x}", number * 16 + number / 256) },
    ],
    ..bare::<CHILD_ADDRESSES>("d.30")
};

/// Network Data types and lengths where the decoding forks, in as few bytes as show it.
const FORKS: &[u8] = &[0x00, 0x01, 0x02, 0x03, 0x04];
/// The same inside a prefix.
const INNER_FORKS: &[u8] = &[0x00, 0x01, 0x02, 0x03, 0x04, 0x06];

pub const ND: Maker = Maker {
    call: "nd",
    share: 32,
    random: random_nd,
    edges: nd_edges,
    short: &[
        Family { size: ZERO_OR_ONE_BYTE, words: |number| format!("{} 1 1 1", bytes_word(&zero_or_one_byte(number))) },
        // Each type byte, outside and inside a prefix.
        Family { size: 256, words: |ty| format!("{ty:02x}020000 {} 0 0", ty % 3) },
        Family { size: 256, words: |ty| format!("02060000{ty:02x}02abcd 1 1 1") },
        // Each byte of flags.
        Family { size: 256, words: |flags| format!("0207000000032801{flags:02x} 1 1 0") },
        Family { size: 256, words: |flags| format!("0208000004042801{flags:02x}{:02x} 1 0 1", 255 - flags) },
        Family { size: 256, words: |flags| format!("020600000602{flags:02x}{:02x} 1 0 0", 255 - flags) },
        Family {
            size: strings(INNER_FORKS.len(), 0, 5),
            words: |number| {
                let value = bare_prefix(&string(INNER_FORKS, 0, number));
                format!("{} 1 {} {}", bytes_word(&value), 1 - number / 7 % 2, number / 3 % 2)
            },
        },
        Family {
            size: strings(FORKS.len(), 2, 6),
            words: |number| format!("{} {} 0 0", bytes_word(&string(FORKS, 2, number)), 1 + number % 3),
        },
    ],
};

fn random_nd(random: &mut Random) -> String {
    let whole = if random.once_in(600) {
        let most = some_most_bytes(random);
        let bytes = random.between(most - 1, most + 3);
        value_of_size(random, NETWORK_DATA, bytes)
    } else {
        value(random, NETWORK_DATA, 3)
    };
    let value = if random.once_in(4) { damaged(random, whole) } else { whole };
    with_tables(random, "nd", &bytes_word(&value))
}

fn nd_edges(random: &mut Random) -> Vec<String> {
    let mut all_words = words_of(&network_data_edges(random));
    all_words.extend(words_of(&long_network_data(random)));
    let mut edges = with_edge_tables_in_turn("nd", &all_words);
    for words in words_of(&fullest(random)) {
        edges.extend(with_each_edge_tables("nd", &words));
    }
    edges
}

pub const DIAG: Maker = Maker {
    call: "diag",
    share: 48,
    random: |random| {
        let words = bytes_word(&payload(random));
        with_tables(random, "diag", &words)
    },
    edges: diag_edges,
    short: &[
        Family { size: ZERO_OR_ONE_BYTE, words: |number| format!("{} 0 0 0", bytes_word(&zero_or_one_byte(number))) },
        Family {
            size: 256 * LENGTHS,
            words: |number| {
                let (ty, length) = (number / LENGTHS, number % LENGTHS);
                format!("{} 0 0 0", bytes_word(&[&[ty as u8, length as u8], &vec![0; length][..]].concat()))
            },
        },
        Family { size: ORDERED, words: |number| format!("{} 1 0 0", bytes_word(&in_order(SHAPES, number))) },
    ],
};

/// Each type is tried with so many lengths.
const LENGTHS: usize = 19;

/// Entries that a decoding tells apart, and all payloads of up to three of them: of types that stand once, twice or are
/// gathered, that fit, are too long or have a fault inside, and of a type that is not known.
const SHAPES: &[&[u8]] = &[
    &[1, 2, 0x28, 1],
    &[1, 3, 0, 0, 0],
    &[7, 0],
    &[7, 4, 2, 2, 0, 0],
    &[7, 3, 2, 1, 0],
    &[7, 255, 0, 7, 2, 5, 0, 0, 0, 1, 0],
    &[30, 2, 0x28, 1],
    &[30, 1, 0],
    &[19, 1, 7],
];
const ORDERED: usize = strings(SHAPES.len(), 0, 3);

fn diag_edges(random: &mut Random) -> Vec<String> {
    let mut edges = with_edge_tables_in_turn("diag", &words_of(&payload_edges(random)));
    for value in fullest(random) {
        let words = bytes_word(&entry(NETWORK_DATA, &value, false));
        edges.extend(with_each_edge_tables("diag", &words));
    }
    edges
}

/// Network Data with as much as may be of each kind of row, and of all at once; and with one of each.
fn fullest(random: &mut Random) -> Vec<Vec<u8>> {
    let few = bare_prefix(&[item(0, &random.bytes(3)), item(4, &random.bytes(4))].concat());
    let prefixes = bare_prefix(&[]).repeat(64);
    let routes = [bare_prefix(&item(0, &random.bytes(83 * 3))), bare_prefix(&item(1, &random.bytes(13 * 3)))].concat();
    let borders = [bare_prefix(&item(4, &random.bytes(62 * 4))), bare_prefix(&item(5, &random.bytes(34 * 4)))].concat();
    let all = [&prefixes[..60 * 4], &routes, &borders].concat();
    vec![few, prefixes, routes, borders, all]
}

pub const TIMEOUT: Maker = Maker {
    call: "timeout",
    share: 1,
    random: |random| random.byte().to_string(),
    edges: |_| ["256", "031", "4294967300"].map(str::to_string).to_vec(),
    short: &[Family { size: 256, words: |exponent| exponent.to_string() }],
};
