//! Requests on the typed values of a dataset, `q.KIND`, and on such values by themselves, `v.KIND`.

use meshcop::dataset::{TLV_CHANNEL_MASK, TLV_NETWORK_NAME, TLV_PSKC};

use super::Maker;
use super::about::{byte_edges, entry_edges, some_most_bytes};
use super::datasets::{entry, without_last};
use super::framing::words_of;
use super::masks::ITEM_FORKS;
use super::names::{FOUR_BYTES, THREE_BOUNDARY_BYTES, four_bytes, three_boundary_bytes};
use super::short::{
    Family, TWO_BYTES, ZERO_OR_ONE_BYTE, lone_bit, lone_bits, string, strings, two_bytes, zero_or_one_byte,
};
use super::typed::{
    Rule, bytes_ending_in, entries_ending_in, fitting, misfit, rule_of, typed_dataset, value, value_edges,
    value_of_size,
};
use crate::random::Random;
use crate::sizes::{MOST_BYTES, OLDER_BYTES};
use crate::words::bytes_word;

/// The maker for the query of a type.
pub const fn query<const TY: u8>(call: &'static str) -> Maker {
    Maker {
        call,
        share: 6,
        random: |random| bytes_word(&typed_dataset(random, TY)),
        edges: |random| words_of(&query_edges(random, TY)),
        short: &[Family { size: SHAPED, words: |number| bytes_word(&shaped(TY, number)) }],
    }
}

/// Entries that a query tells apart, by a letter each, and all datasets of up to three of them: of another type, or of
/// its own with a value that fits, is shorter, is longer, fits but has the long header, or is empty.
const SHAPES: &[u8] = b"ofslh-";
const SHAPED: usize = strings(SHAPES.len(), 0, 3);

fn shaped(ty: u8, number: usize) -> Vec<u8> {
    let fits = match rule_of(ty) {
        Rule::Length(length) => (1..=length as u8).collect(),
        Rule::MaskItems => vec![0, 1, 0xaa],
        Rule::Utf8 | Rule::Any => "\u{e9}".as_bytes().to_vec(),
    };
    // A byte that no item or character ends with.
    let longer = [&fits[..], &[0xc3]].concat();
    let shape = |letter| match letter {
        b'o' => entry(ty + 1, &fits, false),
        b'f' => entry(ty, &fits, false),
        b's' => entry(ty, &fits[..fits.len() - 1], false),
        b'l' => entry(ty, &longer, false),
        b'h' => entry(ty, &fits, true),
        _ => entry(ty, &[], false),
    };
    string(SHAPES, 0, number).into_iter().flat_map(shape).collect()
}

/// Datasets with each value at a boundary, with values that fit and do not, and at the sizes.
pub fn query_edges(random: &mut Random, ty: u8) -> Vec<Vec<u8>> {
    let mut edges = Vec::new();
    for (number, value) in value_edges(random, ty).iter().enumerate() {
        let before = entry(ty, &fitting(random, ty), number % 3 == 0);
        let asked = entry(ty, value, number % 2 == 0);
        edges.push(if number % 4 == 0 { asked } else { [before, asked].concat() });
    }
    for (first, last) in [(fitting(random, ty), misfit(random, ty)), (misfit(random, ty), fitting(random, ty))] {
        let both = [entry(ty, &first, false), entry(ty, &last, true)].concat();
        edges.push(without_last(both.clone()));
        edges.push(both);
    }
    for bytes in byte_edges() {
        edges.push(bytes_ending_in(random, ty, bytes));
    }
    for bytes in [MOST_BYTES, OLDER_BYTES + 1] {
        edges.push(entry(ty, &value_of_size(random, ty, bytes - 4), true));
    }
    for entries in entry_edges() {
        let whole = entries_ending_in(random, ty, entries);
        edges.push([&whole[..], &[ty]].concat());
        edges.push(whole);
    }
    edges
}

/// The maker for bare values of a type that has a length. Each bit of such a value is tried.
pub const fn bare<const TY: u8>(call: &'static str) -> Maker {
    Maker {
        call,
        share: 3,
        random: random_bare::<TY>,
        edges: bare_edges::<TY>,
        short: const {
            &[Family { size: lone_bits(length_of(TY)), words: |number| bytes_word(&lone_bit(length_of(TY), number)) }]
        },
    }
}

const fn length_of(ty: u8) -> usize {
    match rule_of(ty) {
        Rule::Length(length) => length,
        _ => panic!("values of this type have no length of their own"),
    }
}

pub const V_NAME: Maker = Maker {
    call: "v.name",
    share: 10,
    random: random_bare::<TLV_NETWORK_NAME>,
    edges: bare_edges::<TLV_NETWORK_NAME>,
    short: &[
        Family { size: ZERO_OR_ONE_BYTE, words: |number| bytes_word(&zero_or_one_byte(number)) },
        Family { size: TWO_BYTES, words: |number| bytes_word(&two_bytes(number)) },
        Family { size: THREE_BOUNDARY_BYTES, words: |number| bytes_word(&three_boundary_bytes(number)) },
        Family { size: FOUR_BYTES, words: |number| bytes_word(&four_bytes(number)) },
    ],
};

pub const V_PSKC: Maker = Maker {
    call: "v.pskc",
    share: 2,
    random: random_bare::<TLV_PSKC>,
    edges: bare_edges::<TLV_PSKC>,
    short: &[Family { size: ZERO_OR_ONE_BYTE, words: |number| bytes_word(&zero_or_one_byte(number)) }],
};

pub const V_MASK: Maker = Maker {
    call: "v.mask",
    share: 6,
    random: random_bare::<TLV_CHANNEL_MASK>,
    edges: bare_edges::<TLV_CHANNEL_MASK>,
    short: &[Family {
        size: strings(ITEM_FORKS.len(), 0, 4),
        words: |number| bytes_word(&string(ITEM_FORKS, 0, number)),
    }],
};

fn random_bare<const TY: u8>(random: &mut Random) -> String {
    if random.once_in(500) {
        let most = some_most_bytes(random);
        let bytes = random.between(most - 1, most + 3);
        return bytes_word(&value_of_size(random, TY, bytes));
    }
    bytes_word(&value(random, TY))
}

pub fn bare_edges<const TY: u8>(random: &mut Random) -> Vec<String> {
    let mut edges = value_edges(random, TY);
    for bytes in byte_edges() {
        edges.push(value_of_size(random, TY, bytes));
    }
    // As long as may be, and its last item or character cut.
    edges.push([value_of_size(random, TY, MOST_BYTES - 1), vec![0xc3]].concat());
    words_of(&edges)
}
