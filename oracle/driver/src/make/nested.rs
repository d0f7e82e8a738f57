//! Requests on the nested listing: `nested`.

use super::Maker;
use super::caps::{need_of, with_cap};
use super::datasets::{damaged, entry, of_each_size};
use super::diag_values::{TYPES, value};
use super::nested_edges::nested_edges;
use super::network::{bare_prefix, faulty_network_data, item, network_data};
use super::payloads::payload;
use super::short::{Family, ZERO_OR_ONE_BYTE, in_order, string, strings, zero_or_one_byte};
use crate::random::Random;
use crate::rules::NETWORK_DATA;
use crate::rules::network_tlvs::PREFIX;
use crate::words::bytes_word;

/// Types and lengths where the framing of a payload with Network Data forks, in as few bytes as show it.
const ENTRY_FORKS: &[u8] = &[0x00, 0x01, 0x02, 0x07, 0xff];
/// The same inside Network Data, of bit lengths too; more of them, for shorter values.
const FORKS: &[u8] = &[0x00, 0x01, 0x02, 0x03, 0x09];
const MORE_FORKS: &[u8] = &[0x00, 0x01, 0x02, 0x03, 0x08, 0x09, 0x40, 0xff];
/// The same inside a prefix.
const INNER_FORKS: &[u8] = &[0x00, 0x01, 0x02, 0x03, 0xff];

/// A list as Network Data, as the value of a prefix, and by its looks wherever it is not opened.
pub const LIST_ANYWHERE: &[u8] = &[0, 0, PREFIX, 2, 0, 0];

pub const NESTED: Maker = Maker {
    call: "nested",
    share: 24,
    random: random_nested,
    edges: nested_edges,
    short: &[
        Family { size: ZERO_OR_ONE_BYTE, words: |number| with_cap_in_turn(number, &zero_or_one_byte(number)) },
        Family {
            size: strings(ENTRY_FORKS.len(), 2, 5),
            words: |number| with_cap_in_turn(number, &string(ENTRY_FORKS, 2, number)),
        },
        Family {
            size: strings(FORKS.len(), 0, 6),
            words: |number| with_cap_in_turn(number, &opened(&string(FORKS, 0, number))),
        },
        Family {
            size: strings(MORE_FORKS.len(), 0, 4),
            words: |number| with_cap_in_turn(number, &opened(&string(MORE_FORKS, 0, number))),
        },
        Family {
            size: strings(INNER_FORKS.len(), 0, 5),
            words: |number| with_cap_in_turn(number, &opened(&bare_prefix(&string(INNER_FORKS, 0, number)))),
        },
        Family { size: 4 * 256, words: |number| with_cap_in_turn(number, &opened(&prefix_of_bits(number))) },
        Family { size: 3 * 256, words: |number| with_cap_in_turn(number, &each_type(number)) },
        Family {
            size: strings(TLV_SHAPES.len(), 0, 4),
            words: |number| with_cap_in_turn(number, &opened(&in_order(TLV_SHAPES, number))),
        },
        Family {
            size: strings(ENTRY_SHAPES.len(), 0, 3),
            words: |number| with_cap_in_turn(number, &in_order(ENTRY_SHAPES, number)),
        },
    ],
};

/// TLVs of Network Data that a listing tells apart, and all values of up to four of them: other ones, also of type 7,
/// prefixes with nothing inside, something, and a cut after it, too short ones, and such as are cut.
const TLV_SHAPES: &[&[u8]] = &[
    &[0, 0],
    &[14, 2, 2, 0],
    &[3, 2, 0, 0],
    &[2, 4, 0, 0, 6, 0],
    &[3, 5, 0, 0, 0, 0, 4],
    &[2, 0],
    &[2, 3, 7, 9, 0xfd],
    &[9, 3, 0],
    &[3],
];

/// Entries that a listing tells apart, and all payloads of up to three of them: Network Data that is empty, whole or cut
/// on either level, other types, and such as are cut.
const ENTRY_SHAPES: &[&[u8]] = &[
    &[7, 0],
    &[7, 255, 0, 4, 2, 2, 0, 0],
    &[7, 5, 3, 3, 0, 0, 9],
    &[7, 4, 2, 0, 0, 0],
    &[7, 1, 2],
    &[1, 2, 2, 0],
    &[19, 255, 0, 0],
    &[7, 3, 0],
    &[7],
];
/// So many of these, the first ones, are whole.
const WHOLE_ENTRIES: usize = 7;

/// A payload of one Network Data value.
pub fn opened(value: &[u8]) -> Vec<u8> {
    entry(NETWORK_DATA, value, false)
}

/// Most have just the room that they need. Seven has no divisor in common with the letters of any family here.
fn with_cap_in_turn(number: usize, payload: &[u8]) -> String {
    let words = bytes_word(payload);
    let need = need_of("nested", &words).unwrap_or(9);
    let cap = match number % 7 {
        0 => need.saturating_sub(1),
        1 => need + 1,
        _ => need,
    };
    format!("{words} {cap}")
}

/// A prefix of each bit length, cut by a byte, just whole, or with one or two bytes inside; and another after it.
fn prefix_of_bits(number: usize) -> Vec<u8> {
    let bits = number / 4;
    let value = [&[0, bits as u8], &[0; 34][..]].concat();
    let length = 1 + bits.div_ceil(8) + number % 4;
    [item(PREFIX, &value[..length]), item(PREFIX + 1, &[0, 0])].concat()
}

/// Each type byte on each level.
fn each_type(number: usize) -> Vec<u8> {
    let ty = (number / 3) as u8;
    match number % 3 {
        0 => entry(ty, LIST_ANYWHERE, false),
        1 => opened(&item(ty, LIST_ANYWHERE)),
        _ => opened(&bare_prefix(&item(ty, LIST_ANYWHERE))),
    }
}

fn random_nested(random: &mut Random) -> String {
    let payload = match random.below(8) {
        0 => payload(random),
        1 => {
            let whole = payload_of_lists(random);
            damaged(random, whole)
        }
        _ => payload_of_lists(random),
    };
    with_cap(random, "nested", &bytes_word(&payload))
}

/// A payload that is framed, most of it Network Data: most are small, some of about the most entries, few of
/// about the most bytes.
fn payload_of_lists(random: &mut Random) -> Vec<u8> {
    of_each_size(random, 3, lists_of_bytes, lists_of_entries, few_lists)
}

fn few_lists(random: &mut Random) -> Vec<u8> {
    let entries = random.below(6);
    (0..entries).flat_map(|_| entry_of_lists(random)).collect()
}

/// So many short entries, one of them any.
fn lists_of_entries(random: &mut Random, entries: usize) -> Vec<u8> {
    let special = random.below(entries);
    let one = |number| match number {
        _ if number == special => entry_of_lists(random),
        _ => random.pick(&ENTRY_SHAPES[..WHOLE_ENTRIES]).to_vec(),
    };
    (0..entries).flat_map(one).collect()
}

/// Exactly so many entries and bytes, the last entry with nearly all of them.
fn lists_of_bytes(random: &mut Random, entries: usize, bytes: usize) -> Vec<u8> {
    let mut payload: Vec<u8> = (1..entries).flat_map(|_| [random.pick(&[NETWORK_DATA, 0, 19]), 0]).collect();
    let length = bytes - payload.len() - 4;
    let mut value = Vec::new();
    while value.len() < length {
        value.extend(lists(random));
    }
    payload.extend(entry(NETWORK_DATA, &value[..length], true));
    payload
}

/// Most are Network Data. Others have lists as well, which are not opened, or what their type asks for.
fn entry_of_lists(random: &mut Random) -> Vec<u8> {
    let ty = match random.below(8) {
        0 => random.byte(),
        1 => random.pick(TYPES),
        _ => NETWORK_DATA,
    };
    let value = if ty == NETWORK_DATA || random.once_in(2) { lists(random) } else { value(random, ty, 24) };
    entry(ty, &value, random.once_in(6))
}

/// Network Data that is whole, has a fault inside, or is damaged, and any few bytes.
fn lists(random: &mut Random) -> Vec<u8> {
    match random.below(10) {
        0..=2 => network_data(random),
        3..=6 => faulty_network_data(random),
        7..=8 => {
            let whole = network_data(random);
            damaged(random, whole)
        }
        _ => {
            let length = random.below(12);
            (0..length).map(|_| random.pick(MORE_FORKS)).collect()
        }
    }
}
