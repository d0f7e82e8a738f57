//! Requests on the security policy in a mode that is named: `pol.v`, `pol.q`, `pol.thr`, `pol.set`, `pol.back`.

use meshcop::dataset::TLV_SECURITY_POLICY;

use super::Maker;
use super::about::{byte_edges, entry_edges};
use super::caps::{with_cap, with_each_edge_cap};
use super::damage::NO_NUMBERS;
use super::datasets::{TYPES, damaged, dataset_of_entries, entry, near_most_bytes, whole_dataset};
use super::framing::words_of;
use super::parts::{FLAGS, NO_VERSIONS, flags};
use super::queries::{bare_edges, query_edges};
use super::short::{Family, TWO_BYTES, in_order, lone_bit, lone_bits, string, strings};
use super::typed::{of_other_length, typed_dataset, typed_entry};
use crate::calls::VERSIONS;
use crate::random::Random;
use crate::words::bytes_word;

/// The modes, which are also the lengths that they read.
const MODES: &[usize] = &[3, 4];

/// Other numbers, words that are none, and modes with zeros before them.
const ODD_MODES: &[&str] = &["0", "2", "5", "12", "255", "256", "34", "+3", "V3", "-", "03", "00004"];

/// Where no more than so many bits of a number are kept, one that is over them may be taken for a mode.
const WIDTHS: [u32; 4] = [8, 16, 32, 64];

/// What the mode of three bytes reads, and what that of four reads.
const READ_BY_THREE: [u8; 3] = [0x02, 0xa0, 0xf8];
const READ_BY_FOUR: [u8; 4] = [0x02, 0xa0, 0xf8, 0x04];

/// The flag that means `V1Or2`, a threshold, and the ends of a byte.
const LETTERS: &[u8] = &[0x00, 0x04, 0xa0, 0xff];
/// All values of up to five of these in each mode, those of up to four first.
const LETTERED: usize = MODES.len() * strings(LETTERS.len(), 0, 5);
const FEW_LETTERED: usize = MODES.len() * strings(LETTERS.len(), 0, 4);

fn lettered(number: usize) -> String {
    in_each_mode(|number| string(LETTERS, 0, number), number)
}

/// Each flag byte of three bytes, with rotations that differ from it.
const FLAG_BYTES: usize = 256;

fn of_flag_byte(number: usize) -> String {
    let flags = number as u8;
    in_mode(3, &[!flags, flags.reverse_bits(), flags])
}

/// These flags of four bytes, with a rotation of the other bits.
fn of_flags(flags: usize) -> String {
    let flags = flags as u16;
    in_mode(4, &[(!flags).to_be_bytes(), flags.to_be_bytes()].concat())
}

/// Among some flags so many come first that have each threshold, with and without the flag that means `V1Or2`.
const THRESHOLDS: usize = 16;

fn of_some_flags(number: usize) -> String {
    of_flags(flags(number))
}

fn in_mode(mode: usize, bytes: &[u8]) -> String {
    format!("{mode} {}", bytes_word(bytes))
}

/// A member of a family of inputs, to be read in one mode after the other.
fn in_each_mode(input: fn(usize) -> Vec<u8>, number: usize) -> String {
    in_mode(MODES[number % MODES.len()], &input(number / MODES.len()))
}

pub const POL_V: Maker = Maker {
    call: "pol.v",
    share: 5,
    random: random_value,
    edges: value_edges,
    short: &[
        Family { size: LETTERED, words: lettered },
        Family { size: FLAG_BYTES, words: of_flag_byte },
        Family { size: lone_bits(3), words: |number| in_mode(3, &lone_bit(3, number)) },
        Family { size: lone_bits(4), words: |number| in_mode(4, &lone_bit(4, number)) },
    ],
};

pub const POL_THR: Maker = Maker {
    call: "pol.thr",
    share: 5,
    random: random_value,
    edges: |random| [(0..THRESHOLDS).map(of_some_flags).collect(), value_edges(random)].concat(),
    short: &[
        Family { size: LETTERED, words: lettered },
        Family { size: FLAG_BYTES, words: of_flag_byte },
        Family { size: FLAGS, words: of_some_flags },
        Family { size: TWO_BYTES, words: of_flags },
    ],
};

fn random_value(random: &mut Random) -> String {
    let mode = random.pick(MODES);
    in_mode(mode, &some_value(random))
}

/// A value that one of the modes reads, in most cases; few are of about the most bytes.
fn some_value(random: &mut Random) -> Vec<u8> {
    if random.once_in(500) {
        let bytes = near_most_bytes(random);
        return random.bytes(bytes);
    }
    policy(random)
}

fn policy(random: &mut Random) -> Vec<u8> {
    let length = random.pick(MODES);
    if random.once_in(6) { of_other_length(random, length, 16) } else { random.bytes(length) }
}

/// Values at each edge in both modes, and modes that are none.
fn value_edges(random: &mut Random) -> Vec<String> {
    let longer = [7, 8].map(|length| bytes_word(&random.bytes(length)));
    let values = [bare_edges::<TLV_SECURITY_POLICY>(random), longer.to_vec()].concat();
    [in_both_modes(&values), in_odd_modes(&[&READ_BY_THREE, &READ_BY_FOUR])].concat()
}

fn in_both_modes(all_words: &[String]) -> Vec<String> {
    all_words.iter().flat_map(|words| MODES.iter().map(move |mode| format!("{mode} {words}"))).collect()
}

fn in_odd_modes(inputs: &[&[u8]]) -> Vec<String> {
    let over = |mode: &usize| WIDTHS.map(|bits| ((1u128 << bits) + *mode as u128).to_string());
    let others = ODD_MODES.iter().chain(NO_NUMBERS).map(|word| word.to_string());
    let modes: Vec<String> = MODES.iter().flat_map(over).chain(others).collect();
    inputs.iter().flat_map(|input| modes.iter().map(|mode| format!("{mode} {}", bytes_word(input)))).collect()
}

pub const POL_SET: Maker = Maker {
    call: "pol.set",
    share: 8,
    random: |random| format!("{} {}", random_value(random), random.pick(VERSIONS).0),
    edges: set_edges,
    short: &[
        Family { size: FEW_LETTERED * VERSIONS.len(), words: |number| to_each_version(lettered, number) },
        Family { size: FLAG_BYTES * VERSIONS.len(), words: |number| to_each_version(of_flag_byte, number) },
        Family { size: FLAGS * VERSIONS.len(), words: |number| to_each_version(of_some_flags, number) },
        Family {
            size: lone_bits(4) * VERSIONS.len(),
            words: |number| to_each_version(|number| in_mode(4, &lone_bit(4, number)), number),
        },
    ],
};

/// A member of a family of values, to be set to one version after the other.
fn to_each_version(value: fn(usize) -> String, number: usize) -> String {
    format!("{} {}", value(number / VERSIONS.len()), VERSIONS[number % VERSIONS.len()].0)
}

/// Each version with values that each mode reads, in both modes; words that are no versions; and the edges of a value, with
/// the versions in turn.
fn set_edges(random: &mut Random) -> Vec<String> {
    let mut edges = Vec::new();
    for (version, _) in VERSIONS {
        let values = words_of(&[random.bytes(3), random.bytes(4)]);
        edges.extend(in_both_modes(&values).iter().map(|words| format!("{words} {version}")));
    }
    for (turn, word) in NO_VERSIONS.iter().enumerate() {
        let mode = MODES[turn % MODES.len()];
        edges.push(format!("{} {word}", in_mode(mode, &random.bytes(mode))));
    }
    let in_turn = |(turn, words): (usize, &String)| format!("{words} {}", VERSIONS[turn % VERSIONS.len()].0);
    edges.extend(value_edges(random).iter().enumerate().map(in_turn));
    edges
}

/// Outputs of no bytes up to one more than either form takes.
const CAPS: usize = 6;

pub const POL_BACK: Maker = Maker {
    call: "pol.back",
    share: 5,
    random: |random| {
        let words = random_value(random);
        with_cap(random, "pol.back", &words)
    },
    edges: |random| value_edges(random).iter().flat_map(|words| with_each_edge_cap("pol.back", words)).collect(),
    short: &[
        Family { size: FEW_LETTERED * CAPS, words: |number| to_each_cap(lettered, number) },
        Family { size: FLAG_BYTES * CAPS, words: |number| to_each_cap(of_flag_byte, number) },
    ],
};

/// A member of a family of values, with one cap after the other.
fn to_each_cap(value: fn(usize) -> String, number: usize) -> String {
    format!("{} {}", value(number / CAPS), number % CAPS)
}

/// Entries that the modes tell apart, and all datasets of up to three of them: of another type, or of this one with three
/// or four bytes and either header, none, or five.
const SHAPES: &[&[u8]] = &[
    b"\x0b\x03\x01\x02\x03",
    b"\x0c\x03\x04\x05\x06",
    b"\x0c\xff\x00\x03\x07\x08\x09",
    b"\x0c\x04\x0a\x0b\x0c\x0d",
    b"\x0c\xff\x00\x04\x0e\x0f\x10\x11",
    b"\x0c\x00",
    b"\x0c\x05\x12\x13\x14\x15\x16",
];
const SHAPED: usize = MODES.len() * strings(SHAPES.len(), 0, 3);

fn shaped(number: usize) -> String {
    in_each_mode(|number| in_order(SHAPES, number), number)
}

/// The type, the lengths and the marks where framing forks, and all inputs of up to five of them.
const FORKS: &[u8] = &[0x00, 0x03, 0x04, 0x0c, 0xff];
const FORKED: usize = MODES.len() * strings(FORKS.len(), 0, 5);

fn forked(number: usize) -> String {
    in_each_mode(|number| string(FORKS, 0, number), number)
}

pub const POL_Q: Maker = Maker {
    call: "pol.q",
    share: 12,
    random: |random| {
        let mode = random.pick(MODES);
        in_mode(mode, &some_dataset(random))
    },
    edges: policy_query_edges,
    short: &[Family { size: SHAPED, words: shaped }, Family { size: FORKED, words: forked }],
};

/// Made as for any query, at times with a policy added; or of few entries, most of them policies.
fn some_dataset(random: &mut Random) -> Vec<u8> {
    match random.below(10) {
        0..=1 => typed_dataset(random, TLV_SECURITY_POLICY),
        2..=3 => [typed_dataset(random, TLV_SECURITY_POLICY), policy_entry(random)].concat(),
        _ => {
            let whole = (0..random.between(1, 5)).flat_map(|_| some_entry(random)).collect();
            damaged(random, whole)
        }
    }
}

fn some_entry(random: &mut Random) -> Vec<u8> {
    if random.once_in(3) {
        let ty = random.pick(TYPES);
        return typed_entry(random, ty);
    }
    policy_entry(random)
}

fn policy_entry(random: &mut Random) -> Vec<u8> {
    let value = policy(random);
    entry(TLV_SECURITY_POLICY, &value, random.once_in(6))
}

/// The edges of a query, and datasets at the sizes whose last policy each mode reads, in both modes; and modes that are none.
fn policy_query_edges(random: &mut Random) -> Vec<String> {
    let mut datasets = query_edges(random, TLV_SECURITY_POLICY);
    for length in 0..=8 {
        let policy = entry(TLV_SECURITY_POLICY, &random.bytes(length), length % 2 == 0);
        datasets.push([typed_entry(random, TYPES[length]), policy].concat());
    }
    for length in MODES {
        let last = entry(TLV_SECURITY_POLICY, &random.bytes(*length), false);
        for bytes in byte_edges() {
            datasets.push([whole_dataset(random, 3, bytes - last.len()), last.clone()].concat());
        }
        for entries in entry_edges() {
            datasets.push([dataset_of_entries(random, entries - 1), last.clone()].concat());
        }
    }
    let read_by_three = entry(TLV_SECURITY_POLICY, &READ_BY_THREE, false);
    let read_by_four = entry(TLV_SECURITY_POLICY, &READ_BY_FOUR, false);
    [in_both_modes(&words_of(&datasets)), in_odd_modes(&[&read_by_three, &read_by_four])].concat()
}
