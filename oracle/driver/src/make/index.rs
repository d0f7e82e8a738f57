//! Requests on the index beside a dataset: `index`, `ixload`, `ixquery`, `ixlook`, `ixset`, `ixremove`.

use super::Maker;
use super::caps::{with_cap, with_caps_of_both};
use super::changes::two_words;
use super::datasets::{dataset, entry};
use super::edits::{FEW_SHAPED, SHAPED, SHAPED_TYPE, set_words, shaped, some_set, some_type};
use super::framing::{FORKED, forked};
use super::index_edges::{index_edges, ixload_edges, ixlook_edges, ixquery_edges, ixremove_edges, ixset_edges};
use super::indexes::{index_beside, own_index, type_there, with_slot};
use super::short::{Family, TWO_BYTES, ZERO_OR_ONE_BYTE, string, strings, two_bytes, zero_or_one_byte};
use super::typed::typed_dataset;
use crate::calls::INDEX_BYTES;
use crate::random::Random;
use crate::words::{bytes_of, bytes_word};

/// The lengths where framing forks, in fewer bytes than elsewhere, since each line here has a whole index.
const FORKS: &[u8] = &[0x00, 0x01, 0xff];
const FEW_FORKED: usize = strings(FORKS.len(), 0, 4);

fn few_forked(number: usize) -> Vec<u8> {
    string(FORKS, 0, number)
}

pub const INDEX: Maker = Maker {
    call: "index",
    share: 10,
    random: |random| {
        let words = bytes_word(&dataset(random));
        with_cap(random, "index", &words)
    },
    edges: index_edges,
    short: &[
        Family { size: ZERO_OR_ONE_BYTE, words: |number| with_cap_in_turn(number, &zero_or_one_byte(number)) },
        Family { size: FORKED, words: |number| with_cap_in_turn(number, &forked(number)) },
        Family { size: SHAPED, words: |number| with_cap_in_turn(number, &shaped(number)) },
        Family { size: 2 * 256, words: |number| with_cap_in_turn(number, &of_each_type(number).1) },
        Family { size: TWO_BYTES, words: |number| with_cap_in_turn(number, &two_bytes(number)) },
    ],
};

/// Most have just the room that they need. Seven has no divisor in common with the letters of any family here.
fn with_cap_in_turn(number: usize, dataset: &[u8]) -> String {
    format!("{} {}", bytes_word(dataset), index_cap_in_turn(number))
}

fn index_cap_in_turn(number: usize) -> usize {
    match number % 7 {
        0 => INDEX_BYTES - 1,
        1 => INDEX_BYTES + 1,
        _ => INDEX_BYTES,
    }
}

/// Each type, and a dataset that has it or has not.
fn of_each_type(number: usize) -> (u8, Vec<u8>) {
    let ty = (number / 2) as u8;
    let asked = if number % 2 == 0 { ty } else { ty ^ 1 };
    (ty, [entry(asked, b"A", true), entry(!ty, b"", false), entry(asked, b"BC", false)].concat())
}

pub const IXLOAD: Maker = Maker {
    call: "ixload",
    share: 12,
    random: |random| {
        let (ty, dataset) = asked(random);
        two_words(&dataset, &index_beside(random, ty, &dataset))
    },
    edges: ixload_edges,
    short: &[
        Family { size: ZERO_OR_ONE_BYTE, words: |number| with_own(&zero_or_one_byte(number)) },
        Family { size: FEW_FORKED, words: |number| with_own(&few_forked(number)) },
        Family { size: SHAPED, words: |number| with_own(&shaped(number)) },
        Family { size: 2 * 256, words: |number| with_own(&of_each_type(number).1) },
        // The index of each beside each.
        Family {
            size: FEW_SHAPED * FEW_SHAPED,
            words: |number| two_words(&shaped(number / FEW_SHAPED), &own_index(&shaped(number % FEW_SHAPED))),
        },
        Family { size: INDEX_BYTES, words: with_byte_changed },
    ],
};

/// A dataset and its own index.
fn with_own(dataset: &[u8]) -> String {
    two_words(dataset, &own_index(dataset))
}

/// Each byte of an index, a bit of it turned.
fn with_byte_changed(place: usize) -> String {
    let dataset = [3, 1, 65, 7, 0, 3, 255, 0, 1, 66, 0, 0, 255, 0];
    let mut index = own_index(&dataset);
    index[place] ^= 1 << (place % 8);
    two_words(&dataset, &index)
}

pub const IXQUERY: Maker = Maker {
    call: "ixquery",
    share: 14,
    random: |random| {
        let (ty, dataset) = asked(random);
        words_beside(random, ty, &dataset)
    },
    edges: ixquery_edges,
    short: &[
        Family { size: ZERO_OR_ONE_BYTE, words: |number| typed_words(0, &zero_or_one_byte(number)) },
        Family { size: FEW_FORKED, words: |number| typed_words(FORKS[number % 3], &few_forked(number)) },
        Family { size: SHAPED, words: |number| typed_words(SHAPED_TYPE, &shaped(number)) },
        Family { size: 2 * 256, words: words_of_each_type },
    ],
};

/// A type, a dataset and its own index.
fn typed_words(ty: u8, dataset: &[u8]) -> String {
    format!("{ty} {}", with_own(dataset))
}

fn words_of_each_type(number: usize) -> String {
    let (ty, dataset) = of_each_type(number);
    typed_words(ty, &dataset)
}

/// A type to ask for, and a dataset that has it in most cases.
fn asked(random: &mut Random) -> (u8, Vec<u8>) {
    let ty = some_type(random);
    let dataset = if random.once_in(4) { dataset(random) } else { typed_dataset(random, ty) };
    let wanted = match random.below(8) {
        0 => random.byte(),
        1..=2 => ty,
        _ => type_there(random, &dataset).unwrap_or(ty),
    };
    (wanted, dataset)
}

/// A type, a dataset, and an index beside it.
fn words_beside(random: &mut Random, ty: u8, dataset: &[u8]) -> String {
    format!("{ty} {}", two_words(dataset, &index_beside(random, ty, dataset)))
}

pub const IXLOOK: Maker = Maker {
    call: "ixlook",
    share: 18,
    random: |random| match random.below(3) {
        0 => looked_for_anywhere(random),
        _ => {
            let (ty, dataset) = asked(random);
            words_beside(random, ty, &dataset)
        }
    },
    edges: ixlook_edges,
    short: &[
        Family { size: ZERO_OR_ONE_BYTE, words: |number| look_at_start(&zero_or_one_byte(number)) },
        Family { size: FEW_FORKED * FORKS.len() * 5, words: each_place },
        Family { size: SHAPED, words: |number| typed_words(SHAPED_TYPE, &shaped(number)) },
        Family { size: 2 * 256, words: words_of_each_type },
    ],
};

/// A type that the index says there is one of, at this place.
fn look_words(ty: u8, place: u16, dataset: &[u8]) -> String {
    format!("{ty} {}", two_words(dataset, &with_slot(ty, [1, place], own_index(dataset))))
}

/// The type whose byte stands first.
fn look_at_start(dataset: &[u8]) -> String {
    look_words(dataset.first().copied().unwrap_or(0), 0, dataset)
}

/// Each type of these and each place, up to four, in each dataset of up to four bytes.
fn each_place(number: usize) -> String {
    let (number, place) = (number / 5, number % 5);
    look_words(FORKS[number % FORKS.len()], place as u16, &few_forked(number / FORKS.len()))
}

/// At any place, which need not be that of an entry, most often the type whose byte stands there. Datasets inside a value
/// have entries that only such a place leads to.
fn looked_for_anywhere(random: &mut Random) -> String {
    let mut dataset = asked(random).1;
    if random.once_in(2) {
        dataset = [entry(some_type(random), &dataset, random.once_in(4)), asked(random).1].concat();
    }
    let place = if random.once_in(8) { dataset.len() + random.below(3) } else { random.below(dataset.len()) };
    let there = dataset.get(place).copied().filter(|_| !random.once_in(8));
    let ty = there.unwrap_or_else(|| some_type(random));
    let index = with_slot(ty, [random.pick(&[1, 1, 1, 2, 256, 0xffff, 0]), place as u16], own_index(&dataset));
    if random.once_in(4) {
        dataset.truncate(place + random.below(8));
    }
    format!("{ty} {}", two_words(&dataset, &index))
}

pub const IXSET: Maker = Maker {
    call: "ixset",
    share: 24,
    random: |random| {
        let words = some_set(random);
        let (ty, dataset) = type_and_dataset(&words);
        let words = format!("{words} {}", bytes_word(&index_beside(random, ty, &dataset)));
        with_caps_of_both(random, "ixset", &words)
    },
    edges: ixset_edges,
    short: &[
        Family { size: SHAPED, words: |number| set_in_turn(number, SHAPED_TYPE, b"", &shaped(number)) },
        Family { size: SHAPED, words: |number| set_in_turn(number, SHAPED_TYPE, b"D", &shaped(number)) },
        Family { size: 256, words: |ty| set_in_turn(ty, ty as u8, b"D", &[3, 1, 65, 7, 0, 12, 0]) },
    ],
};

/// The type and the dataset of words that begin with the one and end with the other.
pub fn type_and_dataset(words: &str) -> (u8, Vec<u8>) {
    let (ty, _) = words.split_once(' ').expect("two words or more");
    let (_, dataset) = words.rsplit_once(' ').expect("two words or more");
    (ty.parse().expect("a type"), bytes_of(dataset.as_bytes()).expect("bytes"))
}

/// With room for the results of most.
fn set_in_turn(number: usize, ty: u8, value: &[u8], dataset: &[u8]) -> String {
    let words = format!("{} {}", set_words(ty, value, dataset), bytes_word(&own_index(dataset)));
    format!("{words} {} {}", 6 + number % 5, index_cap_in_turn(number))
}

pub const IXREMOVE: Maker = Maker {
    call: "ixremove",
    share: 14,
    random: |random| {
        let (ty, dataset) = asked(random);
        let words = words_beside(random, ty, &dataset);
        with_caps_of_both(random, "ixremove", &words)
    },
    edges: ixremove_edges,
    short: &[
        Family { size: SHAPED, words: |number| remove_in_turn(number, SHAPED_TYPE, &shaped(number)) },
        Family { size: 256, words: |ty| remove_in_turn(ty, ty as u8, &[3, 1, 65, 7, 0, 12, 0]) },
    ],
};

/// With room for the results of most.
fn remove_in_turn(number: usize, ty: u8, dataset: &[u8]) -> String {
    format!("{} {} {}", typed_words(ty, dataset), 3 + number % 5, index_cap_in_turn(number))
}
