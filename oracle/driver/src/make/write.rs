//! Requests on the writing of records: `write`.

use super::Maker;
use super::caps::{MUCH, with_cap_before};
use super::field_faults::spoil_fields;
use super::fields::{decoded_words, good_fields, words_of_fields};
use super::payloads::payload;
use super::write_edges::edges;
use super::write_short::SHORT;
use crate::random::Random;

/// One request in so many has a character changed in its fields.
const CHANGED_ONCE_IN: usize = 30;

pub const WRITE: Maker = Maker { call: "write", share: 48, random: random_write, edges, short: SHORT };

/// What the Rust decodes of a payload, or a record made of fields, of which half have faults.
fn random_write(random: &mut Random) -> String {
    let fields = if random.once_in(2) {
        decoded_words(random, payload)
    } else {
        let mut fields = good_fields(random);
        if random.once_in(2) {
            spoil_fields(random, &mut fields);
        }
        words_of_fields(&fields)
    };
    if random.once_in(CHANGED_ONCE_IN) {
        return format!("{} {}", random.below(400), with_change(random, &fields));
    }
    if random.once_in(3) { format!("{MUCH} {fields}") } else { with_cap_before(random, &fields) }
}

/// Characters that fields are made of, and some that they are not.
const CHARACTERS: &[&str] = &["-", ",", ":", "/", "|", ".", "=", "0", "1", "2", "9", "a", "f", "A", "+", " "];

/// A character more, one less, or another; or two words in each other's places, or one of them twice. What comes out can in
/// some cases be read all the same.
fn with_change(random: &mut Random, fields: &str) -> String {
    let place = random.below(fields.len());
    let (before, after) = fields.split_at(place);
    let words: Vec<&str> = fields.split(' ').collect();
    match random.below(6) {
        0 => format!("{before}{}", &after[1..]),
        1 => format!("{before}{}{after}", random.pick(CHARACTERS)),
        2 => format!("{before}{}{}", random.pick(CHARACTERS), &after[1..]),
        3 => with_leading_zero(random, fields),
        4 => words.iter().rev().copied().collect::<Vec<_>>().join(" "),
        _ => [&words[..], &[random.pick(&words)]].concat().join(" "),
    }
}

/// Zeros in front of what follows one of the marks.
fn with_leading_zero(random: &mut Random, fields: &str) -> String {
    let marks: Vec<usize> = fields.match_indices(['=', ',', ':', '/', '|', '.']).map(|(place, _)| place).collect();
    if marks.is_empty() {
        return format!("0{fields}");
    }
    let (before, after) = fields.split_at(random.pick(&marks) + 1);
    format!("{before}{}{after}", random.pick(&["0", "00", "00000000000000000000"]))
}
