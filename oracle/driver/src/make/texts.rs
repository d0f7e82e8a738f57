//! Hex texts for requests: random ones, whole or damaged, and those at each boundary.

use super::about::digit_edges;
use super::datasets::{dataset_edges, whole_dataset};
use crate::random::Random;

/// The neighbours of the digits and letters in ASCII, blanks, and bytes that no ASCII text has.
const NO_HEX_DIGITS: &[u8] = b"/:@G`gxX \n\r\t-\0\x7f\x80\xc3\xff";

/// The hex text of some bytes, in lower, upper or mixed case.
pub fn hex_text(random: &mut Random, bytes: &[u8]) -> Vec<u8> {
    let mut text = hex::encode(bytes).into_bytes();
    change_case(random, &mut text);
    text
}

/// To upper case, or here and there, or not at all.
pub fn change_case(random: &mut Random, text: &mut [u8]) {
    match random.below(4) {
        0 => text.make_ascii_uppercase(),
        1 => text.iter_mut().filter(|_| random.once_in(2)).for_each(|c| c.make_ascii_uppercase()),
        _ => {}
    }
}

/// The hex text of some bytes, in most cases; else of odd length, or with a character that is no digit, or both.
pub fn damaged_hex_text(random: &mut Random, bytes: &[u8]) -> Vec<u8> {
    let mut text = hex_text(random, bytes);
    match random.below(16) {
        0 => drop(text.pop()),
        1 => text.push(random.pick(b"09afAF")),
        2 => {
            text.pop();
            spoil_character(random, &mut text);
        }
        3..=5 => spoil_character(random, &mut text),
        _ => {}
    }
    text
}

fn spoil_character(random: &mut Random, text: &mut [u8]) {
    let place = random.below(text.len());
    let character = if random.once_in(3) { random.byte() } else { random.pick(NO_HEX_DIGITS) };
    if let Some(spoilt) = text.get_mut(place) {
        *spoilt = character;
    }
}

/// A text of exactly so many hex digits; if they are even in number, of a whole dataset.
pub fn digits(random: &mut Random, count: usize) -> Vec<u8> {
    let bytes = count.div_ceil(2);
    let dataset = if bytes < 2 { random.bytes(bytes) } else { whole_dataset(random, 1, bytes) };
    let mut text = hex_text(random, &dataset);
    text.truncate(count);
    text
}

/// Texts at each boundary of their length: of digits alone, and with a bad character first or last.
pub fn length_edges(random: &mut Random) -> Vec<Vec<u8>> {
    let mut edges = Vec::new();
    for count in (0..=4).chain(digit_edges()) {
        let good = digits(random, count);
        if count > 0 {
            edges.push(with_character(&good, 0, random.pick(NO_HEX_DIGITS)));
            edges.push(with_character(&good, count - 1, random.pick(NO_HEX_DIGITS)));
        }
        edges.push(good);
    }
    edges
}

fn with_character(text: &[u8], place: usize, character: u8) -> Vec<u8> {
    let mut text = text.to_vec();
    text[place] = character;
    text
}

/// The edges of the text's own length, and those of the dataset that it stands for.
pub fn dataset_text_edges(random: &mut Random) -> Vec<Vec<u8>> {
    let mut edges = length_edges(random);
    for dataset in dataset_edges(random) {
        edges.push(hex_text(random, &dataset));
    }
    edges
}
