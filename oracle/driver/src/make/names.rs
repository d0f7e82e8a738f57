//! Network names for requests: UTF-8 and what is not, about every boundary that RFC 3629 draws.

use super::short::{string, strings};
use crate::random::Random;

/// Bytes at which a class of first bytes, or a range of second bytes, begins or ends.
const BOUNDARY_BYTES: &[u8] = &[
    0x00, 0x7f, 0x80, 0x8f, 0x90, 0x9f, 0xa0, 0xbf, 0xc0, 0xc1, 0xc2, 0xdf, 0xe0, 0xe1, 0xec, 0xed, 0xee, 0xef, 0xf0,
    0xf1, 0xf3, 0xf4, 0xf5, 0xff,
];

/// Characters with which such a range begins or ends, and some that are no letters but characters all the same.
const BOUNDARY_CHARACTERS: &[u32] = &[
    0x00, 0x7f, 0x80, 0x7ff, 0x800, 0xfff, 0x1000, 0xcfff, 0xd000, 0xd7ff, 0xe000, 0xfeff, 0xfffd, 0xfffe, 0xffff,
    0x10000, 0x3ffff, 0x40000, 0xfffff, 0x100000, 0x10ffff,
];

/// The neighbours of those, which are no characters: lone bytes, forms that are longer than need be, surrogates, and
/// what lies past the last character.
const NO_CHARACTERS: &[&[u8]] = &[
    b"\x80",
    b"\xbf",
    b"\xc0\x80",
    b"\xc1\xbf",
    b"\xc2\x7f",
    b"\xc2\xc0",
    b"\xdf\x7f",
    b"\xe0\x80\x80",
    b"\xe0\x9f\xbf",
    b"\xe0\xa0\x7f",
    b"\xed\xa0\x80",
    b"\xed\xbf\xbf",
    b"\xef\xbf\xc0",
    b"\xf0\x80\x80\x80",
    b"\xf0\x8f\xbf\xbf",
    b"\xf0\x90\x80\xc0",
    b"\xf4\x90\x80\x80",
    b"\xf4\xbf\xbf\xbf",
    b"\xf5\x80\x80\x80",
    b"\xf7\xbf\xbf\xbf",
    b"\xf8\x88\x80\x80\x80",
    b"\xfc\x84\x80\x80\x80\x80",
    b"\xfe",
    b"\xff",
];

/// All names of three bytes.
pub const THREE_BYTES: u64 = 1 << 24;

pub fn three_bytes(number: u64) -> Vec<u8> {
    number.to_be_bytes()[5..].to_vec()
}

/// Those of three boundary bytes.
pub const THREE_BOUNDARY_BYTES: usize = strings(BOUNDARY_BYTES.len(), 3, 3);

pub fn three_boundary_bytes(number: usize) -> Vec<u8> {
    string(BOUNDARY_BYTES, 3, number)
}

/// Four bytes, of which the first begins a character of four or is next to one that does.
const FIRST_OF_FOUR: &[u8] = &[0xef, 0xf0, 0xf1, 0xf3, 0xf4, 0xf5];
const SECOND_OF_FOUR: &[u8] = &[0x7f, 0x80, 0x8f, 0x90, 0xbf, 0xc0];
const LATER_OF_FOUR: &[u8] = &[0x7f, 0x80, 0xbf, 0xc0];

pub const FOUR_BYTES: usize = FIRST_OF_FOUR.len() * SECOND_OF_FOUR.len() * LATER_OF_FOUR.len() * LATER_OF_FOUR.len();

pub fn four_bytes(number: usize) -> Vec<u8> {
    let mut rest = number;
    let ranges = [FIRST_OF_FOUR, SECOND_OF_FOUR, LATER_OF_FOUR, LATER_OF_FOUR];
    let digit = |range: &[u8]| {
        let byte = range[rest % range.len()];
        rest /= range.len();
        byte
    };
    ranges.map(digit).to_vec()
}

/// A random text: most are short, some of about 255 bytes.
pub fn text(random: &mut Random) -> Vec<u8> {
    if random.once_in(40) {
        let bytes = random.between(250, 260);
        return text_of_size(random, bytes);
    }
    (0..random.below(9)).flat_map(|_| character(random)).collect()
}

/// A text of exactly so many bytes.
pub fn text_of_size(random: &mut Random, bytes: usize) -> Vec<u8> {
    let mut text = Vec::new();
    while text.len() < bytes {
        let next = character(random);
        text.extend(if text.len() + next.len() <= bytes { next } else { vec![b'z'] });
    }
    text
}

/// A character of one to four bytes; of each length there are many.
fn character(random: &mut Random) -> Vec<u8> {
    let number = match random.below(8) {
        0..=2 => random.between(0x20, 0x7e),
        3 => random.pick(BOUNDARY_CHARACTERS) as usize,
        4 => random.between(0x80, 0x7ff),
        5 => random.between(0x800, 0xd7ff),
        6 => random.between(0xe000, 0xffff),
        _ => random.between(0x10000, 0x10ffff),
    };
    character_of(number as u32)
}

fn character_of(number: u32) -> Vec<u8> {
    char::from_u32(number).expect("no surrogate, none past the last").to_string().into_bytes()
}

/// A text that was spoilt: few of the results are UTF-8 all the same.
pub fn spoilt_text(random: &mut Random) -> Vec<u8> {
    let (before, after) = (text(random), text(random));
    match random.below(8) {
        0..=2 => [&before[..], random.pick(NO_CHARACTERS), &after].concat(),
        3..=4 => [before, cut_character(random), after].concat(),
        5 => [before, cut_character(random)].concat(),
        6 => [before, random.bytes(2), after].concat(),
        _ => {
            let mut bytes = [before, character(random), after].concat();
            let place = random.below(bytes.len());
            bytes[place] = random.pick(BOUNDARY_BYTES);
            bytes
        }
    }
}

/// A character of two bytes or more, without its last.
fn cut_character(random: &mut Random) -> Vec<u8> {
    let mut bytes = character(random);
    while bytes.len() < 2 {
        bytes = character(random);
    }
    bytes.pop();
    bytes
}

/// Each boundary character and each neighbour that is none, alone and in a text, and each of them cut.
pub fn name_edges(random: &mut Random) -> Vec<Vec<u8>> {
    let characters = BOUNDARY_CHARACTERS.iter().map(|number| character_of(*number));
    let others = NO_CHARACTERS.iter().map(|bytes| bytes.to_vec());
    let mut edges = Vec::new();
    for bytes in characters.chain(others) {
        edges.push([&text(random)[..], &bytes, &text(random)].concat());
        edges.push([b"A", &bytes[..bytes.len() - 1], b"z"].concat());
        edges.push(bytes);
    }
    edges
}
