//! Short inputs, all of them: families of requests by number, and the deck that deals them in a mixed order.

use super::{Maker, request_of};

/// All requests of one kind, numbered from 0. Words are those after the call's name.
pub struct Family {
    pub size: usize,
    pub words: fn(usize) -> String,
}

/// The number of strings of `least` to `most` letters.
pub const fn strings(letters: usize, least: u32, most: u32) -> usize {
    let mut sum = 0;
    let mut length = least;
    while length <= most {
        sum += letters.pow(length);
        length += 1;
    }
    sum
}

/// String number `number` over the letters, the shortest ones, of length `least`, first.
pub fn string(letters: &[u8], least: u32, number: usize) -> Vec<u8> {
    let mut length = least;
    let mut number = number;
    while number >= letters.len().pow(length) {
        number -= letters.len().pow(length);
        length += 1;
    }
    let letter = |place| letters[number / letters.len().pow(place) % letters.len()];
    (0..length).rev().map(letter).collect()
}

/// String number `number` of shapes instead of letters, the shortest ones, of no shape, first.
pub fn in_order(shapes: &[&[u8]], number: usize) -> Vec<u8> {
    let letters: Vec<u8> = (0..shapes.len() as u8).collect();
    let order = string(&letters, 0, number);
    order.iter().flat_map(|letter| shapes[usize::from(*letter)]).copied().collect()
}

/// All strings of 0 and 1 bytes.
pub const ZERO_OR_ONE_BYTE: usize = 257;

pub fn zero_or_one_byte(number: usize) -> Vec<u8> {
    number.checked_sub(1).map(|byte| byte as u8).into_iter().collect()
}

/// All strings of 2 bytes.
pub const TWO_BYTES: usize = 65_536;

pub fn two_bytes(number: usize) -> Vec<u8> {
    (number as u16).to_be_bytes().to_vec()
}

/// How many strings of so many bytes there are in which one bit differs from all others.
pub const fn lone_bits(bytes: usize) -> usize {
    16 * bytes
}

pub fn lone_bit(bytes: usize, number: usize) -> Vec<u8> {
    let (bit, others) = (number / 2, [0x00, 0xff][number % 2]);
    let mut string = vec![others; bytes];
    string[bit / 8] ^= 0x80 >> (bit % 8);
    string
}

/// Deals the members of some families, each once, so that any stretch of them is a mix.
pub struct Deck {
    families: Vec<(&'static str, &'static Family)>,
}

impl Deck {
    pub fn of(makers: &[&'static Maker], chosen: fn(&Family) -> bool) -> Self {
        let families_of = |maker: &&'static Maker| {
            let call = maker.call;
            maker.short.iter().filter(move |family| chosen(family)).map(move |family| (call, family))
        };
        Self { families: makers.iter().flat_map(families_of).collect() }
    }

    pub fn size(&self) -> usize {
        self.families.iter().map(|(_, family)| family.size).sum()
    }

    /// The request dealt in a turn; `None` once all have been dealt.
    pub fn request(&self, turn: usize) -> Option<String> {
        let mut number = spread(turn, self.size())?;
        for (call, family) in &self.families {
            if number < family.size {
                return Some(request_of(call, &(family.words)(number)));
            }
            number -= family.size;
        }
        None
    }
}

/// A place below `size` for each turn below `size`, no place twice, and neighbouring turns far apart.
pub fn spread(turn: usize, size: usize) -> Option<usize> {
    if turn >= size {
        return None;
    }
    // A step without a common divisor with the size meets every place once.
    let golden = size * 618 / 1000;
    let step = (golden.max(1)..).find(|step| greatest_common_divisor(*step, size) == 1)?;
    Some(turn * step % size)
}

fn greatest_common_divisor(a: usize, b: usize) -> usize {
    if b == 0 { a } else { greatest_common_divisor(b, a % b) }
}
