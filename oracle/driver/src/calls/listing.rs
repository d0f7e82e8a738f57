//! The listing, which the Rust does not have: document 01's text over the Rust's entries. `flat`, `hexflat`, `prog`.

use meshcop::dataset::Dataset;

use super::{lent, value};
use crate::answer::Answer;
use crate::framed;
use crate::words::bytes_word;

/// The line `entries` and the count, then a line of type and length for each.
fn listing(dataset: &Dataset) -> String {
    let mut text = format!("entries {}\n", dataset.entries().len());
    for entry in dataset.entries() {
        text += &format!("{} {}\n", entry.ty, entry.value.len());
    }
    text
}

pub fn flat(bytes: &[u8], cap: u64) -> Answer {
    lent(listing(&framed::read_dataset(bytes)?.dataset).as_bytes(), cap)
}

pub fn hexflat(text: &[u8], cap: u64) -> Answer {
    lent(listing(&framed::read_hex_dataset(text)?.dataset).as_bytes(), cap)
}

/// The listing program on that standard input: one final newline is dropped first, and a refusal is its text.
pub fn prog(input: &[u8]) -> Answer {
    let text = input.strip_suffix(b"\n").unwrap_or(input);
    let printed = match framed::read_hex_dataset(text) {
        Ok(read) => listing(&read.dataset),
        Err(refusal) => format!("refused {} {}\n", refusal.number, refusal.place),
    };
    value(bytes_word(printed.as_bytes()))
}

/// The number of the refusal that an answer of `prog` shows, if it shows one.
pub fn refusal_printed(answer: &str) -> Option<u32> {
    let printed = String::from_utf8(hex::decode(answer).ok()?).ok()?;
    let mut words = printed.strip_prefix("refused ")?.split(' ');
    words.next()?.parse().ok()
}
