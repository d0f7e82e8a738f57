//! The fields of diagnostic records, as words of requests: such that can be written, and their rows taken apart so that one
//! cell can be another.

use std::collections::BTreeMap;

use meshcop::meshcop::diag::NetDiagData;

use super::datasets::entry;
use super::diag_values::{CHILD_ADDRESSES, TYPES, fitting};
use crate::calls::record_words;
use crate::random::Random;
use crate::words::bytes_word;

/// The text of each field that is there, by its type.
pub type Fields = BTreeMap<u8, String>;

pub fn words_of_fields(fields: &Fields) -> String {
    let words: Vec<String> = fields.iter().map(|(ty, text)| format!("{ty}={text}")).collect();
    if words.is_empty() { "-".to_string() } else { words.join(" ") }
}

/// The record that the Rust decodes of a payload; one that it refuses is replaced by another.
pub fn decoded_words(random: &mut Random, payload: impl Fn(&mut Random) -> Vec<u8>) -> String {
    loop {
        if let Ok(data) = NetDiagData::decode(&payload(random)) {
            return record_words(&data);
        }
    }
}

/// All fields, or some, each with a text that can be written, but that now and then Network Data is over its sizes.
pub fn good_fields(random: &mut Random) -> Fields {
    let once_in = random.pick(&[1, 2, 4, 8]);
    let types: Vec<u8> = TYPES.iter().copied().filter(|_| random.once_in(once_in)).collect();
    types.into_iter().map(|ty| (ty, good_text(random, ty))).collect()
}

/// What the Rust decodes of a value that fits, or of several address lists.
pub fn good_text(random: &mut Random, ty: u8) -> String {
    let entries = if ty == CHILD_ADDRESSES { random.below(4) } else { 1 };
    let payload = |random: &mut Random| (0..entries).flat_map(|_| entry(ty, &fitting(random, ty), false)).collect();
    // Without a list there is no field.
    decoded_words(random, payload).split_once('=').map_or("-".to_string(), |(_, text)| text.to_string())
}

/// Rows of cells, as a field's text has them.
pub struct Rows(pub Vec<Vec<String>>);

impl Rows {
    pub fn of(text: &str) -> Self {
        let cells = |row: &str| row.split(':').map(str::to_string).collect();
        Self(if text == "-" { Vec::new() } else { text.split('/').map(cells).collect() })
    }

    pub fn text(&self) -> String {
        let rows: Vec<String> = self.0.iter().map(|row| row.join(":")).collect();
        if rows.is_empty() { "-".to_string() } else { rows.join("/") }
    }

    /// The same rows, or this one where there are none.
    pub fn or(mut self, row: &str) -> Self {
        if self.0.is_empty() {
            self.push(row);
        }
        self
    }

    pub fn push(&mut self, row: &str) {
        self.0.extend(Self::of(row).0);
    }

    /// Any one of the rows, of which there must be some.
    pub fn any(&mut self, random: &mut Random) -> &mut Vec<String> {
        let place = random.below(self.0.len());
        &mut self.0[place]
    }
}

/// The three tables of Network Data.
pub struct Tables {
    pub prefixes: Rows,
    pub has_routes: Rows,
    pub border_routers: Rows,
}

impl Tables {
    pub fn of(text: &str) -> Self {
        let mut tables = text.split('|').map(Rows::of);
        let mut next = || tables.next().expect("three tables");
        Self { prefixes: next(), has_routes: next(), border_routers: next() }
    }

    pub fn text(&self) -> String {
        format!("{}|{}|{}", self.prefixes.text(), self.has_routes.text(), self.border_routers.text())
    }
}

/// Network Data of one prefix whose value has so many bytes, 211 or more: of rows of both kinds in most cases, the prefix's
/// own bytes, up to 32, making up the rest.
pub fn prefix_of_size(random: &mut Random, size: usize) -> String {
    let (context, context_size) = if random.once_in(2) { ("1.15.64", 4) } else { ("-", 0) };
    let borders = random.below(48);
    let borders_size = if borders > 0 { 2 + 4 * borders } else { 0 };
    let left = size - 2 - context_size - borders_size - 2;
    let routes = left / 3 - random.below(left.min(33) / 3);
    let bytes = random.bytes(left - 3 * routes);
    let prefix = format!("0:{}:{}:{context}:{routes}:{borders}", most_bits(bytes.len()), bytes_word(&bytes));
    prefix_with_rows(&prefix, routes, borders)
}

/// The greatest bit length of so many bytes, 32 at most.
pub fn most_bits(bytes: usize) -> u8 {
    u8::try_from(8 * bytes).unwrap_or(u8::MAX)
}

/// The row of a prefix, and so many rows for it.
pub fn prefix_with_rows(prefix: &str, routes: usize, borders: usize) -> String {
    let mut tables = Tables::of(&format!("{prefix}|-|-"));
    for number in 0..routes {
        tables.has_routes.push(&format!("{}:{}:{}", 10_240 + number, number % 4, number % 2));
    }
    for number in 0..borders {
        tables.border_routers.push(&format!("{}:{}:{number:08b}", 65_535 - number, number % 4));
    }
    tables.text()
}
