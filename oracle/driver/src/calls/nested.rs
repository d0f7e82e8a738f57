//! The nested listing, which the Rust does not have: document 02's text over the Rust's entries, and over Network Data by
//! document 01's layout. The Rust decodes Network Data too, and must find in it what the lines tell. `nested`.

use meshcop::meshcop::diag::{NetworkData, PrefixEntry};

use super::lent;
use crate::answer::Answer;
use crate::decoded;
use crate::framed;
use crate::rules::{self, first_tlv, inside_prefix};
use crate::words::bytes_word;

/// The levels: a payload's entries, the TLVs of Network Data, and those inside a prefix.
const FIRST: usize = 1;
const SECOND: usize = 2;
const THIRD: usize = 3;

/// The type and length of an item, or nothing where a list is cut.
struct Line {
    level: usize,
    item: Option<(u8, usize)>,
}

impl Line {
    fn text(&self) -> String {
        let indent = "  ".repeat(self.level - FIRST);
        match self.item {
            Some((ty, length)) => format!("{indent}{ty} {length}\n"),
            None => format!("{indent}cut\n"),
        }
    }
}

pub fn nested(payload: &[u8], cap: u64) -> Answer {
    let mut lines = Vec::new();
    for entry in framed::read_dataset(payload)?.entries {
        lines.push(Line { level: FIRST, item: Some((entry.ty, entry.value.len())) });
        if entry.ty == rules::NETWORK_DATA {
            lines.extend(network_data_lines(&entry.value));
        }
    }
    let text: String = lines.iter().map(Line::text).collect();
    lent(text.as_bytes(), cap)
}

/// The Rust stops at a value's first fault, so it is asked about each part too.
fn network_data_lines(value: &[u8]) -> Vec<Line> {
    let mut lines = Vec::new();
    for part in parts(value) {
        let of_part = network_tlv_lines(part);
        see_that_the_rust_finds(part, &of_part);
        lines.extend(of_part);
    }
    see_that_the_rust_finds(value, &lines);
    lines
}

fn network_tlv_lines(part: &[u8]) -> Vec<Line> {
    let mut lines = vec![line_of(SECOND, part)];
    if let Some((1, value, _)) = first_tlv(part) {
        lines.extend(prefix_lines(value));
    }
    lines
}

/// Nothing inside a prefix is opened.
fn prefix_lines(value: &[u8]) -> Vec<Line> {
    match inside_prefix(value) {
        Some(inner) => parts(inner).into_iter().map(|part| line_of(THIRD, part)).collect(),
        None => vec![Line { level: THIRD, item: None }],
    }
}

fn line_of(level: usize, part: &[u8]) -> Line {
    Line { level, item: first_tlv(part).map(|(ty, value, _)| (ty, value.len())) }
}

/// The bytes of each TLV of a list, and after them those that are no whole one, if there are any.
fn parts(list: &[u8]) -> Vec<&[u8]> {
    let mut parts = Vec::new();
    let mut rest = list;
    while !rest.is_empty() {
        let after = first_tlv(rest).map_or(&[][..], |(_, _, after)| after);
        parts.push(&rest[..rest.len() - after.len()]);
        rest = after;
    }
    parts
}

/// HasRoute rows, BorderRouter rows, and 1 where there is a context.
type Rows = [usize; 3];

/// That the Rust finds the prefixes and rows that the lines tell of, or refuses as the first fault that they tell of.
fn see_that_the_rust_finds(network_data: &[u8], lines: &[Line]) {
    let by_rust = match NetworkData::decode(network_data) {
        Ok(data) => Ok(data.prefixes.iter().map(rows_of).collect()),
        Err(error) => Err(decoded::number_of(&error)),
    };
    assert_eq!(by_rust, prefixes_told(lines), "the Rust and the lines on Network Data {}", bytes_word(network_data));
}

fn rows_of(prefix: &PrefixEntry) -> Rows {
    [prefix.has_route.len(), prefix.border_routers.len(), usize::from(prefix.six_low_pan_context.is_some())]
}

/// The rows of each prefix; 5 where a cut is the first fault, 4 where it is a length inside a prefix.
fn prefixes_told(lines: &[Line]) -> Result<Vec<Rows>, u32> {
    let mut prefixes = Vec::new();
    for line in lines {
        let (ty, length) = line.item.ok_or(5u32)?;
        match (line.level, ty) {
            (SECOND, 1) => prefixes.push([0; 3]),
            (THIRD, _) => add_rows(prefixes.last_mut().expect("a prefix's line is above"), ty, length)?,
            _ => {}
        }
    }
    Ok(prefixes)
}

fn add_rows(rows: &mut Rows, ty: u8, length: usize) -> Result<(), u32> {
    match ty {
        0 if length % 3 == 0 => rows[0] += length / 3,
        2 if length % 4 == 0 => rows[1] += length / 4,
        3 if length == 2 => rows[2] = 1,
        0 | 2 | 3 => return Err(4),
        _ => {}
    }
    Ok(())
}
