//! Fields that cannot be written, for requests: for each of 13, 12, 15 and 10, one that is past its boundary or about it.

use super::about::{some_most_bytes, some_most_entries};
use super::caps::need_of_fields;
use super::datasets::entry;
use super::diag_values::{CHILD_ADDRESSES, CHILD_TABLE};
use super::fields::{Fields, Rows, Tables, decoded_words, good_text, prefix_of_size, words_of_fields};
use super::network::{many_prefixes, many_rows};
use crate::random::Random;
use crate::rules::NETWORK_DATA;
use crate::words::bytes_word;

/// A cell of a row: its place, the greatest number that its bits hold, and the greatest that a request can say.
pub type Bound = (usize, u64, u64);

pub const ROUTE_BOUNDS: &[Bound] = &[(1, 3, 255), (2, 3, 255), (3, 15, 255)];
pub const CHILD_BOUNDS: &[Bound] = &[(0, 31, 255), (1, 3, 255), (2, 511, 65_535)];
/// Of HasRoute and of BorderRouter rows.
pub const PREFERENCE_BOUNDS: &[Bound] = &[(1, 3, 255)];

/// A field's type, and its text.
type Field = (u8, String);

/// One to three faults, of any refusal but 13, which only few have, since its values are long.
pub fn spoil_fields(random: &mut Random, fields: &mut Fields) {
    for _ in 0..random.between(1, 3) {
        let (ty, text) = match random.below(40) {
            0..=25 => misfit(random),
            26..=33 => (NETWORK_DATA, about_most_rows(random)),
            34..=38 => (CHILD_ADDRESSES, about_most_entries(random, fields)),
            _ => about_most_bytes(random, fields),
        };
        fields.insert(ty, text);
    }
    if random.once_in(28) {
        let (ty, text) = about_longest(random);
        fields.insert(ty, text);
    }
}

/// 15: one of its reasons.
fn misfit(random: &mut Random) -> Field {
    match random.below(12) {
        0 => (4, misfit_connectivity(random)),
        1..=2 => (5, misfit_route64(random)),
        3..=6 => {
            let text = with_one_more_prefix(&good_text(random, NETWORK_DATA));
            (NETWORK_DATA, misfit_network_data(random, &text))
        }
        7 => (8, broken_addresses(random)),
        8 => (CHILD_TABLE, misfit_children(random)),
        9 => (23, of_other_length(random, 8)),
        _ => (CHILD_ADDRESSES, misfit_lists(random)),
    }
}

/// A number over a bound, most often by one.
fn over(random: &mut Random, most: u64, top: u64) -> u64 {
    match random.below(4) {
        0 => top,
        1 => random.between(most as usize + 1, top as usize) as u64,
        _ => most + 1,
    }
}

/// One of the cells, in any row, is over its bound.
fn put_over(random: &mut Random, rows: &mut Rows, bounds: &[Bound]) {
    let (place, most, top) = random.pick(bounds);
    let number = over(random, most, top);
    rows.any(random)[place] = number.to_string();
}

/// The priority is out of its bits, or one late field stands alone.
fn misfit_connectivity(random: &mut Random) -> String {
    let text = good_text(random, 4);
    let mut cells: Vec<&str> = text.split(',').collect();
    let priority = match random.below(4) {
        0 => "2".to_string(),
        1 => "-3".to_string(),
        2 => over(random, 1, 127).to_string(),
        _ => format!("-{}", over(random, 2, 128)),
    };
    match random.below(3) {
        0 => cells[7..].copy_from_slice(&["65535", "-"]),
        1 => cells[7..].copy_from_slice(&["-", "0"]),
        _ => cells[0] = &priority,
    }
    cells.join(",")
}

/// A cell is over its bound, or mask and rows disagree: by a row too few or too many, by order, by a bit.
fn misfit_route64(random: &mut Random) -> String {
    let text = good_text(random, 5);
    let mut cells = text.split(',');
    let (sequence, mask) = (cells.next().unwrap_or_default(), cells.next().unwrap_or_default());
    let mut mask = u64::from_str_radix(mask, 16).expect("eight bytes");
    let mut rows = Rows::of(cells.next().unwrap_or_default());
    if rows.0.is_empty() {
        (mask, rows) = (1 << 63 | 1, Rows::of("0:3:3:15/63:0:0:0"));
    }
    let (place, last) = (random.below(rows.0.len()), rows.0.len() - 1);
    match random.below(8) {
        0 => drop(rows.0.remove(place)),
        1 => rows.0.insert(place, rows.0[place].clone()),
        2 => rows.push("64:0:0:0"),
        3 => rows.0[place][0] = (random.byte() % 66).to_string(),
        4 => mask ^= 1 << random.below(64),
        5 if last > 0 => rows.0.swap(0, last),
        _ => put_over(random, &mut rows, ROUTE_BOUNDS),
    }
    format!("{sequence},{mask:016x},{}", rows.text())
}

/// The tables with a prefix more, so that there is something of each kind to be spoilt.
fn with_one_more_prefix(text: &str) -> String {
    let mut tables = Tables::of(text);
    tables.prefixes.push("255:9:fd00:1.15.129:1:1");
    tables.has_routes.push("10240:3:1");
    tables.border_routers.push("65535:3:10000001");
    tables.text()
}

/// Network Data, of which the tables have rows, with a reason for 15 inside.
fn misfit_network_data(random: &mut Random, text: &str) -> String {
    let mut tables = Tables::of(text);
    match random.below(9) {
        0 => put_over(random, &mut tables.has_routes, PREFERENCE_BOUNDS),
        1 => put_over(random, &mut tables.border_routers, PREFERENCE_BOUNDS),
        2 => {
            let id = over(random, 15, 255);
            tables.prefixes.any(random)[3] = format!("{}.{id}.{}", random.below(2), random.byte());
        }
        3 => {
            let prefix = tables.prefixes.any(random);
            let length = bytes_of_bits(&prefix[1]);
            prefix[2] = of_other_length(random, length);
        }
        4 => {
            let prefix = tables.prefixes.any(random);
            prefix[1] = other_bits(random, bytes_of_bits(&prefix[1]));
        }
        5..=6 => put_other_counts(random, &mut tables.prefixes),
        7 => {
            let rows = if random.once_in(2) { &mut tables.has_routes } else { &mut tables.border_routers };
            put_row_too_few_or_many(random, rows);
        }
        _ => {
            let size = random.pick(&[256, 256, 257, 258, 300]);
            return prefix_of_size(random, size);
        }
    }
    tables.text()
}

/// So many bytes do not say it.
fn of_other_length(random: &mut Random, length: usize) -> String {
    let other = match random.below(4) {
        0 => length + 1,
        1 => length.saturating_sub(1),
        2 => 0,
        _ => random.below(2 * length + 2),
    };
    bytes_word(&random.bytes(if other == length { length + 1 } else { other }))
}

fn bytes_of_bits(bits: &str) -> usize {
    bits.parse::<usize>().map_or(0, |bits| bits.div_ceil(8))
}

/// A bit length just too great for so many bytes, or just too small.
fn other_bits(random: &mut Random, bytes: usize) -> String {
    let (greater, smaller) = (8 * bytes + 1, (8 * bytes).saturating_sub(8));
    let bits = if bytes == 0 || (greater < 256 && random.once_in(2)) { greater } else { smaller };
    bits.to_string()
}

/// Counts one off; one of the greatest; one more here and one less there, so that their sum fits; and two whose sum is right
/// only in 64 bits.
fn put_other_counts(random: &mut Random, prefixes: &mut Rows) {
    let column = random.pick(&[4, 5]);
    let count = |prefix: &Vec<String>| prefix[column].parse::<u64>().unwrap_or_default();
    let (first, last) = (random.below(prefixes.0.len()), prefixes.0.len() - 1);
    let (a, b) = (count(&prefixes.0[first]), count(&prefixes.0[last]));
    let half = 1 << 63;
    let (a, b) = match random.below(6) {
        0 if first != last => (a + half, b + half),
        1 if first != last => (a + 1, b - b.min(1)),
        2 => (u64::MAX, u64::MAX),
        3 => (0, 0),
        4 => (a - a.min(1), b),
        _ => (a + 1, b + 1),
    };
    prefixes.0[first][column] = a.to_string();
    prefixes.0[last][column] = b.to_string();
}

fn put_row_too_few_or_many(random: &mut Random, rows: &mut Rows) {
    let place = random.below(rows.0.len());
    if random.once_in(2) { drop(rows.0.remove(place)) } else { rows.0.insert(place, rows.0[place].clone()) }
}

/// Bytes that are no whole addresses.
fn broken_addresses(random: &mut Random) -> String {
    let length = 16 * random.below(4) + random.between(1, 15);
    bytes_word(&random.bytes(length))
}

fn misfit_children(random: &mut Random) -> String {
    let mut rows = Rows::of(&good_text(random, CHILD_TABLE)).or("31:3:511:010");
    put_over(random, &mut rows, CHILD_BOUNDS);
    rows.text()
}

/// A child ID that is not that of the RLOC16, by a bit within the nine or above them; or broken addresses.
fn misfit_lists(random: &mut Random) -> String {
    let mut rows = Rows::of(&good_text(random, CHILD_ADDRESSES)).or("10241:1:-");
    let row = rows.any(random);
    let id: u16 = row[1].parse().expect("just decoded");
    match random.below(4) {
        0 => row[1] = (id ^ 1 << random.below(16)).to_string(),
        1 if row[0] != row[1] => row[1] = row[0].clone(),
        2 => row[1] = (id + 512).to_string(),
        _ => row[2] = broken_addresses(random),
    }
    rows.text()
}

/// 12: Network Data with about as many prefixes or rows as may be, in some cases over that by rows which no prefix counts,
/// in some with a reason for 15 as well.
fn about_most_rows(random: &mut Random) -> String {
    let many = if random.once_in(2) { many_prefixes } else { many_rows };
    let words = decoded_words(random, |random| entry(NETWORK_DATA, &many(random), false));
    let text = with_one_more_prefix(words.strip_prefix("7=").expect("the one field"));
    match random.below(4) {
        0 => misfit_network_data(random, &text),
        1 => {
            let mut tables = Tables::of(&text);
            let (rows, row) = if random.once_in(2) {
                (&mut tables.has_routes, "1:0:0")
            } else {
                (&mut tables.border_routers, "1:0:00000000")
            };
            let most = 95 + random.below(3);
            while rows.0.len() < most {
                rows.push(row);
            }
            tables.text()
        }
        _ => text,
    }
}

/// 10: address lists that make about the most entries with the other fields; in some cases one of them does not fit.
fn about_most_entries(random: &mut Random, fields: &Fields) -> String {
    let others = fields.keys().filter(|ty| **ty != CHILD_ADDRESSES).count();
    let count = some_most_entries(random) + random.below(4) - others;
    let one = |_| {
        let rloc16 = random.next() as u16;
        format!("{rloc16}:{}:-", rloc16 % 512)
    };
    let mut lists: Vec<String> = (0..count).map(one).collect();
    if random.once_in(5) {
        let place = random.below(count);
        lists[place] = "1:2:-".to_string();
    }
    lists.join("/")
}

/// 10: bytes that fill the payload to about the most, of a type of any length.
fn about_most_bytes(random: &mut Random, fields: &Fields) -> Field {
    let ty = random.pick(&[0, 17, 18]);
    let mut others = fields.clone();
    others.remove(&ty);
    let taken = need_of_fields(&words_of_fields(&others)).unwrap_or(0) as usize;
    let most = some_most_bytes(random);
    let size = random.between(most - 1, most + 2);
    let value = random.bytes(size.saturating_sub(4 + taken));
    (ty, bytes_word(&value))
}

/// 13: a value of about 65,535 bytes. In some cases it does not fit as well.
fn about_longest(random: &mut Random) -> Field {
    let length = random.pick(&[65_535, 65_536, 65_536, 65_537, 65_552]);
    match random.below(8) {
        0 => (CHILD_TABLE, many_children(random.between(21_845, 21_847))),
        1..=2 => (8, bytes_word(&random.bytes(length))),
        3..=4 => {
            let row = format!("10241:{}:{}", random.between(1, 2), bytes_word(&random.bytes(length)));
            (CHILD_ADDRESSES, if random.once_in(2) { format!("{row}/1:1:-") } else { format!("1:1:-/{row}") })
        }
        _ => (random.pick(&[0, 17, 18]), bytes_word(&random.bytes(length))),
    }
}

/// So many short rows.
pub fn many_children(count: usize) -> String {
    vec!["0:0:0:000"; count].join("/")
}
