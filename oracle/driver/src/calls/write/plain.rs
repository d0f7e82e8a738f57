//! The words of a request's fields as the Rust's record would have them: numbers without leading zeros, and no `30=-`,
//! since address lists of which there are none read back as absent. Nothing else is touched, so that what the Rust reads is
//! compared with the request itself, and not with what was made of it.

use super::fields::FieldText;

const ADDRESS_LISTS: u8 = 30;

pub fn words(texts: &[FieldText]) -> String {
    let says_something = |(ty, text): &&FieldText| (*ty, *text) != (ADDRESS_LISTS, "-");
    let fields: Vec<String> = texts.iter().filter(says_something).map(field).collect();
    if fields.is_empty() { "-".to_string() } else { fields.join(" ") }
}

fn field((ty, text): &FieldText) -> String {
    format!("{ty}={}", plain(*ty, text))
}

fn plain(ty: u8, text: &str) -> String {
    match ty {
        1 | 3 | 4 | 6 | 9 | 14 | 15 => cells(text, ",", NUMBERS),
        5 => cells(text, ",", &[number, same, |routes| rows(routes, NUMBERS)]),
        7 => cells(text, "|", &[prefixes, |routes| rows(routes, NUMBERS), border_routers]),
        16 => rows(text, &[number, number, number, same]),
        ADDRESS_LISTS => rows(text, &[number, number, same]),
        _ => same(text),
    }
}

type Plain = fn(&str) -> String;

/// As many as the cells of any field or row of which all are numbers.
const NUMBERS: &[Plain] = &[number as Plain; 9];

/// Each cell by its own function, of which there are as many as cells or more.
fn cells(text: &str, mark: &str, by: &[Plain]) -> String {
    let cells: Vec<String> = text.split(mark).zip(by).map(|(cell, plain)| plain(cell)).collect();
    cells.join(mark)
}

fn rows(text: &str, by: &[Plain]) -> String {
    let rows: Vec<String> = text.split('/').map(|row| cells(row, ":", by)).collect();
    rows.join("/")
}

fn prefixes(text: &str) -> String {
    rows(text, &[number, number, same, |context| cells(context, ".", NUMBERS), number, number])
}

fn border_routers(text: &str) -> String {
    rows(text, &[number, number, same])
}

/// Bytes and digits.
fn same(cell: &str) -> String {
    cell.to_string()
}

/// A number, one with a sign too, or the `-` of what is absent.
fn number(cell: &str) -> String {
    let (sign, digits) = cell.strip_prefix('-').map_or(("", cell), |digits| ("-", digits));
    match digits.trim_start_matches('0') {
        "" if digits.is_empty() => cell.to_string(),
        "" => "0".to_string(),
        digits => format!("{sign}{digits}"),
    }
}
