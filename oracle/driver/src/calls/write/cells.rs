//! Reading the cells of a field's text: numbers, bytes, digits, and rows of them. A cell that cannot be read is `None`.

use crate::words::{bytes_of, number_of};

/// A number that the record's type for it can hold.
pub fn number<N: TryFrom<u64>>(cell: &str) -> Option<N> {
    N::try_from(number_of(cell.as_bytes())?).ok()
}

/// A number, and possibly `-` before it.
pub fn signed(cell: &str) -> Option<i8> {
    match cell.strip_prefix('-') {
        Some(digits) => i8::try_from(-i64::from(number::<u8>(digits)?)).ok(),
        None => i8::try_from(number::<u8>(cell)?).ok(),
    }
}

/// The number 0 or 1.
pub fn bit(cell: &str) -> Option<bool> {
    match number(cell)? {
        0u8 => Some(false),
        1 => Some(true),
        _ => None,
    }
}

pub fn bytes(cell: &str) -> Option<Vec<u8>> {
    bytes_of(cell.as_bytes())
}

/// Exactly so many digits 0 or 1.
pub fn digits<const COUNT: usize>(cell: &str) -> Option<[bool; COUNT]> {
    let digits = cell.bytes().map(|digit| match digit {
        b'0' => Some(false),
        b'1' => Some(true),
        _ => None,
    });
    digits.collect::<Option<Vec<bool>>>()?.try_into().ok()
}

/// `-`, or what is read.
pub fn absent_or<T>(cell: &str, read: impl Fn(&str) -> Option<T>) -> Option<Option<T>> {
    if cell == "-" { Some(None) } else { read(cell).map(Some) }
}

/// Exactly so many cells.
pub fn cells<const COUNT: usize>(text: &str, mark: char) -> Option<[&str; COUNT]> {
    text.split(mark).collect::<Vec<&str>>().try_into().ok()
}

/// Exactly so many numbers of one type.
pub fn numbers<N: TryFrom<u64>, const COUNT: usize>(text: &str, mark: char) -> Option<[N; COUNT]> {
    let numbers: Option<Vec<N>> = text.split(mark).map(number).collect();
    numbers?.try_into().ok()
}

/// Rows parted by `/`, `-` for none.
pub fn rows<R>(text: &str, read: impl Fn(&str) -> Option<R>) -> Option<Vec<R>> {
    if text == "-" { Some(Vec::new()) } else { text.split('/').map(read).collect() }
}
