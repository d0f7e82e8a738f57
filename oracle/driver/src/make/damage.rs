//! Spoils a request, most often into one that cannot be read; some of the results are sound all the same.

use crate::random::Random;

pub const NUMBERS: &[&str] =
    &["255", "256", "0255", "000", "00000000000000000000000000000000000000001", "18446744073709551615"];

pub const NO_NUMBERS: &[&str] =
    &["18446744073709551616", "99999999999999999999", "-1", "+1", "0x10", "1.0", "1e3", "a", ""];

pub const NO_BYTES: &[&str] = &["", "--", "0", "-0", "0g", "0A", "FF", "0x00", "00-", "000", "\u{e9}"];

const NO_CALLS: &[&str] =
    &["", "fram", "frames", "FRAME", "One", "-", "0", "ok", "refused", "q", "v.", "q.names", "v.Name", "channel", "ts"];

pub fn spoil(random: &mut Random, request: &str) -> String {
    let words: Vec<&str> = request.split(' ').collect();
    match random.below(14) {
        0 => with_word(random, &words, NUMBERS),
        1..=2 => with_word(random, &words, NO_NUMBERS),
        3..=4 => with_word(random, &words, NO_BYTES),
        5 => [&[random.pick(NO_CALLS)], &words[1..]].concat().join(" "),
        6 => words[..random.below(words.len())].join(" "),
        7 => [&words[..], &[random.pick(&["0", "-", "00"])]].concat().join(" "),
        8 => words.iter().rev().copied().collect::<Vec<_>>().join(" "),
        9 => format!("{request}{}", random.pick(&[" ", "\t", "\r", "0", "-"])),
        10 => format!("{}{request}", random.pick(&[" ", "\t", "0"])),
        11 => request.replacen(' ', random.pick(&["  ", "\t", ""]), 1),
        12 => request.to_ascii_uppercase(),
        _ => with_character(random, request),
    }
}

/// A call with no words, with one too few, and with one too many.
pub fn wrong_counts(call: &str, words: &str) -> Vec<String> {
    let without_last = words.rsplit_once(' ').map_or("", |(others, _)| others);
    vec![call.to_string(), format!("{call} {without_last}"), format!("{call} {words} 0")]
}

/// One word after the call's name is another.
fn with_word(random: &mut Random, words: &[&str], others: &[&'static str]) -> String {
    let place = random.between(1, words.len() - 1);
    let mut words = words.to_vec();
    words[place] = random.pick(others);
    words.join(" ")
}

/// One character is another.
fn with_character(random: &mut Random, request: &str) -> String {
    let place = random.below(request.len());
    let other = random.pick(&["A", "F", "g", "-", ".", " ", "\0", "\u{7f}", "\u{e9}"]);
    format!("{}{other}{}", &request[..place], &request[place + 1..])
}
