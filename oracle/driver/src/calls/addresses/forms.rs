//! The driver's own reading of forms 1 and 2 of RFC 4291, section 2.2, and its own writing by RFC 5952.

/// Of an address.
pub const GROUPS: usize = 8;

/// RFC 5952 shortens a run of no fewer zero groups.
const LEAST_RUN: usize = 2;

/// Eight groups; or, with `::` for at least one of them, the others.
pub fn read(text: &[u8]) -> Option<[u16; GROUPS]> {
    // What is not UTF-8 becomes a character that is no digit.
    let text = String::from_utf8_lossy(text);
    let sides: Vec<Vec<u16>> = text.split("::").map(groups_of).collect::<Option<_>>()?;
    match &sides[..] {
        [all] => all[..].try_into().ok(),
        [before, after] if before.len() + after.len() < GROUPS => {
            let zeros = vec![0; GROUPS - before.len() - after.len()];
            [&before[..], &zeros, after].concat().try_into().ok()
        }
        _ => None,
    }
}

/// Groups parted by `:`; beside `::` there may be none.
fn groups_of(side: &str) -> Option<Vec<u16>> {
    if side.is_empty() { Some(Vec::new()) } else { side.split(':').map(group_of).collect() }
}

/// One to four hex digits, of either case.
fn group_of(field: &str) -> Option<u16> {
    let digits = field.bytes().all(|c| c.is_ascii_hexdigit());
    if digits && (1..=4).contains(&field.len()) { u16::from_str_radix(field, 16).ok() } else { None }
}

/// `::` stands for the longest run of zero groups, for the first of equal ones, and never for a single group.
pub fn write(groups: [u16; GROUPS]) -> String {
    let runs_of = |length: usize| (0..=GROUPS - length).map(move |start| start..start + length);
    let mut longest_first = (LEAST_RUN..=GROUPS).rev().flat_map(runs_of);
    match longest_first.find(|run| groups[run.clone()].iter().all(|group| *group == 0)) {
        Some(run) => format!("{}::{}", parted(&groups[..run.start]), parted(&groups[run.end..])),
        None => parted(&groups),
    }
}

fn parted(groups: &[u16]) -> String {
    groups.iter().map(|group| format!("{group:x}")).collect::<Vec<_>>().join(":")
}
