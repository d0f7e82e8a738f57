//! A sample of the requests, small enough to be stored, that shows each call's every kind of answer and its boundaries.

use std::collections::{BTreeMap, HashSet};

use crate::answer::{Answer, Found, Reply, reply};
use crate::calls::{self, INDEX_BYTES, INDEX_MARK};
use crate::make::Sequence;
use crate::words::bytes_of;

/// So many of the sample's characters may be in lines that are longer than `over`, up to the next band's.
struct Band {
    over: usize,
    most_characters: usize,
}

/// Lines about the most bytes, those that have an index or are answered with one, those about the most entries or 255 bytes,
/// and all others.
const LONG: Band = Band { over: 4_000, most_characters: 1_058_000 };
const WITH_INDEX: Band = Band { over: 2_000, most_characters: 60_000 };
const MIDDLING: Band = Band { over: 300, most_characters: 200_000 };
const SHORT: Band = Band { over: 0, most_characters: 250_000 };

const MOST_LONG_LINES: usize = 60;

/// Refusals of a value, which stand at its entry.
const OF_VALUES: &[u32] = &[4, 5, 12];

/// The refusals of an index that is not the dataset's, and of a lent output, be it the dataset's or the index's.
const OTHER_INDEX: u32 = 17;
const NO_ROOM: u32 = 11;

/// The refusal of a policy's length, which the mode decides.
const OTHER_LENGTH: u32 = 4;

/// So many characters over `WITH_INDEX`'s are few.
const FEW_BESIDE_INDEX: usize = 150;

/// The refusal of a field that cannot be written. It does not say which, but in most requests of few fields it is the last.
const NO_FIT: u32 = 15;

/// So many cases are looked through for each line of the sample, and no fewer than `LEAST_CASES`.
const CASES_A_LINE: usize = 20;
const LEAST_CASES: usize = 40_000;

/// A call, by its place in the table (past its end if there is no such call), and the kind of its answer.
type Kind = (usize, String);

/// `driver sample`: about `wanted` requests, ordered by call and kind.
pub fn sample(sequence: &Sequence, wanted: usize) -> Vec<String> {
    let mut kinds = requests_by_kind(sequence, (CASES_A_LINE * wanted).max(LEAST_CASES));
    let mut chosen = choose(LONG, long_ones(&mut kinds), MOST_LONG_LINES);
    chosen.extend(choose(WITH_INDEX, ones_with_index(&mut kinds), wanted / 3));
    let mut middling = take_over(MIDDLING.over, &mut kinds);
    // Those that nothing short shows come first.
    middling.sort_by_key(|(kind, _)| !kinds[kind].is_empty());
    chosen.extend(choose(MIDDLING, middling, wanted / 3));
    let left = wanted.saturating_sub(chosen.len());
    chosen.extend(choose(SHORT, take_over(SHORT.over, &mut kinds), left));
    chosen.sort_by_key(|(kind, request)| (kind.clone(), request.len()));
    chosen.into_iter().map(|(_, request)| request).collect()
}

/// The edges, then short ones of the cases, each request once.
fn requests_by_kind(sequence: &Sequence, cases: usize) -> BTreeMap<Kind, Vec<String>> {
    let mut kinds: BTreeMap<Kind, Vec<String>> = BTreeMap::new();
    let mut seen = HashSet::new();
    let short_ones = sequence.requests(0, cases as u64).filter(|request| request.len() <= MIDDLING.over);
    for request in sequence.edges().iter().cloned().chain(short_ones) {
        if seen.insert(request.clone()) {
            kinds.entry(kind_of(&request)).or_default().push(request);
        }
    }
    kinds
}

fn kind_of(request: &str) -> Kind {
    let name = request.split(' ').next();
    let place = calls::ALL.iter().position(|call| Some(call.name) == name);
    let label = match (place, reply(request.as_bytes())) {
        (Some(place), Reply::Answered(answer)) => label(calls::ALL[place].name, request, &answer),
        _ => "bad request".to_string(),
    };
    (place.unwrap_or(calls::ALL.len()), label)
}

fn label(call: &str, request: &str, answer: &Answer) -> String {
    match answer {
        Ok(Found::Value(words)) => match calls::refusal_printed(words) {
            Some(number) if call == "prog" => refused(number, 0),
            _ if call == "write" => format!("ok {}", last_type(request)),
            _ => format!("ok{}{}", form_of(call, words), mode_of(call, request)),
        },
        Ok(Found::Absent) => format!("absent{}", mode_of(call, request)),
        Err(refusal) if call == "diag" && OF_VALUES.contains(&refusal.number) => {
            let payload = request.split(' ').nth(1).unwrap_or_default();
            format!("{} type {}", refused(refusal.number, 0), &payload[2 * refusal.place..][..2])
        }
        Err(refusal) if call == "write" && refusal.number == NO_FIT => {
            format!("{} type {}", refused(refusal.number, 0), last_type(request))
        }
        Err(refusal) if refusal.number == OTHER_LENGTH => {
            format!("{}{}", refused(refusal.number, refusal.input), mode_of(call, request))
        }
        Err(refusal) => {
            format!("{}{}", refused(refusal.number, refusal.input), about_index(call, request, refusal.number))
        }
    }
}

/// Of a call on a policy: the mode that it is to be read in.
fn mode_of(call: &str, request: &str) -> &'static str {
    if !call.starts_with("pol.") {
        return "";
    }
    let mode = request.split(' ').nth(1).unwrap_or_default();
    if mode.ends_with('3') { " of three bytes" } else { " of four bytes" }
}

/// Of a call that takes an index: what is wrong with it, or that nothing but the new index has no room.
fn about_index(call: &str, request: &str, number: u32) -> &'static str {
    let words: Vec<&str> = request.split(' ').collect();
    match (call, number) {
        ("ixload" | "ixquery" | "ixlook", OTHER_INDEX) => fault_of_index(words[words.len() - 1]),
        ("ixset" | "ixremove", OTHER_INDEX) => fault_of_index(words[words.len() - 3]),
        ("ixset" | "ixremove", NO_ROOM) if fits_but_for_the_last(&words) => " for the index",
        _ => "",
    }
}

fn fits_but_for_the_last(words: &[&str]) -> bool {
    let much = u64::MAX.to_string();
    let with_room = [&words[..words.len() - 1], &[&much]].concat().join(" ");
    matches!(reply(with_room.as_bytes()), Reply::Answered(Ok(_)))
}

fn fault_of_index(word: &str) -> &'static str {
    match bytes_of(word.as_bytes()).unwrap_or_default() {
        stored if stored.len() != INDEX_BYTES => " by its length",
        stored if !stored.starts_with(&INDEX_MARK) => " by its mark",
        _ => " by what it tells",
    }
}

/// The last field of a record, by its type; the last answer of a pairing; of Network Data which kinds of rows it has; who
/// supplied a value, and whether it is empty; of a nested listing which kinds of lines it has.
fn form_of(call: &str, words: &str) -> String {
    let last = words.rsplit(' ').next().unwrap_or_default();
    match call {
        "diag" => format!(" {}", last_type(words)),
        "pair" => format!(" {}", last.trim_end_matches(|c: char| c.is_ascii_digit())),
        "template" => format!(" {}{}", &words[..1], if words[2..].starts_with('-') { " -" } else { " +" }),
        "nested" => lines_below_the_first_level(words),
        "nd" => last.split('|').map(|rows| if rows.ends_with('-') { " -" } else { " +" }).collect(),
        _ => String::new(),
    }
}

/// Items and cuts of the second level, items and cuts of the third.
fn lines_below_the_first_level(words: &str) -> String {
    let text = String::from_utf8(hex::decode(words).unwrap_or_default()).unwrap_or_default();
    let is = |line: &str, blanks: usize, cut: bool| {
        let item = line.trim_start();
        line.len() - item.len() == blanks && (item == "cut") == cut
    };
    let kinds = [(2, false), (2, true), (4, false), (4, true)];
    kinds.map(|(blanks, cut)| if text.lines().any(|line| is(line, blanks, cut)) { " +" } else { " -" }).concat()
}

/// Of the fields of a record.
fn last_type(words: &str) -> &str {
    let last = words.rsplit(' ').next().unwrap_or_default();
    last.split('=').next().unwrap_or_default()
}

fn refused(number: u32, input: u32) -> String {
    format!("refused {number} of {input}")
}

/// Takes the requests over a length out of each kind.
fn take_over(length: usize, kinds: &mut BTreeMap<Kind, Vec<String>>) -> Vec<(Kind, Vec<String>)> {
    let take = |(kind, requests): (&Kind, &mut Vec<String>)| {
        let taken = requests.extract_if(.., |request| request.len() > length).collect();
        (kind.clone(), taken)
    };
    kinds.iter_mut().map(take).collect()
}

/// Takes the long requests out, those nearest to a size first, by their own length and their answer's, and first those
/// kinds that nothing short shows, of calls that read alike the first before all others; then those that stand just over a
/// size, then just within it, then those that cost least.
fn long_ones(kinds: &mut BTreeMap<Kind, Vec<String>>) -> Vec<(Kind, Vec<String>)> {
    let mut long = take_over(LONG.over, kinds);
    for (kind, requests) in &mut long {
        requests.sort_by_cached_key(|request| request.len() + reply(request.as_bytes()).to_string().len());
        if !is_over_a_size(kind) {
            requests.reverse();
        }
    }
    long.retain(|(_, requests)| !requests.is_empty());
    let mut families = HashSet::new();
    let is_first = |kind: &Kind| families.insert((family_of(kind), kind.1.clone()));
    let first: HashSet<Kind> = long.iter().map(|(kind, _)| kind.clone()).filter(is_first).collect();
    long.sort_by_key(|(kind, requests)| {
        let shown_by_short = !kinds[kind].is_empty();
        let within_a_size = kind.1.starts_with("ok");
        (shown_by_short, !first.contains(kind), !is_over_a_size(kind), !within_a_size, requests[0].len())
    });
    long
}

/// Takes out those of the calls on an index that have one, or an answer with one, and keeps of each kind that nothing
/// shorter shows the longest of those that have few bytes beside the index, or else the shortest.
fn ones_with_index(kinds: &mut BTreeMap<Kind, Vec<String>>) -> Vec<(Kind, Vec<String>)> {
    let length = |request: &str| request.len() + reply(request.as_bytes()).to_string().len();
    let mut kept = Vec::new();
    for (kind, requests) in kinds.iter_mut().filter(|(kind, _)| is_on_an_index(kind)) {
        let mut taken: Vec<String> = requests.extract_if(.., |request| length(request) > WITH_INDEX.over).collect();
        taken.sort_by_key(String::len);
        let few = taken.partition_point(|request| request.len() <= WITH_INDEX.over + FEW_BESIDE_INDEX);
        if requests.is_empty() && !taken.is_empty() {
            kept.push((kind.clone(), vec![taken.swap_remove(few.saturating_sub(1))]));
        }
    }
    kept
}

fn is_on_an_index((place, _): &Kind) -> bool {
    calls::ALL.get(*place).is_some_and(|call| call.name == "index" || call.name.starts_with("ix"))
}

/// The first of the calls that test the size of their input as this one does: a dataset, a list, a hex text, a value of any length, or what the dot tells.
fn family_of((place, _): &Kind) -> &'static str {
    match calls::ALL.get(*place).map_or("", |call| call.name) {
        "rewrite" | "raw" | "tohex" | "set" | "push" | "remove" | "flat" => "frame",
        "wdelay" | "due" | "wdelay30" | "due30" => "frame",
        "ixload" | "ixquery" | "ixset" | "ixremove" => "index",
        "fold" => "ops",
        "hexdata" | "hexflat" => "hexframe",
        "v.pskc" | "v.name" => "v.pskc",
        "v.mask" => "v.mask",
        "pol.v" | "pol.thr" | "pol.set" | "pol.back" => "pol.v",
        "pol.q" => "pol.q",
        name => name.split('.').next().unwrap_or(name),
    }
}

fn is_over_a_size((_, label): &Kind) -> bool {
    [refused(1, 0), refused(1, 1), refused(10, 0), refused(13, 0)].contains(label)
}

/// A request of each kind in turn, then a second of each, and so on, as far as lines and characters reach.
fn choose(band: Band, kinds: Vec<(Kind, Vec<String>)>, lines: usize) -> Vec<(Kind, String)> {
    let mut chosen = Vec::new();
    let mut characters = band.most_characters;
    let rounds = kinds.iter().map(|(_, requests)| requests.len()).max().unwrap_or(0);
    for round in 0..rounds {
        for (kind, requests) in &kinds {
            let Some(request) = requests.get(round) else {
                continue;
            };
            if chosen.len() < lines && request.len() < characters {
                characters -= request.len() + 1;
                chosen.push((kind.clone(), request.clone()));
            }
        }
    }
    chosen
}
