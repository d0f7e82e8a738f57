//! Sizes of lent outputs for requests, at or about what the result needs; the need is asked of the answer itself.

use super::about::some_most_bytes;
use crate::answer::{Found, Reply, reply};
use crate::calls::INDEX_BYTES;
use crate::random::Random;
use crate::sizes::MOST_BYTES;

/// More than any call writes: a nested listing has at most 7 characters for each byte, of Network Data.
pub const MUCH: u64 = 8 * MOST_BYTES as u64;

/// The words, and after them a random cap.
pub fn with_cap(random: &mut Random, call: &str, words: &str) -> String {
    let cap = random_cap(random, need_of(call, words));
    format!("{words} {cap}")
}

/// The fields of a record, and before them a random cap.
pub fn with_cap_before(random: &mut Random, fields: &str) -> String {
    let cap = random_cap(random, need_of_fields(fields));
    format!("{cap} {fields}")
}

fn random_cap(random: &mut Random, need: Option<u64>) -> u64 {
    let need = need.unwrap_or_else(|| random.below(40) as u64);
    match random.below(16) {
        0..=4 => need.saturating_sub(1),
        5..=8 => need,
        9..=10 => need + 1,
        11 => 0,
        12 => random.below(need as usize + 1) as u64,
        13 => need + random.between(2, 1_000) as u64,
        14 => MUCH,
        _ if random.once_in(4) => u64::MAX,
        _ => some_most_bytes(random) as u64,
    }
}

/// The words with each cap at the edge.
pub fn with_each_edge_cap(call: &str, words: &str) -> Vec<String> {
    let caps = edge_caps(need_of(call, words));
    caps.iter().map(|cap| format!("{words} {cap}")).collect()
}

/// The fields of a record with each cap at the edge.
pub fn with_each_edge_cap_before(fields: &str) -> Vec<String> {
    let caps = edge_caps(need_of_fields(fields));
    caps.iter().map(|cap| format!("{cap} {fields}")).collect()
}

/// Each of the words with one of its caps at the edge, in turn.
pub fn with_edge_caps_in_turn(call: &str, all_words: &[String]) -> Vec<String> {
    let with_one_cap = |(turn, words): (usize, &String)| {
        let caps = edge_caps(need_of(call, words));
        format!("{words} {}", caps[turn % caps.len()])
    };
    all_words.iter().enumerate().map(with_one_cap).collect()
}

/// The fields of each record with one of its caps at the edge, in turn.
pub fn with_edge_caps_before_in_turn(records: &[String]) -> Vec<String> {
    let with_one_cap = |(turn, fields): (usize, &String)| {
        let caps = edge_caps(need_of_fields(fields));
        format!("{} {fields}", caps[turn % caps.len()])
    };
    records.iter().enumerate().map(with_one_cap).collect()
}

/// Just enough, one too few, one too many; where the call refuses whatever is lent, much and nothing.
fn edge_caps(need: Option<u64>) -> Vec<u64> {
    match need {
        Some(need) => vec![need, need.saturating_sub(1), need + 1],
        None => vec![MUCH, 0],
    }
}

/// The length of what the call would write, or how many answers it gives, unless it refuses for another reason.
pub fn need_of(call: &str, words: &str) -> Option<u64> {
    let answer = answer_to(format!("{call} {words} {}", u64::MAX))?;
    if call == "pair" { answer.split(' ').next()?.parse().ok() } else { Some(bytes_in(&answer)) }
}

/// The length of the payload that is written of these fields, unless they are refused for another reason.
pub fn need_of_fields(fields: &str) -> Option<u64> {
    Some(bytes_in(&answer_to(format!("write {} {fields}", u64::MAX))?))
}

/// Of two outputs, the first.
fn bytes_in(answer: &str) -> u64 {
    let word = answer.split(' ').next().unwrap_or_default();
    if word == "-" { 0 } else { word.len() as u64 / 2 }
}

fn answer_to(request: String) -> Option<String> {
    match reply(request.as_bytes()) {
        Reply::Answered(Ok(Found::Value(answer))) => Some(answer),
        _ => None,
    }
}

/// The words, and after them random caps of an edited dataset and of its index.
pub fn with_caps_of_both(random: &mut Random, call: &str, words: &str) -> String {
    let cap = random_cap(random, need_beside_index(call, words));
    let index_cap = match random.below(10) {
        0..=6 => INDEX_BYTES,
        7 => INDEX_BYTES - 1,
        8 => random.pick(&[0, INDEX_BYTES + 1, 2_000]),
        _ => random.below(2 * INDEX_BYTES),
    };
    format!("{words} {cap} {index_cap}")
}

/// The words with the caps of both outputs at each edge.
pub fn with_each_edge_of_both(call: &str, words: &str) -> Vec<String> {
    edges_of_both(call, words).iter().map(|(cap, index_cap)| format!("{words} {cap} {index_cap}")).collect()
}

/// Each of the words with one of the edges of both its caps, in turn.
pub fn with_edges_of_both_in_turn(call: &str, all_words: &[String]) -> Vec<String> {
    let with_one = |(turn, words): (usize, &String)| {
        let edges = edges_of_both(call, words);
        let (cap, index_cap) = edges[turn % edges.len()];
        format!("{words} {cap} {index_cap}")
    };
    all_words.iter().enumerate().map(with_one).collect()
}

/// Just enough of both, one too few in either or in both, one too many, nothing, and much; where the call refuses whatever
/// is lent, the last.
fn edges_of_both(call: &str, words: &str) -> Vec<(u64, u64)> {
    let index = INDEX_BYTES as u64;
    let Some(need) = need_beside_index(call, words) else {
        return vec![(MUCH, MUCH), (0, 0), (0, index), (MUCH, index - 1)];
    };
    let fewer = need.saturating_sub(1);
    let about = [(need, index), (fewer, index), (need, index - 1), (fewer, index - 1), (need + 1, index + 1)];
    [&about[..], &[(need, 0), (0, index), (0, 0), (MUCH, 2_000)]].concat()
}

fn need_beside_index(call: &str, words: &str) -> Option<u64> {
    need_of(call, &format!("{words} {}", u64::MAX))
}

/// The words, and after them random sizes of the tables of prefixes, HasRoute and BorderRouter rows.
pub fn with_tables(random: &mut Random, call: &str, words: &str) -> String {
    let mut tables = table_needs(call, words).unwrap_or([0, 1, 2]);
    let one = random.below(tables.len());
    match random.below(16) {
        0..=6 => {}
        7..=11 => tables[one] = tables[one].saturating_sub(1),
        12 => tables[one] += 1,
        13 => tables = tables.map(|need| random.below(need as usize + 2) as u64),
        14 => tables = [MUCH; 3],
        _ => tables[one] = 0,
    }
    tables_words(words, tables)
}

/// The words with each of the tables at its edge.
pub fn with_each_edge_tables(call: &str, words: &str) -> Vec<String> {
    edge_tables(call, words).into_iter().map(|tables| tables_words(words, tables)).collect()
}

/// Each of the words with one of the edges of its tables, in turn.
pub fn with_edge_tables_in_turn(call: &str, all_words: &[String]) -> Vec<String> {
    let with_one = |(turn, words): (usize, &String)| {
        let edges = edge_tables(call, words);
        tables_words(words, edges[turn % edges.len()])
    };
    all_words.iter().enumerate().map(with_one).collect()
}

/// Just enough, one too few or too many in each table, nothing, and much; where the call refuses whatever is lent, the last.
fn edge_tables(call: &str, words: &str) -> Vec<[u64; 3]> {
    let Some(needs) = table_needs(call, words) else {
        return vec![[0; 3], [u64::MAX; 3]];
    };
    let mut edges = vec![needs];
    for table in 0..needs.len() {
        let (mut fewer, mut more) = (needs, needs);
        fewer[table] = fewer[table].saturating_sub(1);
        more[table] += 1;
        edges.extend([fewer, more]);
    }
    edges.extend([[0; 3], [u64::MAX; 3]]);
    edges
}

fn tables_words(words: &str, [prefixes, has_routes, border_routers]: [u64; 3]) -> String {
    format!("{words} {prefixes} {has_routes} {border_routers}")
}

/// The rows of the record's Network Data, unless the call refuses for another reason.
fn table_needs(call: &str, words: &str) -> Option<[u64; 3]> {
    let answer = answer_to(format!("{call} {}", tables_words(words, [u64::MAX; 3])))?;
    let text = answer.split(' ').find_map(|field| field.strip_prefix("7=")).unwrap_or("-|-|-");
    let mut rows = text.split('|').map(|rows| if rows == "-" { 0 } else { rows.split('/').count() as u64 });
    Some([rows.next()?, rows.next()?, rows.next()?])
}
