//! What a comparison counted, and how that is told: in one line, or in a table with a row for each call.

use std::collections::{BTreeMap, BTreeSet};
use std::fmt;

use crate::calls;

/// Refusals that the Rust itself has, though not by these numbers.
const OF_THE_RUST: &[u32] = &[2, 4, 5, 6, 7, 8, 13];
/// Refusals that are only about sizes which the Rust does not have.
const OF_OUR_SIZES: &[u32] = &[1, 3, 10, 11, 12];

/// Stands for the call in requests that name none.
pub const NO_CALL: &str = "-";

/// What both sides said about a case, or that they did not say the same.
#[derive(Debug, Clone, Copy, PartialEq, Eq, PartialOrd, Ord)]
pub enum Verdict {
    Ok,
    Absent,
    Refused(u32),
    BadRequest,
    Different,
}

/// How often each verdict was met, call by call.
#[derive(Default)]
pub struct Figures {
    counts: BTreeMap<(String, Verdict), u64>,
}

impl Figures {
    pub fn count(&mut self, call: &str, verdict: Verdict) {
        self.add(call, verdict, 1);
    }

    /// Of all calls.
    pub fn of(&self, verdict: Verdict) -> u64 {
        self.sum(|_, other| other == verdict)
    }

    fn sum(&self, chosen: impl Fn(&str, Verdict) -> bool) -> u64 {
        self.counts.iter().filter(|((call, verdict), _)| chosen(call, *verdict)).map(|(_, count)| count).sum()
    }

    fn add(&mut self, call: &str, verdict: Verdict, count: u64) {
        *self.counts.entry((call.to_string(), verdict)).or_default() += count;
    }

    pub fn add_all(&mut self, others: &Figures) {
        for ((call, verdict), &count) in &others.counts {
            self.add(call, *verdict, count);
        }
    }

    /// For a file that sums up several comparisons: a line for each call's every verdict, its word and its count.
    pub fn to_text(&self) -> String {
        let line =
            |((call, verdict), count): (&(String, Verdict), &u64)| format!("{call} {} {count}\n", word_of(*verdict));
        self.counts.iter().map(line).collect()
    }

    /// `None` if the text is not one of `to_text`.
    pub fn from_text(text: &str) -> Option<Self> {
        let mut figures = Self::default();
        for line in text.lines() {
            let mut words = line.split(' ');
            let (call, word, count) = (words.next()?, words.next()?, words.next()?);
            figures.add(call, verdict_of(word)?, count.parse().ok()?);
        }
        Some(figures)
    }

    /// A row for each call, in the order of the table of calls: `diag: ok 31, 2: 7, 4: 12, bad-request 1`.
    pub fn table(&self) -> String {
        let names = calls::ALL.iter().map(|call| call.name).chain([NO_CALL]);
        names.filter_map(|name| self.row(name)).collect()
    }

    fn row(&self, name: &str) -> Option<String> {
        let of_call = self.counts.iter().filter(|((call, _), _)| call == name);
        let cells: Vec<String> = of_call.map(|((_, verdict), count)| cell(*verdict, *count)).collect();
        if cells.is_empty() { None } else { Some(format!("{name}: {}\n", cells.join(", "))) }
    }

    /// `2: 31, 7: 4` for those of the numbers that occurred, or `none`.
    fn refused(&self, chosen: impl Fn(u32) -> bool) -> String {
        let numbers: BTreeSet<u32> = self.counts.keys().filter_map(|(_, verdict)| number_of(*verdict)).collect();
        let met = numbers.into_iter().filter(|number| chosen(*number)).map(Verdict::Refused);
        let cells: Vec<String> = met.map(|verdict| cell(verdict, self.of(verdict))).collect();
        if cells.is_empty() { "none".to_string() } else { cells.join(", ") }
    }
}

fn cell(verdict: Verdict, count: u64) -> String {
    let mark = if number_of(verdict).is_some() { ":" } else { "" };
    format!("{}{mark} {count}", word_of(verdict))
}

fn number_of(verdict: Verdict) -> Option<u32> {
    match verdict {
        Verdict::Refused(number) => Some(number),
        _ => None,
    }
}

fn word_of(verdict: Verdict) -> String {
    match verdict {
        Verdict::Ok => "ok".to_string(),
        Verdict::Absent => "absent".to_string(),
        Verdict::Refused(number) => number.to_string(),
        Verdict::BadRequest => "bad-request".to_string(),
        Verdict::Different => "different".to_string(),
    }
}

fn verdict_of(word: &str) -> Option<Verdict> {
    match word {
        "ok" => Some(Verdict::Ok),
        "absent" => Some(Verdict::Absent),
        "bad-request" => Some(Verdict::BadRequest),
        "different" => Some(Verdict::Different),
        number => number.parse().ok().map(Verdict::Refused),
    }
}

impl fmt::Display for Figures {
    fn fmt(&self, f: &mut fmt::Formatter<'_>) -> fmt::Result {
        let by_size = |number| OF_OUR_SIZES.contains(&number);
        let in_the_rust = |number| OF_THE_RUST.contains(&number);
        let ours_alone = |number| !in_the_rust(number) && !by_size(number);
        let added = |call: &str| calls::NOT_IN_THE_RUST.contains(&call);
        let ok_of_rust = self.sum(|call, verdict| verdict == Verdict::Ok && !added(call));
        let ok_of_added = self.sum(|call, verdict| verdict == Verdict::Ok && added(call));
        write!(f, "{} cases: ", self.sum(|_, _| true))?;
        write!(f, "ok {ok_of_rust} by the Rust, {ok_of_added} of calls that it lacks; ")?;
        write!(f, "absent {}; ", self.of(Verdict::Absent))?;
        write!(f, "refused as by the Rust ({}); ", self.refused(in_the_rust))?;
        write!(f, "refused by our sizes alone ({}); ", self.refused(by_size))?;
        write!(f, "refused by what we added ({}); ", self.refused(ours_alone))?;
        write!(f, "bad requests {}; ", self.of(Verdict::BadRequest))?;
        write!(f, "differences unexplained {}", self.of(Verdict::Different))
    }
}
