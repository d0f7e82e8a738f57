//! The comparison: our answers and the Rust's to the same requests, line by line, with nothing dropped.

use std::fs::File;
use std::io::{self, BufReader};

use crate::calls;
use crate::figures::{Figures, NO_CALL, Verdict};
use crate::lines::Lines;

/// So many differences are shown; all are counted.
const MOST_SHOWN: u64 = 20;

/// Of a long line so much is shown from its start, and from its end.
const SHOWN_START: usize = 160;
const SHOWN_END: usize = 40;

/// Prints the first differences and gives the figures. A file that ends early lacks the answers of the cases that are left.
pub fn compare(requests: &str, ours: &str, theirs: &str) -> io::Result<Figures> {
    let mut requests = open(requests)?;
    let mut ours = open(ours)?;
    let mut theirs = open(theirs)?;
    let mut figures = Figures::default();
    for number in 1u64.. {
        let (request, our_line, their_line) = (requests.next()?, ours.next()?, theirs.next()?);
        if request.is_none() && our_line.is_none() && their_line.is_none() {
            break;
        }
        let verdict = verdict(request, our_line, their_line);
        if verdict == Verdict::Different && figures.of(verdict) < MOST_SHOWN {
            println!("line {number}");
            println!("  request: {}", shown(request));
            println!("  ours:    {}", shown(our_line));
            println!("  theirs:  {}", shown(their_line));
        }
        figures.count(call_of(request), verdict);
    }
    Ok(figures)
}

fn open(path: &str) -> io::Result<Lines<BufReader<File>>> {
    let file = File::open(path).map_err(|error| io::Error::new(error.kind(), format!("{path}: {error}")))?;
    Ok(Lines::of(BufReader::with_capacity(1 << 16, file)))
}

fn verdict(request: Option<&[u8]>, ours: Option<&[u8]>, theirs: Option<&[u8]>) -> Verdict {
    match (request, ours, theirs) {
        (Some(_), Some(ours), Some(theirs)) if ours == theirs => kind_of(theirs),
        _ => Verdict::Different,
    }
}

fn call_of(request: Option<&[u8]>) -> &'static str {
    let name = request.unwrap_or_default().split(|&c| c == b' ').next();
    let call = calls::ALL.iter().find(|call| Some(call.name.as_bytes()) == name);
    call.map_or(NO_CALL, |call| call.name)
}

/// What kind of answer a line is. One that is of no kind, or shows touched memory, is right on neither side.
pub fn kind_of(line: &[u8]) -> Verdict {
    let mut words = line.split(|&c| c == b' ');
    if line.ends_with(b" dirty") {
        return Verdict::Different;
    }
    match words.next() {
        Some(b"ok") => Verdict::Ok,
        Some(b"absent") => Verdict::Absent,
        Some(b"bad") => Verdict::BadRequest,
        Some(b"refused") => words.next().and_then(number_of).map_or(Verdict::Different, Verdict::Refused),
        _ => Verdict::Different,
    }
}

fn number_of(word: &[u8]) -> Option<u32> {
    std::str::from_utf8(word).ok()?.parse().ok()
}

fn shown(line: Option<&[u8]>) -> String {
    let Some(line) = line else {
        return "(no line)".to_string();
    };
    if line.len() <= SHOWN_START + SHOWN_END {
        return line.escape_ascii().to_string();
    }
    let start = line[..SHOWN_START].escape_ascii();
    let end = line[line.len() - SHOWN_END..].escape_ascii();
    format!("{start} ... {end} ({} characters)", line.len())
}
