//! What a request is answered: a value, "absent" or a refusal, and its line as PROBE.md has it.

use std::fmt;
use std::io::{self, BufRead, Write};

use crate::calls;
use crate::lines::Lines;
use crate::words::Words;

/// Document 01's refusal: its number, the place, and which input (0 first, 1 second).
#[derive(Debug, Clone, Copy, PartialEq, Eq)]
pub struct Refusal {
    pub number: u32,
    pub place: usize,
    pub input: u32,
}

impl Refusal {
    /// A refusal of the first or only input.
    pub fn at(number: u32, place: usize) -> Self {
        Self { number, place, input: 0 }
    }

    /// The same refusal, met in the second input.
    pub fn of_second(self) -> Self {
        Self { input: 1, ..self }
    }
}

/// What a call that does not refuse answers.
#[derive(Debug)]
pub enum Found {
    /// The words after `ok`, if there are any.
    Value(String),
    /// For queries, when the type is not there.
    Absent,
}

pub type Answer = Result<Found, Refusal>;

/// The one answer to a request line.
pub enum Reply {
    Answered(Answer),
    BadRequest,
}

impl fmt::Display for Reply {
    fn fmt(&self, f: &mut fmt::Formatter<'_>) -> fmt::Result {
        match self {
            Reply::Answered(Ok(Found::Value(words))) if words.is_empty() => write!(f, "ok"),
            Reply::Answered(Ok(Found::Value(words))) => write!(f, "ok {words}"),
            Reply::Answered(Ok(Found::Absent)) => write!(f, "absent"),
            Reply::Answered(Err(refusal)) => {
                write!(f, "refused {} {} {}", refusal.number, refusal.place, refusal.input)
            }
            Reply::BadRequest => write!(f, "bad request"),
        }
    }
}

/// PROBE.md: a line may be up to 600,000 characters long.
pub const LONGEST_LINE: usize = 600_000;

/// Answers one request line, given without its newline.
pub fn reply(line: &[u8]) -> Reply {
    if line.len() > LONGEST_LINE {
        return Reply::BadRequest;
    }
    let mut words = Words::of(line);
    match answer(&mut words) {
        Some(answer) if words.are_all_read() => Reply::Answered(answer),
        _ => Reply::BadRequest,
    }
}

fn answer(words: &mut Words) -> Option<Answer> {
    let name = words.word()?;
    let call = calls::ALL.iter().find(|call| call.name.as_bytes() == name)?;
    (call.answer)(words)
}

/// `driver answer`: one answer line for each request line, in order.
pub fn answer_all(requests: impl BufRead, mut answers: impl Write) -> io::Result<()> {
    let mut lines = Lines::of(requests);
    while let Some(line) = lines.next()? {
        writeln!(answers, "{}", reply(line))?;
    }
    answers.flush()
}
