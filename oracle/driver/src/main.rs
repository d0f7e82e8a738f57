//! The Rust's side of the differential test: makes requests of PROBE.md, answers them by the Rust, and compares answers.

#![forbid(unsafe_code)]

mod answer;
mod calls;
mod compare;
mod decoded;
mod figures;
mod framed;
mod lines;
mod make;
mod operations;
mod random;
mod rules;
mod sample;
mod sizes;
mod words;

use std::error::Error;
use std::io::{self, BufWriter, Write};
use std::process::ExitCode;

use figures::{Figures, Verdict};
use make::Sequence;

const USAGE: &str = "\
driver answer                                 answers the request lines of standard input by the Rust
driver make CASES SEED [CALLS [FIRST]]        writes the requests of cases FIRST (0) and on; CALLS: `all`, names parted by commas,
                                              or `three-byte-names`, v.name with all of these in order
driver compare REQUESTS OURS THEIRS [TALLY]   compares two files of answers; adds the figures to those in the file TALLY
driver figures TALLY                          prints the figures in the file TALLY
driver table TALLY                            prints them call by call
driver sample LINES SEED                      writes about so many requests that show every kind of answer";

fn main() -> ExitCode {
    let words: Vec<String> = std::env::args().skip(1).collect();
    let words: Vec<&str> = words.iter().map(String::as_str).collect();
    match run(&words) {
        Ok(status) => status,
        Err(error) => {
            eprintln!("driver: {error}");
            ExitCode::from(2)
        }
    }
}

fn run(words: &[&str]) -> Result<ExitCode, Box<dyn Error>> {
    match words {
        ["answer"] => answer::answer_all(io::stdin().lock(), output())?,
        ["make", cases, seed] => make(cases, seed, "all", "0")?,
        ["make", cases, seed, calls] => make(cases, seed, calls, "0")?,
        ["make", cases, seed, calls, first] => make(cases, seed, calls, first)?,
        ["compare", requests, ours, theirs] => return compare(requests, ours, theirs, None),
        ["compare", requests, ours, theirs, tally] => {
            return compare(requests, ours, theirs, Some(tally));
        }
        ["figures", tally] => println!("{}", read_tally(tally)?),
        ["table", tally] => print!("{}", read_tally(tally)?.table()),
        ["sample", lines, seed] => sample(lines, seed)?,
        _ => return Err(format!("not a command; these are:\n{USAGE}").into()),
    }
    Ok(ExitCode::SUCCESS)
}

fn output() -> BufWriter<io::StdoutLock<'static>> {
    BufWriter::with_capacity(1 << 16, io::stdout().lock())
}

fn sequence(seed: &str, calls: &str) -> Result<Sequence, Box<dyn Error>> {
    let calls: Vec<&str> = if calls == "all" { Vec::new() } else { calls.split(',').collect() };
    Sequence::new(seed.parse()?, &calls).map_err(|call| format!("no requests are made for `{call}`").into())
}

fn make(cases: &str, seed: &str, calls: &str, first: &str) -> Result<(), Box<dyn Error>> {
    let (first, cases) = (first.parse()?, cases.parse()?);
    match calls {
        "three-byte-names" => write_lines(make::three_byte_names(first, cases)),
        _ => write_lines(sequence(seed, calls)?.requests(first, cases)),
    }
}

fn write_lines(lines: impl IntoIterator<Item = String>) -> Result<(), Box<dyn Error>> {
    let mut output = output();
    for line in lines {
        writeln!(output, "{line}")?;
    }
    Ok(output.flush()?)
}

fn compare(requests: &str, ours: &str, theirs: &str, tally: Option<&str>) -> Result<ExitCode, Box<dyn Error>> {
    let figures = compare::compare(requests, ours, theirs)?;
    println!("{figures}");
    if let Some(tally) = tally {
        add_to_tally(tally, &figures)?;
    }
    Ok(if figures.of(Verdict::Different) == 0 { ExitCode::SUCCESS } else { ExitCode::FAILURE })
}

fn add_to_tally(path: &str, figures: &Figures) -> Result<(), Box<dyn Error>> {
    let mut sum = if std::fs::exists(path)? { read_tally(path)? } else { Figures::default() };
    sum.add_all(figures);
    Ok(std::fs::write(path, sum.to_text())?)
}

fn read_tally(path: &str) -> Result<Figures, Box<dyn Error>> {
    Figures::from_text(&std::fs::read_to_string(path)?).ok_or_else(|| format!("{path} is no tally").into())
}

fn sample(lines: &str, seed: &str) -> Result<(), Box<dyn Error>> {
    write_lines(sample::sample(&sequence(seed, "all")?, lines.parse()?))
}
