//! What gcaudit is measured against: a program that a Rust programmer would write for the same traces and the same report, with care for
//! speed and with nothing proved.
//!
//! Usage: plain_rust [--workers N] [--paths N] [--large] [--value] [--only-read] < TRACE
//! It takes all operations, checks all five assertions, and refuses the lines that gcaudit refuses, with the same words. It reads each line with
//! serde into a struct that borrows from it, or, with `--value`, as serde_json's `Value`, as it does each line that is unusual. It applies what
//! it read to objects in numbered cells, and traces the heap at each collection over one header word for each cell, with crossbeam's deques
//! where there are several workers. With `--only-read` it reads the lines and applies nothing. With `--large` there may be 134,217,728 live
//! objects, 1,073,741,824 slots and 1,048,576 roots.
mod collection;
mod heap;
mod ids;
mod limits;
mod lines;
mod names;
mod paths;
mod reading;
mod report;
mod shown_paths;
mod slots;
mod trace;
mod verdicts;

use collection::Auditor;
use limits::{Limits, LARGE, USUAL};
use lines::{Lines, Next};
use reading::{read_borrowed, read_value, Refusal};
use report::Report;
use std::io::{self, Write};
use std::process::ExitCode;

struct Words {
    workers: usize,
    paths: usize,
    limits: Limits,
    by_value: bool,
    only_read: bool,
}

fn words() -> Words {
    let mut found = Words { workers: 1, paths: 100, limits: USUAL, by_value: false, only_read: false };
    let mut given = std::env::args().skip(1);
    while let Some(word) = given.next() {
        let mut number = || given.next().and_then(|text| text.parse().ok()).expect("a number");
        match word.as_str() {
            "--workers" => found.workers = number(),
            "--paths" => found.paths = number(),
            "--large" => found.limits = LARGE,
            "--value" => found.by_value = true,
            "--only-read" => found.only_read = true,
            other => panic!("unknown word {other}"),
        }
    }
    found
}

struct Audit<W: Write> {
    words: Words,
    auditor: Auditor,
    out: Report<W>,
}

impl<W: Write> Audit<W> {
    /// Reads a line, and applies what it says.
    #[inline]
    fn take(&mut self, line: &[u8]) -> io::Result<Result<(), Refusal>> {
        if !self.words.by_value {
            if let Some(operation) = read_borrowed(line) {
                return if self.words.only_read { Ok(Ok(())) } else { self.auditor.apply(&operation, &mut self.out) };
            }
        }
        match read_value(line) {
            Ok(Some(operation)) if !self.words.only_read => self.auditor.apply(&operation, &mut self.out),
            Ok(_) => Ok(Ok(())),
            Err(refusal) => Ok(Err(refusal)),
        }
    }
}

fn main() -> io::Result<ExitCode> {
    let words = words();
    let mut lines = Lines::new(io::stdin().lock());
    let auditor = Auditor::new(words.workers, words.paths, words.limits);
    let mut audit = Audit { words, auditor, out: Report::new(io::stdout().lock()) };
    let mut number = 0u64;
    let refusal = loop {
        let line = match lines.next() {
            Next::Line(line) => line,
            Next::Empty => {
                // all that was found is said before more is waited for
                audit.out.flush()?;
                lines.fill()?;
                continue;
            }
            Next::Ended => break None,
            Next::Refused(refusal) => {
                number += 1;
                break Some(refusal);
            }
        };
        number += 1;
        if let Err(refusal) = audit.take(lines.bytes(line))? {
            break Some(refusal);
        }
    };
    let Audit { auditor, mut out, .. } = audit;
    let status = match refusal {
        Some(refusal) => {
            out.text("fault line ").number(number).text(": ").text(&refusal.to_string()).end_line()?;
            2
        }
        None => {
            out.text("end gcs ").number(auditor.collections).text(" violations ").number(auditor.violations).end_line()?;
            u8::from(auditor.violations > 0)
        }
    };
    out.flush()?;
    // what is left of the heap is not given back piece by piece
    std::mem::forget(auditor);
    Ok(ExitCode::from(status))
}
