//! The lines of a trace, each a slice of one buffer.
use crate::limits::{LONGEST_LINE, LONGEST_TRACE};
use crate::reading::Refusal;
use memchr::memchr;
use std::io::{self, Read};
use std::ops::Range;

const BUFFER: usize = 1 << 18;

pub struct Lines<R> {
    input: R,
    buffer: Box<[u8]>,
    /// What is read and not yet given is `buffer[start..end]`.
    start: usize,
    end: usize,
    /// How many bytes came before `buffer[0]`.
    before: u64,
    has_ended: bool,
}

pub enum Next {
    /// A line without its newline.
    Line(Range<usize>),
    Refused(Refusal),
    /// The buffer has no whole line: `fill` reads on.
    Empty,
    Ended,
}

impl<R: Read> Lines<R> {
    pub fn new(input: R) -> Lines<R> {
        Lines { input, buffer: vec![0; BUFFER].into_boxed_slice(), start: 0, end: 0, before: 0, has_ended: false }
    }

    pub fn bytes(&self, line: Range<usize>) -> &[u8] {
        &self.buffer[line]
    }

    /// The next line. It stays in the buffer until `fill` is called.
    #[inline]
    pub fn next(&mut self) -> Next {
        let start = self.start;
        let length = match memchr(b'\n', &self.buffer[start..self.end]) {
            Some(length) => length,
            None if self.end - start > LONGEST_LINE => return Next::Refused(Refusal::LineTooLong),
            None if !self.has_ended => return Next::Empty,
            None if start == self.end => return Next::Ended,
            None => self.end - start,
        };
        if length > LONGEST_LINE {
            return Next::Refused(Refusal::LineTooLong);
        }
        self.start = (start + length + 1).min(self.end);
        if self.before + self.start as u64 > LONGEST_TRACE {
            return Next::Refused(Refusal::TraceTooLong);
        }
        Next::Line(start..start + length)
    }

    /// Moves what is left to the front of the buffer, and reads more behind it.
    pub fn fill(&mut self) -> io::Result<()> {
        self.buffer.copy_within(self.start..self.end, 0);
        self.before += self.start as u64;
        self.end -= self.start;
        self.start = 0;
        loop {
            match self.input.read(&mut self.buffer[self.end..]) {
                Ok(count) => {
                    self.end += count;
                    self.has_ended = count == 0;
                    return Ok(());
                }
                Err(error) if error.kind() == io::ErrorKind::Interrupted => {}
                Err(error) => return Err(error),
            }
        }
    }
}
