//! The text of a report, collected and written in large pieces.
use std::io::{self, Write};

const LONGEST: usize = 1 << 16;

pub struct Report<W: Write> {
    out: W,
    text: Vec<u8>,
    numbers: itoa::Buffer,
}

impl<W: Write> Report<W> {
    pub fn new(out: W) -> Report<W> {
        Report { out, text: Vec::with_capacity(2 * LONGEST), numbers: itoa::Buffer::new() }
    }

    pub fn text(&mut self, text: &str) -> &mut Self {
        self.text.extend_from_slice(text.as_bytes());
        self
    }

    pub fn number(&mut self, number: u64) -> &mut Self {
        self.text.extend_from_slice(self.numbers.format(number).as_bytes());
        self
    }

    /// Ends a line, and writes what there is if that is much.
    pub fn end_line(&mut self) -> io::Result<()> {
        self.text.push(b'\n');
        if self.text.len() >= LONGEST {
            self.flush()?;
        }
        Ok(())
    }

    pub fn flush(&mut self) -> io::Result<()> {
        if !self.text.is_empty() {
            self.out.write_all(&self.text)?;
            self.text.clear();
        }
        Ok(())
    }
}
