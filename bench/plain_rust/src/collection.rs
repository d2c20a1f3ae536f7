//! A collection: the heap is traced, the five assertions are checked, and what was not reached is freed.
use crate::heap::Heap;
use crate::limits::Limits;
use crate::reading::{Operation, Refusal};
use crate::report::Report;
use crate::shown_paths::ShownPaths;
use crate::trace::trace;
use crate::verdicts::{self, Verdict};
use std::io::{self, Write};

pub struct Auditor {
    heap: Heap,
    workers: usize,
    paths: usize,
    pub collections: u64,
    pub violations: u64,
}

impl Auditor {
    pub fn new(workers: usize, paths: usize, limits: Limits) -> Auditor {
        Auditor { heap: Heap::new(limits), workers, paths, collections: 0, violations: 0 }
    }

    /// Applies an operation, or says why it is refused.
    #[inline]
    pub fn apply(&mut self, operation: &Operation, out: &mut Report<impl Write>) -> io::Result<Result<(), Refusal>> {
        if let Operation::Collect = operation {
            self.collect(out)?;
            return Ok(Ok(()));
        }
        Ok(self.heap.step(operation))
    }

    fn collect(&mut self, out: &mut Report<impl Write>) -> io::Result<()> {
        let traced = trace(&self.heap, self.workers);
        let verdicts = verdicts::list(&self.heap);
        self.collections += 1;
        let live = self.heap.live();
        out.text("gc ").number(self.collections).text(" live ").number(u64::from(live)).text(" traced ").number(u64::from(traced));
        out.text(" freed ").number(u64::from(live - traced)).end_line()?;
        self.write_verdicts(&verdicts, out)?;
        self.violations += verdicts.len() as u64;
        self.heap.sweep();
        Ok(())
    }

    fn write_verdicts(&mut self, verdicts: &[Verdict], out: &mut Report<impl Write>) -> io::Result<()> {
        let (shown, others) = verdicts.split_at(verdicts.len().min(self.paths));
        let paths = ShownPaths::find(&mut self.heap, shown);
        let heap = paths.heap();
        for (number, verdict) in shown.iter().chain(others).enumerate() {
            out.text("gc ").number(self.collections).text(" ");
            verdict.write_head(heap, out);
            out.text(": ");
            if number < shown.len() {
                paths.write(verdict, out);
            } else {
                out.text("path left out");
            }
            out.end_line()?;
        }
        Ok(())
    }
}
