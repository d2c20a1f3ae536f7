//! The paths of the verdicts that show one: what is searched for all of them together, and how each is written.
use crate::heap::{Heap, COUNT, IS_OWNER, IS_UNDER};
use crate::paths::{write_arrow, write_owner, Levels};
use crate::report::Report;
use crate::verdicts::Verdict;
use rustc_hash::FxHashMap;
use std::io::Write;

/// A reference to an object: by the root with this number, or by a slot of the object in a cell.
#[derive(Clone, Copy)]
enum Reference {
    Root(u32),
    Slot { holder: u32, slot: u32 },
}

pub struct ShownPaths<'a> {
    heap: &'a Heap,
    by_roots: Option<Levels>,
    by_owners: Option<Levels>,
    /// By paths with no object that is owned on them.
    unowned: Option<Levels>,
    /// The first two references to each object that is shared.
    references: FxHashMap<u32, Vec<Reference>>,
}

fn with_mark(heap: &Heap, marks: u64) -> Vec<u32> {
    let mut cells: Vec<u32> = (0..).zip(&heap.headers).filter(|(_, header)| header.has(marks)).map(|(cell, _)| cell).collect();
    heap.sort(&mut cells);
    cells
}

impl<'a> ShownPaths<'a> {
    pub fn find(heap: &'a mut Heap, shown: &[Verdict]) -> ShownPaths<'a> {
        if !shown.is_empty() {
            heap.roots.sort();
        }
        let heap = &*heap;
        let (mut plain, mut shared, mut owned) = (Vec::new(), Vec::new(), Vec::new());
        for verdict in shown {
            match *verdict {
                Verdict::Dead { cell } | Verdict::Instances { cell, .. } => plain.push(cell),
                Verdict::Unshared { cell } => shared.push(cell),
                Verdict::OwnedBy { cell, .. } => owned.push(cell),
            }
        }
        let references = first_references(heap, &shared);
        plain.extend(references.values().flatten().filter_map(|reference| match reference {
            Reference::Slot { holder, .. } => Some(*holder),
            Reference::Root(_) => None,
        }));
        let by_roots = (!plain.is_empty()).then(|| Levels::find(heap, true, &[], 0, &plain));
        plain.retain(|cell| !has(&by_roots, *cell));
        let by_owners = (!plain.is_empty()).then(|| Levels::find(heap, false, &with_mark(heap, IS_OWNER), 0, &plain));
        let unowned = (!owned.is_empty()).then(|| Levels::find(heap, true, &[], IS_UNDER | IS_OWNER, &owned));
        ShownPaths { heap, by_roots, by_owners, unowned, references }
    }

    pub fn heap(&self) -> &'a Heap {
        self.heap
    }

    pub fn write(&self, verdict: &Verdict, out: &mut Report<impl Write>) {
        match *verdict {
            Verdict::Dead { cell } | Verdict::Instances { cell, .. } => self.write_plain(out, cell, 0),
            Verdict::OwnedBy { cell, .. } => self.unowned.as_ref().expect("levels").write(self.heap, out, cell, 0),
            Verdict::Unshared { cell } => {
                for (number, reference) in self.references[&cell].iter().enumerate() {
                    if number > 0 {
                        out.text(" | ");
                    }
                    self.write_reference(out, cell, *reference);
                }
            }
        }
    }

    /// The path to a cell from a root, or from an owner where no root leads to it, as one of `more` further steps.
    fn write_plain(&self, out: &mut Report<impl Write>, cell: u32, more: u32) {
        let levels = if has(&self.by_roots, cell) { &self.by_roots } else { &self.by_owners };
        levels.as_ref().expect("levels").write(self.heap, out, cell, more);
    }

    fn write_reference(&self, out: &mut Report<impl Write>, cell: u32, reference: Reference) {
        match reference {
            Reference::Root(number) => {
                out.text("root ").text(self.heap.roots.name(number));
            }
            Reference::Slot { holder, slot } => {
                if has(&self.by_roots, holder) || has(&self.by_owners, holder) {
                    self.write_plain(out, holder, 1);
                } else {
                    write_owner(self.heap, out, holder);
                }
                out.text(" [").number(u64::from(slot)).text("]");
            }
        }
        write_arrow(self.heap, out, cell);
    }
}

fn has(levels: &Option<Levels>, cell: u32) -> bool {
    levels.as_ref().is_some_and(|levels| levels.has(cell))
}

/// The first two references to each of these cells: those by roots, and then those by slots in the order of the holders' ids.
fn first_references(heap: &Heap, asked: &[u32]) -> FxHashMap<u32, Vec<Reference>> {
    let mut found: FxHashMap<u32, Vec<Reference>> = asked.iter().map(|cell| (*cell, Vec::with_capacity(2))).collect();
    let mut left = 2 * asked.len();
    let mut note = |cell: u32, reference: Reference| {
        if let Some(references) = found.get_mut(&cell).filter(|references| references.len() < 2) {
            references.push(reference);
            left -= 1;
        }
        left > 0
    };
    if asked.is_empty() {
        return found;
    }
    for (number, cell) in (0..).zip(heap.roots.cells()) {
        note(cell, Reference::Root(number));
    }
    for holder in with_mark(heap, COUNT | IS_OWNER) {
        for (slot, to) in heap.edges(holder) {
            if !note(to, Reference::Slot { holder, slot }) {
                return found;
            }
        }
    }
    found
}
