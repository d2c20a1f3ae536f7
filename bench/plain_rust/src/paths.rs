//! Shortest paths: levels from roots or from owners, each cell with the first edge that reached it.
use crate::heap::{Heap, IS_ASKED};
use crate::report::Report;
use std::io::Write;

/// So many steps of a long path are shown at either end.
const SHOWN: u32 = 32;

/// What reached a cell. (All numbers are 0 where nothing did, so that memory for all cells comes from the system as it is.)
#[derive(Clone, Copy)]
struct Reached {
    /// One more than the cell before it, and the slot there; at the first level from the roots 0 and the number of the root.
    from: u32,
    slot: u32,
    /// The number of its level, 0 where it is on none.
    level: u32,
    /// The last cell of the first part of a long path that leads to it, itself where it is in that part.
    begin: u32,
}

pub struct Levels {
    reached: Vec<[u32; 4]>,
    by_roots: bool,
}

/// Cells of a level with their ids, the ids in the higher half.
type Level = Vec<u64>;

impl Levels {
    /// Levels up to that with the last of the asked cells; no path goes on from cells that have a mark of `shut`.
    pub fn find(heap: &Heap, by_roots: bool, owners: &[u32], shut: u64, asked: &[u32]) -> Levels {
        let mut levels = Levels { reached: vec![[0; 4]; heap.headers.len()], by_roots };
        let mut left = 0;
        for cell in asked {
            left += u32::from(!heap.header(*cell).has(IS_ASKED));
            heap.header(*cell).set(IS_ASKED);
        }
        let mut now = levels.first(heap, owners);
        let (mut level, mut later) = (1, Vec::new());
        while !now.is_empty() {
            left -= now.iter().filter(|key| heap.header(**key as u32).has(IS_ASKED)).count() as u32;
            if left == 0 {
                break;
            }
            level += 1;
            if !now.windows(2).all(|pair| pair[0] < pair[1]) {
                now.sort_unstable();
            }
            for cell in now.iter().map(|key| *key as u32).filter(|cell| !heap.header(*cell).has(shut)) {
                let before = levels.at(cell).begin;
                for (slot, to) in heap.edges(cell) {
                    let begin = if level <= levels.first_part() { to } else { before };
                    levels.reach(heap, to, Reached { from: cell + 1, slot, level, begin }, &mut later);
                }
            }
            std::mem::swap(&mut now, &mut later);
            later.clear();
        }
        asked.iter().for_each(|cell| heap.header(*cell).unset(IS_ASKED));
        levels
    }

    fn first(&mut self, heap: &Heap, owners: &[u32]) -> Level {
        let mut level = Vec::new();
        if self.by_roots {
            for (number, cell) in (0..).zip(heap.roots.cells()) {
                self.reach(heap, cell, Reached { from: 0, slot: number, level: 1, begin: cell }, &mut level);
            }
        }
        for owner in owners {
            for (slot, to) in heap.edges(*owner) {
                self.reach(heap, to, Reached { from: *owner + 1, slot, level: 1, begin: to }, &mut level);
            }
        }
        level
    }

    #[inline]
    fn reach(&mut self, heap: &Heap, cell: u32, by: Reached, level: &mut Level) {
        let reached = &mut self.reached[cell as usize];
        if reached[2] == 0 {
            *reached = [by.from, by.slot, by.level, by.begin];
            level.push(u64::from(heap.id(cell)) << 32 | u64::from(cell));
        }
    }

    #[inline]
    fn at(&self, cell: u32) -> Reached {
        let [from, slot, level, begin] = self.reached[cell as usize];
        Reached { from, slot, level, begin }
    }

    /// How many levels the first part of a long path has: a root is shown with the object that it names.
    fn first_part(&self) -> u32 {
        SHOWN + u32::from(self.by_roots)
    }

    pub fn has(&self, cell: u32) -> bool {
        self.at(cell).level > 0
    }

    /// So many of the cells on the way to a cell, the last ones, in order.
    fn last(&self, cell: u32, most: u32) -> Vec<u32> {
        let mut way = Vec::new();
        let mut at = cell;
        for number in 0..most.min(self.at(cell).level) {
            if number > 0 {
                at = self.at(at).from - 1;
            }
            way.push(at);
        }
        way.reverse();
        way
    }

    fn write_cells(&self, heap: &Heap, out: &mut Report<impl Write>, cells: &[u32]) {
        for cell in cells {
            let reached = self.at(*cell);
            if reached.from == 0 {
                out.text("root ").text(heap.roots.name(reached.slot));
            } else {
                if reached.level == 1 {
                    write_owner(heap, out, reached.from - 1);
                }
                out.text(" [").number(u64::from(reached.slot)).text("]");
            }
            write_arrow(heap, out, *cell);
        }
    }

    /// The path to a cell, shortened as one of `more` further steps, which the caller writes.
    pub fn write(&self, heap: &Heap, out: &mut Report<impl Write>, cell: u32, more: u32) {
        let reached = self.at(cell);
        let steps = reached.level + more - u32::from(self.by_roots);
        if steps <= 2 * SHOWN {
            return self.write_cells(heap, out, &self.last(cell, reached.level));
        }
        self.write_cells(heap, out, &self.last(reached.begin, self.first_part()));
        out.text(" ... ").number(u64::from(steps - 2 * SHOWN)).text(" steps ...");
        self.write_cells(heap, out, &self.last(cell, SHOWN - more));
    }
}

pub fn write_arrow(heap: &Heap, out: &mut Report<impl Write>, cell: u32) {
    out.text(" -> ").number(u64::from(heap.id(cell))).text(" ").text(heap.name(cell));
}

pub fn write_owner(heap: &Heap, out: &mut Report<impl Write>, owner: u32) {
    out.text("owner ").number(u64::from(heap.id(owner))).text(" ").text(heap.name(owner));
}
