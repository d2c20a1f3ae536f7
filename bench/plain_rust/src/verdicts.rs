//! The violated assertions of a collection, in the order of the report: dead, instances, unshared, owned-by, each in the order of ids or names.
use crate::heap::{Heap, COUNT, IS_DEAD, IS_MET_BY_ROOTS, IS_OWNEE, IS_OWNER, IS_UNDER, IS_UNSHARED};
use crate::report::Report;
use std::io::Write;

/// The objects of verdicts are named by their cells.
pub enum Verdict {
    Dead {
        cell: u32,
    },
    /// The cell has the first object beyond the limit.
    Instances {
        cell: u32,
        limit: u32,
        found: u32,
    },
    Unshared {
        cell: u32,
    },
    OwnedBy {
        cell: u32,
        owner: u32,
    },
}

/// All verdicts on a traced heap.
pub fn list(heap: &Heap) -> Vec<Verdict> {
    let mut verdicts = Vec::new();
    let (dead, unshared) = asserted(heap);
    verdicts.extend(dead.into_iter().map(|cell| Verdict::Dead { cell }));
    instances(heap, &mut verdicts);
    verdicts.extend(unshared.into_iter().map(|cell| Verdict::Unshared { cell }));
    owned_by(heap, &mut verdicts);
    verdicts
}

impl Verdict {
    /// What stands before the path.
    pub fn write_head(&self, heap: &Heap, out: &mut Report<impl Write>) {
        match *self {
            Verdict::Dead { cell } => {
                out.text("dead ").number(u64::from(heap.id(cell))).text(" ").text(heap.name(cell));
            }
            Verdict::Instances { cell, limit, found } => {
                out.text("instances ").text(heap.name(cell)).text(" limit ").number(u64::from(limit)).text(" found ").number(u64::from(found));
            }
            Verdict::Unshared { cell } => {
                out.text("unshared ").number(u64::from(heap.id(cell))).text(" ").text(heap.name(cell));
                out.text(" refs ").number(heap.header(cell).word() & COUNT);
            }
            Verdict::OwnedBy { cell, owner } => {
                out.text("ownedby ").number(u64::from(heap.id(cell))).text(" ").text(heap.name(cell)).text(" owner ").number(u64::from(owner));
                out.text(if heap.is_live(&heap.owners[&cell]) { "" } else { " gone" });
            }
        }
    }
}

/// What is traced though it is asserted dead, and what is asserted unshared and isn't.
fn asserted(heap: &Heap) -> (Vec<u32>, Vec<u32>) {
    let (mut dead, mut unshared) = (Vec::new(), Vec::new());
    if heap.has_asserted {
        for (cell, header) in (0..).zip(&heap.headers) {
            let word = header.word();
            if word & IS_DEAD != 0 && word & COUNT != 0 {
                dead.push(cell);
            }
            if word & IS_UNSHARED != 0 && word & COUNT >= 2 {
                unshared.push(cell);
            }
        }
    }
    heap.sort(&mut dead);
    heap.sort(&mut unshared);
    (dead, unshared)
}

fn instances(heap: &Heap, verdicts: &mut Vec<Verdict>) {
    if heap.limited.is_empty() {
        return;
    }
    let mut counts = vec![0u32; heap.kinds.len()];
    for header in heap.headers.iter().filter(|header| header.is_kept()) {
        counts[header.kind() as usize] += 1;
    }
    let limit_of = |kind: u32| heap.instance_limits[kind as usize].expect("a limited type has its limit");
    let mut over: Vec<u32> = heap.limited.iter().copied().filter(|kind| counts[*kind as usize] > limit_of(*kind)).collect();
    if over.is_empty() {
        return;
    }
    over.sort_unstable_by(|a, b| heap.kinds.name(*a).cmp(heap.kinds.name(*b)));
    // How many objects of a type are still to be passed over before the first beyond its limit, and then the cell of that.
    let mut left: Vec<Option<u32>> = vec![None; heap.kinds.len()];
    over.iter().for_each(|kind| left[*kind as usize] = Some(limit_of(*kind)));
    let kept = (0..).zip(&heap.headers).filter(|(_, header)| header.is_kept() && left[header.kind() as usize].is_some());
    let mut cells: Vec<u32> = kept.map(|(cell, _)| cell).collect();
    heap.sort(&mut cells);
    let mut first_beyond = vec![0; heap.kinds.len()];
    for cell in cells {
        let kind = heap.header(cell).kind() as usize;
        match left[kind] {
            Some(0) => {
                left[kind] = None;
                first_beyond[kind] = cell;
            }
            Some(count) => left[kind] = Some(count - 1),
            None => {}
        }
    }
    for kind in over {
        verdicts.push(Verdict::Instances { cell: first_beyond[kind as usize], limit: limit_of(kind), found: counts[kind as usize] });
    }
}

fn owned_by(heap: &Heap, verdicts: &mut Vec<Verdict>) {
    let (mut lost, mut in_doubt) = (Vec::new(), Vec::new());
    for (ownee, owner) in &heap.owners {
        let header = heap.header(*ownee);
        if !header.has(IS_MET_BY_ROOTS) {
            continue;
        }
        // (what is under no owner is found by none)
        if heap.is_live(owner) && header.has(IS_UNDER) {
            in_doubt.push((owner.cell, *ownee));
        } else {
            lost.push(*ownee);
        }
    }
    if !in_doubt.is_empty() {
        in_doubt.sort_unstable();
        let mut finder = Finder { met_by: vec![0; heap.headers.len()], searches: 0, work: Vec::new() };
        for of_one in in_doubt.chunk_by(|a, b| a.0 == b.0) {
            finder.search(heap, of_one[0].0);
            lost.extend(of_one.iter().map(|pair| pair.1).filter(|ownee| !finder.has_found(*ownee)));
        }
    }
    heap.sort(&mut lost);
    verdicts.extend(lost.into_iter().map(|cell| Verdict::OwnedBy { cell, owner: heap.owners[&cell].id }));
}

/// What owners find: a search from an owner goes on through all but owners and ownees. Each owner is searched from once.
struct Finder {
    /// The search that met a cell last.
    met_by: Vec<u32>,
    searches: u32,
    work: Vec<u32>,
}

impl Finder {
    fn has_found(&self, cell: u32) -> bool {
        self.met_by[cell as usize] == self.searches
    }

    fn search(&mut self, heap: &Heap, owner: u32) {
        self.searches += 1;
        self.work.clear();
        self.work.push(owner);
        while let Some(cell) = self.work.pop() {
            for (_, to) in heap.edges(cell) {
                if std::mem::replace(&mut self.met_by[to as usize], self.searches) != self.searches && !heap.header(to).has(IS_OWNER | IS_OWNEE) {
                    self.work.push(to);
                }
            }
        }
    }
}
