#!/usr/bin/env python3
"""Times levels, paths and finds, each against one plain marking of the same heap.

Usage: bench/paths.py
It writes the program below into a temporary folder, with copies of the crates that it uses, lets `rt` prove and
build it there (some minutes the first time on a machine), and runs it. Nothing here is part of the gate.

- Levels: a heap of 1,000,000 objects with three slots each. Two of them make a tree whose neighbours are far apart, the third leads
  to any object. Levels are made from one root.
- Paths: a chain of 10,000 objects, and the path to each.
- Finds: 20,000 owners of 10 ownees each, and one owner of 100,000; each owner holds an array that holds its ownees, and is asked once for
  all of them.

The plain marking goes by a worklist over every slot of what it reaches, in the order in which objects are met, with one flag a cell.
Each run is made five times, the two in turn, and the fastest time of each counts. A ratio is the time divided by that of the marking.
"""
import os
import shutil
import subprocess
import sys
import tempfile

from run import need_commands

TOP = os.path.dirname(os.path.dirname(os.path.abspath(__file__)))
CRATES = ["heap_base", "graph_meaning", "object_table", "assert_registry", "path_cert"]
OBJECTS = 1_000_000
CHAIN = 10_000
# what is timed, its name, the objects that are marked, and how many answers there are
RUNS = [
    ("levels of a random heap", ("levels", OBJECTS, 0), OBJECTS, OBJECTS),
    ("paths of a chain", ("paths", CHAIN, 0), CHAIN, CHAIN),
    ("finds of 20,000 owners", ("finds", 20_000, 10), 20_000 * 12, 20_000 * 10),
    ("finds of one owner", ("finds", 1, 100_000), 100_002, 100_000),
]

PROGRAM = {
    "src/main.rt": '''//! Times levels, paths and finds, by the words that it is given.
#![tactic(auto)]

mod asking;
mod heaps;
mod marking;
mod owners;

use crate::heaps::Heap;
use path_cert::OwnerSearch;
use std::env;
use std::time::Instant;

const TIMES: u32 = 5;

// The levels of a heap from its root, and how many objects have one.
fn time_levels(rt: &HostRuntime, heap: &Heap) -> anyhow::Result<()> {
    let start = Instant::now(rt)?;
    let found = asking::levels_of(rt.alloc(), &heap.table)?;
    let took = start.elapsed(rt)?.as_nanos();
    match found {
        Some(found) => println!(rt; "{took} {}", asking::with_level(&found, &heap.table))?,
        None => println!(rt; "{took} 0")?,
    }
    Ok(())
}

// The path to each object of a heap, and how many have one.
fn time_paths(rt: &HostRuntime, heap: &Heap) -> anyhow::Result<()> {
    let Some(found) = asking::levels_of(rt.alloc(), &heap.table)? else {
        return Ok(());
    };
    let start = Instant::now(rt)?;
    let paths = asking::with_path(&found, &heap.table)?;
    let took = start.elapsed(rt)?.as_nanos();
    println!(rt; "{took} {paths}")?;
    Ok(())
}

// What each owner finds of its ownees, and how many are found.
fn time_finds(rt: &HostRuntime, heap: &Heap, ownees: u32) -> anyhow::Result<()> {
    let Some(roles) = owners::roles_of(rt.alloc(), &heap.table, heap.owned.as_slice())? else {
        return Ok(());
    };
    let mut took = 0u128;
    let mut all = 0u64;
    if ownees > 0 {
        let mut search = OwnerSearch::make(rt.alloc(), heap.table.cells())?;
        for owned in heap.owned.as_slice().chunks(ownees as usize) {
            let asked = asking::cells_of(rt.alloc(), &heap.table, owned)?;
            let start = Instant::now(rt)?;
            let found = asking::found(&mut search, &heap.table, &roles, owned, asked.as_slice())?;
            took = took.wrapping_add(start.elapsed(rt)?.as_nanos());
            all = all.wrapping_add(found);
        }
    }
    println!(rt; "{took} {all}")?;
    Ok(())
}

// A plain marking from where the heap starts, and how many objects are marked.
fn time_marking(rt: &HostRuntime, heap: &Heap) -> anyhow::Result<()> {
    let start = Instant::now(rt)?;
    let marked = marking::mark(rt.alloc(), &heap.table, heap.starts.as_slice())?;
    let took = start.elapsed(rt)?.as_nanos();
    println!(rt; "{took} {marked}")?;
    Ok(())
}

// The number that a word is, 0 for another.
fn number(words: &[String], place: usize) -> u32 {
    match words.get(place) {
        Some(word) => word.as_str().parse().unwrap_or(0),
        None => 0,
    }
}

fn main(rt: HostRuntime) -> anyhow::Result<()> {
    let mut words = Vec::new(rt.alloc());
    for word in env::args(&rt)? {
        words.push(word)?;
    }
    let (size, ownees) = (number(&words, 2), number(&words, 3));
    let what = match words.get(1) {
        Some(word) => word.as_str(),
        None => "",
    };
    let heap = match what {
        "levels" => heaps::random(rt.alloc(), size),
        "paths" => heaps::chain(rt.alloc(), size),
        _ => heaps::pools(rt.alloc(), size, ownees),
    };
    let Some(heap) = heap else { return Ok(()) };
    for _ in 0..TIMES {
        time_marking(&rt, &heap)?;
        match what {
            "levels" => time_levels(&rt, &heap)?,
            "paths" => time_paths(&rt, &heap)?,
            _ => time_finds(&rt, &heap, ownees)?,
        }
    }
    Ok(())
}
''',
    "src/heaps.rt": '''//! The heaps. Where one can't be made, there is none.
use heap_base::{MOST_OBJECTS, Name, ObjId};
use object_table::ObjectTable;
use std::alloc::Global;

/// A heap, the ids of the objects at which a marking starts, and pairs of an owner and an ownee, by the owner.
#[derive(Drop)]
pub struct Heap {
    pub table: ObjectTable,
    pub starts: Vec<u32>,
    pub owned: Vec<(u32, u32)>,
}

impl Heap {
    fn empty(alloc: Global) -> Option<Heap> {
        Some(Heap {
            table: ObjectTable::make(alloc).ok()?,
            starts: Vec::new(alloc),
            owned: Vec::new(alloc),
        })
    }

    fn add(&mut self, id: u32, kind: &Name, slots: u32) -> Option<()> {
        self.table.alloc_object(ObjId::of(id)?, kind, slots).ok()
    }

    fn store(&mut self, at: u32, slot: u32, to: u32) -> Option<()> {
        let to = ObjId::of(to)?;
        self.table.store(ObjId::of(at)?, slot, Some(to)).ok()
    }

    // Adds the first object, which the only root names.
    fn begin(&mut self, kind: &Name, root: &Name, slots: u32) -> Option<()> {
        self.add(1, kind, slots)?;
        self.starts.push(1).ok()?;
        self.table.set_root(root, ObjId::of(1)).ok()
    }

    // Lets a slot of an object of the tree hold the one with this number, from 1, whose own third slot holds any.
    fn grow(&mut self, n: u32, objects: u32, draw: u64) -> Option<()> {
        let id = id_in_tree(n, objects);
        let before = n.checked_sub(1)?;
        self.store(id_in_tree(before / 2, objects), before % 2, id)?;
        self.store(id, 2, id_in_tree((draw >> 33) as u32, objects))
    }

    fn add_all(&mut self, kind: &Name, objects: u32) -> Option<()> {
        for n in 1..objects {
            self.add(n + 1, kind, 3)?;
        }
        Some(())
    }

    fn grow_all(&mut self, objects: u32) -> Option<()> {
        let mut draw = 1u64;
        for n in 1..objects {
            draw = draw
                .wrapping_mul(6364136223846793005)
                .wrapping_add(1442695040888963407);
            self.grow(n, objects, draw)?;
        }
        Some(())
    }

    // Adds objects in a row after the first.
    fn link_all(&mut self, kind: &Name, objects: u32) -> Option<()> {
        for n in 1..objects {
            self.add(n + 1, kind, 1)?;
            self.store(n, 0, n + 1)?;
        }
        Some(())
    }

    fn pool_all(&mut self, kind: &Name, owners: u32, ownees: u32) -> Option<()> {
        let each = ownees.checked_add(2)?;
        for n in 0..owners {
            let owner = n.checked_mul(each)?.checked_add(1)?;
            add_pool(self, owner, kind, ownees)?;
        }
        Some(())
    }
}

// The id of the object with this number in the tree, from 0. Neighbours in the tree lie far apart by their ids; the factor is a prime.
fn id_in_tree(n: u32, objects: u32) -> u32 {
    let place = (n as u64).wrapping_mul(7_368_787).checked_rem(objects as u64);
    1 + (place.unwrap_or(0) as u32).min(MOST_OBJECTS)
}

fn some_name(alloc: Global, text: &str) -> Option<Name> {
    match Name::of(alloc, text) {
        Ok(name) => name,
        Err(_) => None,
    }
}

fn begun(alloc: Global, kind: &Name, slots: u32) -> Option<Heap> {
    let root = some_name(alloc, "r")?;
    let mut heap = Heap::empty(alloc)?;
    heap.begin(kind, &root, slots)?;
    Some(heap)
}

/// Objects with three slots: two of them make a tree, and the third leads to any object.
pub fn random(alloc: Global, objects: u32) -> Option<Heap> {
    let kind = some_name(alloc, "Node")?;
    let mut heap = begun(alloc, &kind, 3)?;
    heap.add_all(&kind, objects)?;
    heap.grow_all(objects)?;
    Some(heap)
}

/// Each object stands in the only slot of the one before.
pub fn chain(alloc: Global, objects: u32) -> Option<Heap> {
    let kind = some_name(alloc, "Link")?;
    let mut heap = begun(alloc, &kind, 1)?;
    heap.link_all(&kind, objects)?;
    Some(heap)
}

/// Owners that hold an array each, which holds all ownees of its owner.
pub fn pools(alloc: Global, owners: u32, ownees: u32) -> Option<Heap> {
    let kind = some_name(alloc, "Pool")?;
    let mut heap = Heap::empty(alloc)?;
    heap.pool_all(&kind, owners, ownees)?;
    Some(heap)
}

fn add_pool(heap: &mut Heap, owner: u32, kind: &Name, ownees: u32) -> Option<()> {
    let array = owner.checked_add(1)?;
    heap.add(owner, kind, 1)?;
    heap.add(array, kind, ownees)?;
    heap.store(owner, 0, array)?;
    heap.starts.push(owner).ok()?;
    for slot in 0..ownees {
        let ownee = array.checked_add(slot)?.checked_add(1)?;
        heap.add(ownee, kind, 0)?;
        heap.store(array, slot, ownee)?;
        heap.owned.push((owner, ownee)).ok()?;
    }
    Some(())
}
''',
    "src/marking.rt": '''//! A plain marking, without levels and borders.
use crate::owners::cell;
use heap_base::OutOfMemory;
use object_table::ObjectTable;
use std::alloc::Global;

// The cells that are marked, how many they are, and those from which the marking still has to go on.
#[derive(Drop)]
struct Marking {
    marks: Vec<bool>,
    marked: u32,
    work: Vec<u32>,
}

impl Marking {
    fn meet(&mut self, cell: u32) -> Result<(), OutOfMemory> {
        if let Some(mark) = self.marks.get_mut(cell as usize) {
            if !*mark {
                *mark = true;
                self.marked = self.marked.wrapping_add(1);
                self.work.push(cell)?;
            }
        }
        Ok(())
    }
}

/// How many objects are marked from these on.
pub fn mark(alloc: Global, table: &ObjectTable, starts: &[u32]) -> Result<u32, OutOfMemory> {
    let mut marking = Marking {
        marks: vec![in alloc; false; table.cells() as usize]?,
        marked: 0,
        work: Vec::with_capacity(alloc, table.cells() as usize)?,
    };
    for start in starts {
        if let Some(cell) = cell(table, *start) {
            marking.meet(cell)?;
        }
    }
    // each cell stands on the worklist once; what was met first comes first, as in a search by levels
    for place in 0..table.cells() as usize {
        let Some(cell) = marking.work.get(place).copied() else { break };
        follow(&mut marking, table, cell)?;
    }
    Ok(marking.marked)
}

// Meets what the slots of the object in a cell lead to.
fn follow(marking: &mut Marking, table: &ObjectTable, cell: u32) -> Result<(), OutOfMemory> {
    if cell >= table.cells() || table.id_at(cell).is_none() {
        return Ok(());
    }
    for slot in 0..table.slots_at(cell) {
        if let Some(target) = table.slot_at(cell, slot) {
            marking.meet(target)?;
        }
    }
    Ok(())
}
''',
    "src/asking.rt": '''//! What is asked of a heap.
ghost use Rattle.std.specs.Prelude.{◌≡◌, length, All, IfOk, IfSome, IsSome};
ghost use Rattle.graph_meaning.specs.Roles.{AreRolesOf};
ghost use Rattle.object_table.specs.Placed.{id_in};
ghost use Rattle.path_cert.specs.Levels.{AreLevelsIn};

use crate::owners::{cell, roles_of};
use graph_meaning::Roles;
use heap_base::OutOfMemory;
use object_table::ObjectTable;
use path_cert::{Levels, OwnerSearch, Start, levels};
use std::alloc::Global;

/// The levels from the roots, with nothing shut.
pub fn levels_of(alloc: Global, table: &ObjectTable) -> Result<Option<Levels>, OutOfMemory>
    ensures { IfOk result (λ o. IfSome o (AreLevelsIn table.now)) }
{
    let Some(roles) = roles_of(alloc, table, &[])? else {
        return Ok(None);
    };
    let shut = vec![in alloc; false; table.cells() as usize]?;
    let found = levels(alloc, table, &roles, Start::Roots, shut.as_slice())?;
    Ok(Some(found))
}

/// How many objects have a level.
pub fn with_level(found: &Levels, table: &ObjectTable) -> u32
    requires { AreLevelsIn table.now found.now }
{
    let mut count = 0u32;
    for cell in 0..table.cells() {
        if has_level(found, table, cell) {
            count = count.wrapping_add(1);
        }
    }
    count
}

fn has_level(found: &Levels, table: &ObjectTable, cell: u32) -> bool
    requires { AreLevelsIn table.now found.now }
{
    cell < table.cells() && found.level(cell).is_some()
}

/// How many objects have a path; each path is made.
pub fn with_path(found: &Levels, table: &ObjectTable) -> Result<u32, OutOfMemory>
    requires { AreLevelsIn table.now found.now }
{
    let mut count = 0u32;
    for cell in 0..table.cells() {
        if has_path(found, table, cell)? {
            count = count.wrapping_add(1);
        }
    }
    Ok(count)
}

fn has_path(found: &Levels, table: &ObjectTable, cell: u32) -> Result<bool, OutOfMemory>
    requires { AreLevelsIn table.now found.now }
{
    if cell >= table.cells() || table.id_at(cell).is_none() {
        return Ok(false);
    }
    Ok(found.path(table, cell)?.is_some())
}

/// The cells of ownees.
pub fn cells_of(
    alloc: Global,
    table: &ObjectTable,
    owned: &[(u32, u32)],
) -> Result<Vec<u32>, OutOfMemory>
    ensures { IfOk result (λ cells. All (λ c. IsSome (id_in table.now c)) cells.items) }
{
    let mut cells = Vec::new(alloc);
    for pair in owned {
        if let Some(cell) = cell(table, pair.1) {
            cells.push(cell)?;
        }
    }
    Ok(cells)
}

/// How many of these ownees, the cells of which are asked, their owner finds.
pub fn found(
    search: &mut OwnerSearch,
    table: &ObjectTable,
    roles: &Roles,
    owned: &[(u32, u32)],
    asked: &[u32],
) -> Result<u64, OutOfMemory>
    requires cells { search.old ≡ length table.now.cells }
    requires roles { AreRolesOf table.now.cells (length table.now.table.kinds) roles.now }
    requires asked { All (λ c. IsSome (id_in table.now c)) asked.now }
    ensures cells { search.new ≡ search.old }
{
    let Some(pair) = owned.first() else {
        return Ok(0);
    };
    let Some(owner) = cell(table, pair.0) else {
        return Ok(0);
    };
    let found = search.finds(table, roles, owner, asked)?;
    Ok(found.iter().filter(|found| **found).count() as u64)
}
''',
    "src/owners.rt": '''//! The roles of a heap by pairs of an owner and an ownee.
ghost use Rattle.std.specs.Prelude.{length, IfOk, IfSome, IsSome};
ghost use Rattle.graph_meaning.specs.Roles.{AreRolesOf};
ghost use Rattle.object_table.specs.Placed.{id_in};

use assert_registry::AssertRegistry;
use graph_meaning::{Roles, Stop};
use heap_base::{ObjId, OutOfMemory};
use object_table::ObjectTable;
use std::alloc::Global;

/// The cell of the object with this id.
pub fn cell(table: &ObjectTable, object: u32) -> Option<u32>
    ensures { IfSome result (λ c. IsSome (id_in table.now c)) }
{
    table.cell_of(ObjId::of(object)?)
}

fn registry_of(alloc: Global, owned: &[(u32, u32)]) -> Result<AssertRegistry, Stop> {
    let mut registry = AssertRegistry::make(alloc)?;
    for pair in owned {
        if let (Some(owner), Some(ownee)) = (ObjId::of(pair.0), ObjId::of(pair.1)) {
            registry.assert_ownedby(owner, ownee)?;
        }
    }
    Ok(registry)
}

/// The roles of a heap of these pairs, and `None` where an object is to own itself.
pub fn roles_of(
    alloc: Global,
    table: &ObjectTable,
    owned: &[(u32, u32)],
) -> Result<Option<Roles>, OutOfMemory>
    ensures { IfOk result (λ o. IfSome o (λ r. AreRolesOf table.now.cells (length table.now.table.kinds) r)) }
{
    let Ok(mut registry) = registry_of(alloc, owned) else {
        return Ok(None);
    };
    roles_by(&mut registry, table)
}

fn roles_by(
    registry: &mut AssertRegistry,
    table: &ObjectTable,
) -> Result<Option<Roles>, OutOfMemory>
    ensures { IfOk result (λ o. IfSome o (λ r. AreRolesOf table.now.cells (length table.now.table.kinds) r)) }
{
    registry.keep(table);
    if registry.kind_room() > table.kinds() {
        return Ok(None);
    }
    let roles = registry.roles(table)?;
    Ok(Some(roles))
}
''',
    "specs/Lib.antt": "",
    "proofs/Lib.antt": "",
    "proofs/owners/roles_by/Answers.antt": '''use Rattle.std.proofs.Common.{◌≡◌, ◌≤◌, length, ap, arith}
use Rattle.assert_registry.specs.Assertions.{Assertions}
use Rattle.assert_registry.proofs.Kept.{SpeakOfTable-live_part, seen_from_room}
use Rattle.paths_cost.proofs.owners.roles_by.Goals as goal

pub roles-requires : goal.roles-requires
roles-requires c =
    let t = c.args.table.now.table in
    let a = c.args.registry.now in
    let same : length c.keep.new.self.limits ≡ length a.limits = ap (λ (b : Assertions). length b.limits) c.keep.ensures in
    let few : length a.limits ≤ length t.kinds = omega (arith, same, c.kind_room.ensures.room, c.kinds.ensures.count, c.if-kind_room-kinds.false) in
    rw c.keep.ensures (SpeakOfTable-live_part t a (seen_from_room a.limits t.kinds few))
''',
    "proofs/time_finds/Invariants.antt": '''use Rattle.std.proofs.Common.{◌≡◌, length}
use Rattle.paths_cost.proofs.time_finds.Given as goal

abbrev pub invariant-loop-owned : goal.invariant-loop-owned
invariant-loop-owned l = l.search ≡ length l.heap.table.cells
''',
    "proofs/asking/levels_of/Answers.antt": '''use Rattle.paths_cost.proofs.asking.levels_of.Goals as goal

pub returns : goal.returns
returns c = (_, c.in_ok-found.ensures.levels)
''',
    "proofs/asking/cells_of/Invariants.antt": '''use Rattle.std.proofs.Common.{All}
use Rattle.std.specs.Prelude.{IsSome}
use Rattle.object_table.specs.Placed.{id_in}
use Rattle.paths_cost.proofs.asking.cells_of.Given as goal

abbrev pub invariant-loop-pair : goal.invariant-loop-pair
invariant-loop-pair l = All (λ c. IsSome (id_in l.table c)) l.cells.items
''',
}


def lay_out(folder):
    """The program as a crate of a small repository, beside the crates that it stands on."""
    shutil.copy(os.path.join(TOP, "HANDLES"), folder)
    for crate in CRATES:
        shutil.copytree(os.path.join(TOP, "crates", crate), os.path.join(folder, "crates", crate), ignore=shutil.ignore_patterns("out"))
    with open(os.path.join(TOP, "crates.txt")) as crates:
        lines = [line for line in crates if line.split(" ")[0].split(":")[0] in CRATES]
    with open(os.path.join(folder, "crates.txt"), "w") as crates:
        crates.writelines(lines + ["paths_cost: path_cert assert_registry object_table graph_meaning heap_base anyhow\n"])
    program = os.path.join(folder, "crates", "paths_cost")
    for name, text in PROGRAM.items():
        path = os.path.join(program, name)
        os.makedirs(os.path.dirname(path), exist_ok=True)
        with open(path, "w") as file:
            file.write(text)
    return program


def times(built, words, objects, answers):
    """Nanoseconds of the marking and of what is timed: the least of the turns."""
    run = subprocess.run([built] + [str(word) for word in words], capture_output=True, text=True)
    rows = [[int(number) for number in line.split()] for line in run.stdout.splitlines()]
    if run.returncode != 0 or not rows or any(row[1] != objects for row in rows[::2]) or any(row[1] != answers for row in rows[1::2]):
        sys.exit(run.stdout[-2000:] + run.stderr[-2000:] + f"{words}: not {objects} objects and {answers} answers")
    return [min(row[0] for row in part) for part in (rows[::2], rows[1::2])]


def main():
    need_commands("rt")
    with tempfile.TemporaryDirectory() as folder:
        program = lay_out(folder)
        run = subprocess.run(["rt", "run"], cwd=program, capture_output=True, text=True)
        built = os.path.join(program, "out", "paths_cost")
        if run.returncode != 0 or not os.path.exists(built):
            sys.exit(run.stdout[-4000:] + run.stderr[-4000:] + "the program can't be built and run here")
        print(f'{"what":<24} {"objects":>9} {"answers":>9} {"marking, ms":>11} {"time, ms":>9} {"us an answer":>12} {"ratio":>7}')
        for name, words, objects, answers in RUNS:
            marking, took = times(built, words, objects, answers)
            print(f"{name:<24} {objects:>9,} {answers:>9,} {marking / 1e6:>11.2f} {took / 1e6:>9.2f} {took / 1e3 / answers:>12.3f} {took / marking:>7.2f}", flush=True)


if __name__ == "__main__":
    main()
