#!/usr/bin/env python3
"""Times ways to find an object by its id, against a binary search over the list of ids, and measures their memory.

Usage: bench/ids.py
It writes the program below into a temporary folder, with copies of the crates that it uses, lets `rt` prove and
build it there (some minutes the first time on a machine), and runs it. Nothing here is part of the gate.
Each way looks up the same 200,000 live ids; the ways take turns, five times each, and the fastest time of each counts. A
ratio is the time of a way divided by that of the binary search. Memory is the peak of a run that makes one structure alone,
less that of a run that makes none.
"""
import os
import shutil
import subprocess
import sys
import tempfile

from run import need_commands, timed

TOP = os.path.dirname(os.path.dirname(os.path.abspath(__file__)))
CRATES = ["heap_base", "graph_meaning", "object_table"]
LOOKUPS = 200_000
SIZES = (1_000, 100_000, 1_000_000)
KINDS = ("by 1", "by 4,096", "at random", "two thirds freed", "in two runs far apart", "ever farther apart")
WAYS = ("table", "hash", "interpolation")

PROGRAM = {
    "src/main.rt": '''//! Times look-ups of ids, or makes one structure alone.
#![tactic(auto)]

mod ids;
mod lookups;

use crate::lookups::{Built, look_up};
use heap_base::ObjId;
use std::alloc::Global;
use std::env;
use std::io;
use std::time::{Clock, Instant};

fn main(rt: HostRuntime) -> anyhow::Result<()> {
    let mut numbers = [0u32; 4];
    for (place, word) in env::args(&rt)?.enumerate() {
        if place < 4 {
            numbers[place] = word.parse().unwrap_or(0);
        }
    }
    let [_, what, kind, size] = numbers;
    if what < 3 {
        alone(rt.alloc(), what, kind, size)
    } else {
        let built = ids::built(rt.alloc(), kind, size)?;
        let asked = ids::asked(rt.alloc(), &built, what == 4)?;
        for _ in 0..5 {
            let (same, [halves, table, hash, interpolation]) = turn(&rt, &built, asked.as_slice())?;
            println!(rt; "{same} {halves} {table} {hash} {interpolation}")?;
        }
        Ok(())
    }
}

// One structure alone: the list, the table or the map.
fn alone(alloc: Global, what: u32, kind: u32, size: u32) -> anyhow::Result<()> {
    let ids = ids::list(alloc, kind, size)?;
    if what == 1 {
        let _table = ids::table(alloc, ids.as_slice())?;
    } else if what == 2 {
        let _map = ids::map(alloc, ids.as_slice())?;
    }
    Ok(())
}

// Whether all ways found the same, and how many nanoseconds each took.
fn turn<C: Clock>(clock: &C, built: &Built, asked: &[ObjId]) -> io::Result<(bool, [u128; 4])> {
    let mut took = [0u128; 4];
    let mut same = true;
    let mut found = 0u64;
    for way in 0..4usize {
        let start = Instant::now(clock)?;
        let sum = look_up(way, built, asked);
        took[way] = start.elapsed(clock)?.as_nanos();
        if way == 0 {
            found = sum;
        }
        same = same && sum == found;
    }
    Ok((same, took))
}
''',
    "src/ids.rt": '''use crate::lookups::Built;
use heap_base::{Name, ObjId};
use object_table::ObjectTable;
use std::alloc::Global;
use std::collections::HashMap;

const ASKED: usize = 200_000;

// A number that looks random, for each number.
fn mixed(n: u64) -> u64 {
    let n = (n ^ (n >> 31)).wrapping_mul(0x9E37_79B9_7F4A_7C15);
    let n = (n ^ (n >> 29)).wrapping_mul(0xBF58_476D_1CE4_E5B9);
    n ^ (n >> 32)
}

// How far the id at this place is above the one before it.
fn step(kind: u32, place: u32, size: u32) -> u64 {
    match kind {
        0 => 1,
        1 => 4_096,
        2 => 1 + mixed(place as u64) % 4_000,
        3 => if mixed(place as u64) % 3 == 0 { 1 } else { 2 + mixed(place as u64) % 4 },
        4 => if place == size / 2 { 4_000_000_000 } else { 1 },
        _ => 1 + (place as u64).wrapping_mul(place as u64) / (size as u64 + 1) / 1_000,
    }
}

/// The ids with their places, as many as there are below 2^32.
pub fn list(alloc: Global, kind: u32, size: u32) -> anyhow::Result<Vec<(ObjId, u32)>> {
    let mut ids = Vec::new(alloc);
    let mut number = 0u64;
    for place in 0..size {
        number = number.wrapping_add(step(kind, place, size));
        if let Some(id) = ObjId::of(u32::try_from(number).unwrap_or(0)) {
            ids.push((id, place))?;
        }
    }
    Ok(ids)
}

/// A table with objects of these ids.
pub fn table(alloc: Global, ids: &[(ObjId, u32)]) -> anyhow::Result<ObjectTable> {
    let mut table = ObjectTable::make(alloc)?;
    let Some(kind) = Name::of(alloc, "A")? else { return Ok(table) };
    for entry in ids {
        let _ = table.alloc_object(entry.0, &kind, 0);
    }
    Ok(table)
}

/// A hash map with these ids.
pub fn map(alloc: Global, ids: &[(ObjId, u32)]) -> anyhow::Result<HashMap<u32, u32>> {
    let mut map = HashMap::new(alloc);
    for entry in ids {
        map.insert(entry.0.number(), entry.1)?;
    }
    Ok(map)
}

/// The three structures with the same ids.
pub fn built(alloc: Global, kind: u32, size: u32) -> anyhow::Result<Built> {
    let ids = list(alloc, kind, size)?;
    let table = table(alloc, ids.as_slice())?;
    let map = map(alloc, ids.as_slice())?;
    Ok(Built { ids, table, map })
}

/// The ids that are looked up, in rising order or at random.
pub fn asked(alloc: Global, built: &Built, rising: bool) -> anyhow::Result<Vec<ObjId>> {
    let mut asked = Vec::new(alloc);
    for n in 0..ASKED {
        let place = if rising { n } else { mixed(n as u64) as usize };
        if let Some(entry) = place.checked_rem(built.ids.len()).and_then(|place| built.ids.get(place)) {
            asked.push(entry.0)?;
        }
    }
    Ok(asked)
}
''',
    "src/lookups.rt": '''use heap_base::ObjId;
use object_table::ObjectTable;
use std::collections::HashMap;

/// A list of ids with their cells, a table with objects of these ids, and a hash map.
#[derive(Drop)]
pub struct Built {
    pub ids: Vec<(ObjId, u32)>,
    pub table: ObjectTable,
    pub map: HashMap<u32, u32>,
}

/// The sum of the cells that are found by halves, by the table, by the map or by interpolation.
pub fn look_up(way: usize, built: &Built, asked: &[ObjId]) -> u64 {
    match way {
        0 => by_halves(built.ids.as_slice(), asked),
        1 => by_table(&built.table, asked),
        2 => by_hash(&built.map, asked),
        _ => by_interpolation(built.ids.as_slice(), asked),
    }
}

// The sum of the cells that a binary search finds.
fn by_halves(ids: &[(ObjId, u32)], asked: &[ObjId]) -> u64 {
    let mut sum = 0u64;
    for id in asked {
        if let Ok(place) = ids.binary_search_by_key(&id.number(), |entry| entry.0.number()) {
            sum = sum.wrapping_add(ids[place].1 as u64);
        }
    }
    sum
}

// The sum of the cells that the table gives.
fn by_table(table: &ObjectTable, asked: &[ObjId]) -> u64 {
    let mut sum = 0u64;
    for id in asked {
        sum = sum.wrapping_add(table.cell_of(*id).unwrap_or(0) as u64);
    }
    sum
}

// The sum of the cells that the map gives.
fn by_hash(map: &HashMap<u32, u32>, asked: &[ObjId]) -> u64 {
    let mut sum = 0u64;
    for id in asked {
        sum = sum.wrapping_add(map.get(&id.number()).copied().unwrap_or(0) as u64);
    }
    sum
}

// The sum of the cells that a search by interpolation finds.
fn by_interpolation(ids: &[(ObjId, u32)], asked: &[ObjId]) -> u64 {
    let mut sum = 0u64;
    for id in asked {
        sum = sum.wrapping_add(interpolated(ids, id.number()).unwrap_or(0) as u64);
    }
    sum
}

// Every second pivot is the middle, so there are at most twice as many as in a binary search.
fn interpolated(ids: &[(ObjId, u32)], id: u32) -> Option<u32> {
    let mut low = 0usize;
    let mut high = ids.len();
    for turn in 0..66u32 {
        if low >= high {
            return None;
        }
        let middle = low.wrapping_add(high.wrapping_sub(low) / 2);
        let pivot = if turn % 2 == 0 { evenly(ids, low, high, id) } else { middle };
        let entry = ids.get(pivot)?;
        if entry.0.number() == id {
            return Some(entry.1);
        }
        if entry.0.number() < id {
            low = pivot.wrapping_add(1);
        } else {
            high = pivot;
        }
    }
    None
}

// Where the id would stand if the ids between lay evenly.
fn evenly(ids: &[(ObjId, u32)], low: usize, high: usize, id: u32) -> usize {
    let last = high.wrapping_sub(1);
    let first_id = ids.get(low).map_or(0, |entry| entry.0.number());
    let last_id = ids.get(last).map_or(0, |entry| entry.0.number());
    if id <= first_id {
        low
    } else if id >= last_id {
        last
    } else {
        let part = (id.wrapping_sub(first_id) as usize).wrapping_mul(last.wrapping_sub(low));
        low.wrapping_add(part / (last_id.wrapping_sub(first_id) as usize).max(1))
    }
}
''',
}


def lay_out(folder):
    """The program as a crate of a small repository, beside the crates that it stands on."""
    shutil.copy(os.path.join(TOP, "HANDLES"), folder)
    for crate in CRATES:
        shutil.copytree(os.path.join(TOP, "crates", crate), os.path.join(folder, "crates", crate), ignore=shutil.ignore_patterns("out"))
    with open(os.path.join(TOP, "crates.txt")) as crates:
        lines = [line for line in crates if line.split(" ")[0].split(":")[0] in CRATES]
    with open(os.path.join(folder, "crates.txt"), "w") as crates:
        crates.writelines(lines + ["ids_cost: object_table heap_base anyhow\n"])
    program = os.path.join(folder, "crates", "ids_cost")
    for name, text in PROGRAM.items():
        path = os.path.join(program, name)
        os.makedirs(os.path.dirname(path), exist_ok=True)
        with open(path, "w") as file:
            file.write(text)
    return program


def times(built, kind, size, rising):
    """Nanoseconds a look-up by each way, the binary search first: the least of the turns."""
    words = [built, "4" if rising else "3", str(kind), str(size)]
    rows = [row.split() for row in subprocess.run(words, capture_output=True, text=True, check=True).stdout.splitlines()]
    if not rows or any(row[0] != "true" for row in rows):
        sys.exit("the ways don't find the same")
    return [min(int(row[way]) for row in rows) / LOOKUPS for way in range(1, len(WAYS) + 2)]


def main():
    need_commands("rt")
    with tempfile.TemporaryDirectory() as folder:
        program = lay_out(folder)
        run = subprocess.run(["rt", "run"], cwd=program, capture_output=True, text=True)
        built = os.path.join(program, "out", "ids_cost")
        if run.returncode != 0 or not os.path.exists(built):
            sys.exit(run.stdout[-4000:] + run.stderr[-4000:] + "the program can't be built and run here")
        print(f'{"ids":<22} {"objects":>9} {"asked":>7} {"halves, ns":>10}' + "".join(f" {way:>13}" for way in WAYS))
        for kind, name in enumerate(KINDS):
            for size in SIZES:
                for rising in (False, True):
                    halves, *others = times(built, kind, size, rising)
                    order = "rising" if rising else "random"
                    print(f"{name:<22} {size:>9} {order:>7} {halves:>10.1f}" + "".join(f" {other / halves:>13.2f}" for other in others), flush=True)
        print(f'{"bytes an object":<22}' + "".join(f" {what:>13}" for what in ("table", "hash")))
        for size in (524_289, 1_000_000, 1_048_576):
            peaks = [timed([built, what, "0", str(size)], "/dev/null")[1] for what in ("0", "1", "2")]
            print(f"{size:<22}" + "".join(f" {1024 * (peak - peaks[0]) / size:>13.1f}" for peak in peaks[1:]), flush=True)


if __name__ == "__main__":
    main()
