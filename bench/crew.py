#!/usr/bin/env python3
"""Times the crew: tasks that do nothing, scans of a heap, and the making of a crew.

Usage: bench/crew.py
It writes the program below into a temporary folder, with copies of the crates that it uses, lets `rt` prove and
build it there (some minutes the first time on a machine), and runs it. Nothing here is part of the gate.

- Tasks: a task puts those of other cells and does nothing else. The cells are a chain, a tree, or a chain of 10,000 that
  opens into a tree; 1,000,000 in all.
- Scans: a heap of 1,000,000 objects with three slots each. Two of them make a tree, the third leads to any object. One
  owner is at its root, so nearly all is scanned with its tag.
- Making: a crew with room for six times the cells and three, which is what a collection asks for.

Each run is made five times, and the fastest counts. The runs with 1, 2 and 4 workers take turns, and a ratio is the time
divided by that of one worker.
"""
import os
import resource
import shutil
import subprocess
import sys
import tempfile

from run import need_commands

TOP = os.path.dirname(os.path.dirname(os.path.abspath(__file__)))
CRATES = ["heap_base", "graph_meaning", "object_table", "header_rule", "instance_ledger", "steal_pool", "scan_job"]
CELLS = 1_000_000
OPEN = 10_000

PROGRAM = {
    "src/main.rt": '''//! Times the crew's runs and its making, by the words that it is given.
#![tactic(auto)]

mod scans;
mod walkers;

use heap_base::Name;
use scan_job::{ScanJob, ScanShared};
use std::env;
use std::thread::Threads;
use std::time::Instant;
use steal_pool::Crew;
use walkers::{Cells, Walker};

const TIMES: u32 = 5;

// So many cells of a chain that opens into a tree at a cell, by so many workers.
fn time_walks<R: Threads + Sync>(
    rt: &HostRuntime,
    threads: &R,
    workers: u32,
    count: u32,
    open: u32,
) -> anyhow::Result<()> {
    if workers == 0 || workers > 16 || count > 10_000_000 {
        return Ok(());
    }
    let cells = Cells { count, open };
    for _ in 0..TIMES {
        let mut crew: Crew<Walker> = Crew::make(rt.alloc(), workers, count as u64 + 5)?;
        let mut jobs = walkers::walkers(rt.alloc(), workers, count)?;
        let first = walkers::first_cell(rt.alloc(), workers, count)?;
        let start = Instant::now(rt)?;
        walkers::walk(threads, &mut crew, &cells, &mut jobs, &first);
        let took = start.elapsed(rt)?.as_micros();
        println!(rt; "{took} {}", walkers::all_done(&jobs))?;
    }
    Ok(())
}

// A crew with the room of a collection over so many cells.
fn time_make(rt: &HostRuntime, workers: u32, cells: u32) -> anyhow::Result<()> {
    if workers == 0 || workers > 16 {
        return Ok(());
    }
    let start = Instant::now(rt)?;
    let crew: Crew<Walker> = Crew::make(rt.alloc(), workers, cells as u64 * 6 + 3)?;
    let took = start.elapsed(rt)?.as_micros();
    println!(rt; "{took} {}", crew.room())?;
    Ok(())
}

// The scans of a heap of so many objects from one owner.
fn time_scans<R: Threads + Sync>(
    rt: &HostRuntime,
    threads: &R,
    workers: u32,
    objects: u32,
) -> anyhow::Result<()> {
    let Some(kind) = Name::of(rt.alloc(), "Node")? else {
        return Ok(())
    };
    let Ok(table) = scans::heap(rt.alloc(), &kind, objects) else {
        return Ok(())
    };
    for _ in 0..TIMES {
        time_scan(rt, threads, &table, workers, objects)?;
    }
    Ok(())
}

fn time_scan<R: Threads + Sync>(
    rt: &HostRuntime,
    threads: &R,
    table: &object_table::ObjectTable,
    workers: u32,
    objects: u32,
) -> anyhow::Result<()> {
    if workers == 0 || workers > 16 {
        return Ok(());
    }
    let (Some(owner), Some(ownee), Some(orphan)) = (
        scans::cell(table, 1),
        scans::cell(table, objects.saturating_sub(1)),
        scans::cell(table, objects.saturating_sub(2)),
    ) else {
        return Ok(());
    };
    let Some(roles) = scans::roles(rt.alloc(), table, owner, ownee, orphan)? else {
        return Ok(());
    };
    let (headers, mut jobs) = scans::start_all(rt.alloc(), table, workers)?;
    let shared = ScanShared {
        headers: &headers,
        table,
        roles: &roles,
    };
    let Some(task) = scans::owner_task(&shared, owner) else {
        return Ok(())
    };
    let first = scans::first_list(rt.alloc(), workers, task)?;
    let mut crew: Crew<ScanJob> = Crew::make(rt.alloc(), workers, table.cells() as u64 + 2)?;
    let start = Instant::now(rt)?;
    scans::scan(
        threads, &mut crew, &shared, &mut jobs, workers, task, &first,
    );
    let took = start.elapsed(rt)?.as_micros();
    println!(rt; "{took} {objects}")?;
    Ok(())
}

// The number that a word is, 0 for another.
fn number(words: &[String], place: usize) -> u32 {
    match words.get(place) {
        Some(word) => word.as_str().parse().unwrap_or(0),
        None => 0,
    }
}

fn main(rt: HostRuntime) -> anyhow::Result<()> {
    let mut words = Vec::new(rt.alloc());
    for word in env::args(&rt)? {
        words.push(word)?;
    }
    let (one, two, three) = (number(&words, 2), number(&words, 3), number(&words, 4));
    match words.get(1) {
        Some(word) if word.as_str() == "walk" => time_walks(&rt, &rt, one, two, three),
        Some(word) if word.as_str() == "make" => time_make(&rt, one, two),
        Some(word) if word.as_str() == "scan" => time_scans(&rt, &rt, one, two),
        _ => Ok(()),
    }
}
''',
    "src/walkers.rt": '''//! Jobs that do nothing but put the tasks of other cells.
ghost use Rattle.std.specs.Prelude.{◌≡◌, ◌+◌, ◌<◌, ◌≤◌, ◌^◌, IfOk, length, vec_len};
ghost use Rattle.std.specs.List.{All};
ghost use Rattle.steal_pool.specs.Runs.{workers_of, room_of};
ghost use Rattle.steal_pool.specs.CellTasks.{AreFirst};

use heap_base::OutOfMemory;
use std::alloc::Global;
use std::thread::Threads;
use steal_pool::{Crew, FirstTasks, Job, OpenGate, Outbox, Task};

/// The cells below `count`: a chain up to the cell `open`, from which on a tree grows.
#[derive(Drop)]
pub struct Cells {
    pub count: u32,
    pub open: u32,
}

impl Cells {
    // The cells from the one up to the other.
    fn after(&self, cell: u32) -> (u32, u32) {
        if cell < self.open {
            return (cell.saturating_add(1), cell.saturating_add(2));
        }
        let below = cell.saturating_sub(self.open).saturating_mul(2);
        let from = below.saturating_add(1).saturating_add(self.open);
        (from, from.saturating_add(2))
    }
}

#[derive(Drop)]
pub struct Walker {
    room: u32,
    turns: u64,
    pub done: u64,
}

impl Job<Cells> for Walker {
    ghost use Rattle.steal_pool.specs.CellTasks.{cells_meaning};

    ghost meaning = { cells_meaning (λ s. s.count) (λ j. j.room) (λ j. j.turns) };

    fn room(&self) -> u64 {
        self.room as u64
    }

    fn turns(&self) -> u64 {
        self.turns
    }

    fn work(&mut self, shared: &Cells, task: Task, out: &mut Outbox) {
        self.turns -= 1;
        self.done = self.done.wrapping_add(1);
        let (from, to) = shared.after(task.cell);
        let to = to.min(shared.count).min(from.saturating_add(self.room));
        for cell in from..to {
            out.put(Task { cell, tag: 0 });
            self.room -= 1;
        }
    }
}

pub fn walkers(alloc: Global, workers: u32, cells: u32) -> Result<Vec<Walker>, OutOfMemory>
    ensures range { cells < 2 ^ 32 }
    ensures count { IfOk result (λ v. vec_len v ≡ workers) }
    ensures each { IfOk result (λ v. All (λ j. (j.room ≡ cells) × (j.turns ≡ 2 ^ 40)) v.items) }
{
    let mut jobs = Vec::with_capacity(alloc, workers as usize)?;
    for _ in 0..workers {
        jobs.push_reserved(Walker {
            room: cells,
            turns: 1 << 40,
            done: 0,
        });
    }
    Ok(jobs)
}

// Adds the task of the first cell for the first worker, where there are such ones.
fn add_first(first: &mut FirstTasks, workers: u32, cells: u32)
    requires lists { AreFirst workers cells first.old.lists }
    requires room { first.old.room ≡ 4 }
    ensures lists { AreFirst workers cells first.new.lists }
{
    if 0 < workers && 0 < cells && first.of(0).len() < 4 {
        first.add(0, Task { cell: 0, tag: 0 });
    }
}

pub fn first_cell(alloc: Global, workers: u32, cells: u32) -> Result<FirstTasks, OutOfMemory>
    ensures { IfOk result (λ f. AreFirst workers cells f.lists) }
{
    let mut first = FirstTasks::make(alloc, workers, 4)?;
    add_first(&mut first, workers, cells);
    Ok(first)
}

pub fn walk<R: Threads + Sync>(
    rt: &R,
    crew: &mut Crew<Walker>,
    cells: &Cells,
    jobs: &mut Vec<Walker>,
    first: &FirstTasks,
)
    requires room { cells.now.count + 5 ≤ room_of crew.old }
    requires range { cells.now.count < 2 ^ 32 }
    requires count { vec_len jobs.old ≡ workers_of crew.old }
    requires each { All (λ j. (j.room ≡ cells.now.count) × (j.turns ≡ 2 ^ 40)) jobs.old.items }
    requires first { AreFirst (workers_of crew.old) cells.now.count first.now.lists }
{
    crew.run(rt, cells, jobs, first, &OpenGate);
}

/// How many tasks all did.
pub fn all_done(jobs: &[Walker]) -> u64 {
    let mut sum = 0u64;
    for job in jobs {
        sum = sum.wrapping_add(job.done);
    }
    sum
}
''',
    "src/scans.rt": '''//! Jobs that scan the objects of a heap.
ghost use Rattle.std.specs.Prelude.{◌≡◌, ◌<◌, ◌≤◌, ◌+◌, [], ◌∷◌, length, replicate, slice_set, IfSome, IfOk, IsSome};
ghost use Rattle.std.specs.List.{Contains};
ghost use Rattle.heap_base.specs.declared.limits.TheConstants.{MOST_WORKERS};
ghost use Rattle.graph_meaning.specs.Roles.{AreRolesOf};
ghost use Rattle.object_table.specs.Placed.{id_in};
ghost use Rattle.scan_job.specs.declared.mode.Mode.TheVariants.{Owner};
ghost use Rattle.scan_job.specs.Fit.{fit_tasks};
ghost use Rattle.scan_job.specs.Jobs.{shared_graph};
ghost use Rattle.scan_job.specs.TestHeaps.{AreNewJobs};
ghost use Rattle.steal_pool.specs.Runs.{workers_of, room_of};

use graph_meaning::{OwnerRole, Roles, Stop};
use header_rule::Headers;
use heap_base::{Name, ObjId, OutOfMemory};
use object_table::ObjectTable;
use scan_job::{ScanJob, ScanShared};
use std::alloc::Global;
use std::thread::Threads;
use steal_pool::{Crew, FirstTasks, OpenGate, Task};

/// The slots of each object.
const SLOTS: u32 = 3;

// So many objects; each but the first stands in a slot of a smaller one, and a third slot holds any.
pub fn heap(alloc: Global, kind: &Name, objects: u32) -> Result<ObjectTable, Stop> {
    let mut table = ObjectTable::make(alloc)?;
    let mut draw = 1u64;
    for n in 1..objects {
        let Some(id) = ObjId::of(n) else { continue };
        table.alloc_object(id, kind, SLOTS)?;
        let _ = table.store(id_of(n / 2)?, n % 2, Some(id));
        draw = draw
            .wrapping_mul(6364136223846793005)
            .wrapping_add(1442695040888963407);
        let to = 1 + (draw >> 33) as u32 % n;
        let _ = table.store(id, 2, Some(id_of(to)?));
    }
    Ok(table)
}

fn id_of(n: u32) -> Result<ObjId, OutOfMemory> {
    match ObjId::of(if n == 0 { 1 } else { n }) {
        Some(id) => Ok(id),
        None => Err(OutOfMemory),
    }
}

pub fn cell(table: &ObjectTable, n: u32) -> Option<u32>
    ensures { IfSome result (λ c. IsSome (id_in table.now c)) }
{
    match ObjId::of(n) {
        Some(id) => table.cell_of(id),
        None => None,
    }
}

/// Roles by which the owner owns the ownee, and the orphan is an ownee whose owner was freed.
pub fn roles(
    alloc: Global,
    table: &ObjectTable,
    owner: u32,
    ownee: u32,
    orphan: u32,
) -> Result<Option<Roles>, OutOfMemory>
    requires owner { IsSome (id_in table.now owner) }
    requires ownee { IsSome (id_in table.now ownee) }
    requires orphan { IsSome (id_in table.now orphan) }
    ensures { IfOk result (λ o. IfSome o (λ r. AreRolesOf table.now.cells (length table.now.table.kinds) r)) }
{
    if owner == ownee || ownee == orphan {
        return Ok(None);
    }
    let mut roles = Roles::make(alloc, table.cells(), table.kinds())?;
    roles.set_owner(ownee, OwnerRole::OwnerCell(owner));
    roles.set_owner(orphan, OwnerRole::OwnerGone(9));
    roles.add_owner(owner);
    Ok(Some(roles))
}

/// The task of the owner.
pub fn owner_task(shared: &ScanShared<'_>, owner: u32) -> Option<Task>
    requires roles { AreRolesOf shared.now.table.now.cells (length shared.now.table.now.table.kinds) shared.now.roles.now }
    ensures { IfSome result (λ t. Contains (fit_tasks (shared_graph shared.now) Owner) t) }
{
    if owner < shared.table.cells() && shared.roles.is_owner(owner) {
        Some(Task {
            cell: owner,
            tag: owner,
        })
    } else {
        None
    }
}

/// Headers of the table's cells, and a job for each worker.
pub fn start_all(
    alloc: Global,
    table: &ObjectTable,
    workers: u32,
) -> Result<(Headers, Vec<ScanJob>), OutOfMemory>
    requires { (0 < workers) × (workers ≤ MOST_WORKERS) }
    ensures { IfOk result (λ r. AreNewJobs workers table.now r.0 r.1.items) }
{
    let (headers, mut passes) = Headers::make(alloc, table.cells(), workers)?;
    let mut jobs = Vec::new(alloc);
    while let Some(pass) = passes.pop() {
        jobs.push(ScanJob::make(alloc, pass, table.cells(), table.kinds())?)?;
    }
    Ok((headers, jobs))
}

/// The task for the first worker, and none for the others.
pub fn first_list(alloc: Global, workers: u32, task: Task) -> Result<FirstTasks, OutOfMemory>
    requires { 0 < workers }
    ensures { IfOk result (λ f. f.lists ≡ slice_set (replicate workers []) 0 (task ∷ [])) }
{
    let mut first = FirstTasks::make(alloc, workers, 1)?;
    first.add(0, task);
    Ok(first)
}

/// A run of these jobs that begins with the owner's task. The crew has room for the cells and two.
pub fn scan<R: Threads + Sync>(
    rt: &R,
    crew: &mut Crew<ScanJob>,
    shared: &ScanShared<'_>,
    jobs: &mut Vec<ScanJob>,
    workers: u32,
    task: Task,
    first: &FirstTasks,
)
    requires workers { (0 < workers) × (workers ≤ MOST_WORKERS) }
    requires crew { (workers_of crew.old ≡ workers) × (length shared.now.table.now.cells + 2 ≤ room_of crew.old) }
    requires roles { AreRolesOf shared.now.table.now.cells (length shared.now.table.now.table.kinds) shared.now.roles.now }
    requires jobs { AreNewJobs workers shared.now.table.now shared.now.headers.now jobs.old.items }
    requires fit { Contains (fit_tasks (shared_graph shared.now) Owner) task }
    requires first { first.now.lists ≡ slice_set (replicate workers []) 0 (task ∷ []) }
{
    shared.table.cells();
    crew.run(rt, shared, jobs, first, &OpenGate);
}
''',
    "proofs/Lib.antt": '''''',
    "proofs/scans/first_list/Answers.antt": '''use Rattle.scan_job.proofs.TestRuns.{first-lists}
use Rattle.crew_cost.proofs.scans.first_list.Goals as goal

pub returns : goal.returns
returns c =
    first-lists c.args.workers c.args.task c.in_ok-first.first.lists c.add.new.self.lists c.requires c.in_ok-first.ensures.lists c.add.ensures.lists
''',
    "proofs/scans/owner_task/Answers.antt": '''use Rattle.std.proofs.Common.{refl, sym, ◌∙◌, inl}
use Rattle.scan_job.specs.declared.mode.Mode.TheVariants.{Owner}
use Rattle.scan_job.specs.Jobs.{shared_graph}
use Rattle.scan_job.proofs.Placing.{is-whole}
use Rattle.scan_job.proofs.Fitting.{fit_tasks-is}
use Rattle.crew_cost.proofs.scans.owner_task.Goals as goal

pub returns-then-is_owner : goal.returns-then-is_owner
returns-then-is_owner c =
    let s = c.args.shared.now in
    (fit_tasks-is (shared_graph s) (is-whole s.table.now s.roles.now c.requires.roles) Owner (record { cell = c.args.owner; tag = c.args.owner })).1 (sym c.is_owner.ensures ∙ c.if-is_owner.true, inl refl)
''',
    "proofs/scans/roles/Answers.antt": '''use Rattle.std.proofs.Common.{◌≡◌, [], ◌∷◌, ◌++◌, length, set, sym, ap, ◌∙◌, subst}
use Rattle.graph_meaning.specs.declared.roles.OwnerRole.TheVariants.{OwnerCell, OwnerGone}
use Rattle.graph_meaning.specs.Roles.{RoleTable, no_roles, AreRolesOf}
use Rattle.scan_job.proofs.TestRoles.{are-roles}
use Rattle.crew_cost.proofs.scans.roles.Goals as goal

pub returns : goal.returns
returns c =
    let t = c.args.table.now in
    let n = c.args in
    let made : c.in_ok-roles.roles ≡ no_roles (length t.cells) (length t.table.kinds) = c.in_ok-roles.ensures ∙ (λ i. no_roles (c.cells.ensures.count i) (c.kinds.ensures.count i)) in
    let one = c.set_owner.ensures ∙ ap (λ (r : RoleTable). record r { ownees = set r.ownees n.ownee (OwnerCell n.owner) }) made in
    let two = c.set_owner-2.ensures ∙ ap (λ (r : RoleTable). record r { ownees = set r.ownees n.orphan (OwnerGone 9) }) one in
    let three = c.add_owner.ensures ∙ ap (λ (r : RoleTable). record r { owners = r.owners ++ n.owner ∷ [] }) two in
    subst (AreRolesOf t.cells (length t.table.kinds)) (sym three)
    (are-roles t.cells (length t.table.kinds) n.owner n.ownee n.orphan 9 c.requires.owner c.requires.ownee c.requires.orphan c.if-owner-ownee.false c.if-ownee-orphan.false)
''',
    "proofs/scans/scan/Answers.antt": '''use Rattle.std.proofs.Common.{◌≤◌, List, sym, subst, arith}
use Rattle.std.specs.List.{All}
use Rattle.steal_pool.specs.declared.task.Task.{Task}
use Rattle.steal_pool.specs.Jobs.{AllFit}
use Rattle.steal_pool.specs.Runs.{fit_tasks, HaveRoom, most_tasks, room_of}
use Rattle.scan_job.specs.Jobs.{scan_meaning}
use Rattle.scan_job.specs.States.{turns_of}
use Rattle.scan_job.proofs.TestRuns.{runs-ready, runs-first_fit, runs-room, runs-turns}
use Rattle.crew_cost.proofs.scans.scan.Goals as goal

pub run-requires-clause-ready : goal.run-requires-clause-ready
run-requires-clause-ready g c κs within =
    runs-ready c.args.shared.now c.args.workers c.args.jobs.now.items c.args.task c.cells.ensures.placed c.cells.ensures.sound c.requires.roles c.requires.jobs c.requires.workers.0 c.requires.workers.1 c.requires.fit

pub run-requires-clause-fit : goal.run-requires-clause-fit
run-requires-clause-fit g c κs within =
    subst (λ (fs : List (List Task)). All (AllFit (fit_tasks scan_meaning c.args.shared.now c.args.jobs.now.items)) fs) (sym c.requires.first)
    (runs-first_fit c.args.shared.now c.args.workers c.args.jobs.now.items c.args.task c.cells.ensures.placed c.cells.ensures.sound c.requires.roles c.requires.jobs c.requires.workers.0 c.requires.workers.1 c.requires.fit)

pub run-requires-clause-room : goal.run-requires-clause-room
run-requires-clause-room g c κs within =
    subst (λ (fs : List (List Task)). HaveRoom scan_meaning (room_of c.args.crew.now) c.args.jobs.now.items fs) (sym c.requires.first)
    (runs-room c.args.shared.now c.args.workers c.args.jobs.now.items c.args.task c.cells.ensures.placed c.cells.ensures.sound c.requires.roles c.requires.jobs c.requires.workers.0 c.requires.workers.1 c.requires.fit (room_of c.args.crew.now) c.requires.crew.1)

pub run-requires-clause-turns : goal.run-requires-clause-turns
run-requires-clause-turns g c κs within =
    subst (λ (fs : List (List Task)). All (λ j. most_tasks scan_meaning c.args.jobs.now.items fs ≤ turns_of j) c.args.jobs.now.items) (sym c.requires.first)
    (runs-turns c.args.shared.now c.args.workers c.args.jobs.now.items c.args.task c.cells.ensures.placed c.cells.ensures.sound c.requires.roles c.requires.jobs c.requires.workers.0 c.requires.workers.1 c.requires.fit)
''',
    "proofs/scans/start_all/Answers.antt": '''use Rattle.std.proofs.Common.{length, sym, ap, ◌∙◌, subst, arith, Some}
use Rattle.std.specs.List.{All}
use Rattle.std.proofs.lemmas.List.Elements.{All-pop, All-push}
use Rattle.header_rule.specs.Passes.{IsFresh, IsPassOf}
use Rattle.scan_job.specs.States.{ScanState, new_state}
use Rattle.scan_job.specs.TestHeaps.{IsNewJob}
use Rattle.crew_cost.proofs.scans.start_all.Goals as goal

pub loop-pass-preserved : goal.loop-pass-preserved
loop-pass-preserved c =
    let t = c.args.table.now in
    let h = c.in_ok-headers.headers in
    let pass = c.in-Some.pass in
    let i = c.loop-pass.invariant in
    let old = c.loop-pass.passes.items in
    let rest = c.pop.new.self.items in
    let fresh = All-pop IsFresh old rest (Some pass) c.in-Some.ensures.items i.fresh in
    let passes = All-pop (IsPassOf h) old rest (Some pass) c.in-Some.ensures.items i.passes in
    let made = c.in_ok-make.ensures.made ∙ (λ k. new_state pass (c.cells-in-Some.ensures.count k) (c.kinds.ensures.count k)) in
    let same = ap (λ (j : ScanState). j.pass) made in
    let new : IsNewJob t h c.in_ok-make.field-0 = record {
      is_new = made ∙ (λ k. new_state (sym same k) (length t.cells) (length t.table.kinds));
      fresh = subst IsFresh (sym same) fresh.1;
      pass = subst (IsPassOf h) (sym same) passes.1;
    } in
    let popped = c.in-Some.ensures.cases in
    let pushed = c.in_ok-push.ensures.len in
    let count = i.count in
    record {
      fresh = fresh.0;
      passes = passes.0;
      count = (omega arith);
      jobs = subst (All (IsNewJob t h)) (sym c.in_ok-push.ensures.items) (All-push (IsNewJob t h) c.loop-pass.jobs.items c.in_ok-make.field-0 i.jobs new);
    }
''',
    "proofs/scans/start_all/Invariants.antt": '''use Rattle.std.proofs.Common.{◌≡◌, ◌+◌, vec_len}
use Rattle.std.specs.List.{All}
use Rattle.header_rule.specs.Passes.{IsFresh, IsPassOf}
use Rattle.scan_job.specs.TestHeaps.{IsNewJob}
use Rattle.crew_cost.proofs.scans.start_all.Given as goal

abbrev pub invariant-loop-pass : goal.invariant-loop-pass
invariant-loop-pass l = record {
  fresh : All IsFresh l.passes.items;
  passes : All (IsPassOf l.headers) l.passes.items;
  count : vec_len l.jobs + vec_len l.passes ≡ l.fn.workers;
  jobs : All (IsNewJob l.table l.headers) l.jobs.items;
}

abbrev pub decreases-loop-pass : goal.decreases-loop-pass
decreases-loop-pass l = vec_len l.passes
''',
    "proofs/walkers/WalkerJobCells/work/Answers.antt": '''use Rattle.std.proofs.Common.{arith, List, [], ◌∷◌, ◌++◌, ap, ◌∙◌, append_assoc, length-append}
use Rattle.steal_pool.specs.declared.task.Task.{Task}
use Rattle.steal_pool.proofs.CellTaskLemmas.{task_of, fit-append}
use Rattle.crew_cost.proofs.walkers.WalkerJobCells.work.Goals as goal

pub loop-cell-preserved : goal.loop-cell-preserved
loop-cell-preserved c =
    let k = c.loop-cell.invariant in
    let more = task_of c.loop-cell.cell ∷ [] in
    let room = k.room in
    let count = k.count in
    let len = length-append k.put more in
    let below = c.min.ensures in
    let least = c.min-to.ensures in
    let cap = c.saturating_add.ensures in
    let here = c.loop-cell-test.true in
    record {
      put = k.put ++ more;
      tasks = c.put.ensures.tasks ∙ (ap (λ (ts : List Task). ts ++ more) k.tasks ∙ append_assoc c.args.out.now.tasks k.put more);
      are_fit = fit-append c.args.shared.now.count k.put c.loop-cell.cell k.are_fit (omega arith);
      room = omega arith;
      count = omega arith;
      outbox = c.put.ensures.room ∙ k.outbox;
      turns = k.turns;
    }
''',
    "proofs/walkers/WalkerJobCells/work/Invariants.antt": '''use Rattle.std.proofs.Common.{◌≡◌, ◌+◌, List, ◌++◌, length}
use Rattle.steal_pool.specs.declared.task.Task.{Task}
use Rattle.steal_pool.specs.Jobs.{AllFit}
use Rattle.steal_pool.specs.CellTasks.{tasks_below}
use Rattle.crew_cost.proofs.walkers.WalkerJobCells.work.Given as goal

abbrev pub invariant-loop-cell : goal.invariant-loop-cell
invariant-loop-cell l = record {
  put : List Task;
  tasks : l.out.tasks ≡ l.fn.out.tasks ++ put;
  are_fit : AllFit (tasks_below l.shared.count) put;
  room : l.self.room + length put ≡ l.fn.self.room;
  count : l.from + length put ≡ l.cell;
  outbox : l.out.room ≡ l.fn.out.room;
  turns : l.self.turns + 1 ≡ l.fn.self.turns;
}
''',
    "proofs/walkers/add_first/Answers.antt": '''use Rattle.std.proofs.Common.{arith, List, length, ap, sym, subst}
use Rattle.steal_pool.specs.declared.task.Task.{Task}
use Rattle.steal_pool.specs.CellTasks.{AreFirst}
use Rattle.steal_pool.proofs.CellTaskLemmas.{first_more}
use Rattle.crew_cost.proofs.walkers.add_first.Goals as goal

pub returns-then-of-lt4 : goal.returns-then-of-lt4
returns-then-of-lt4 c =
    let is = ap (λ (ts : List Task). length ts) c.of.ensures in
    let few = c.if-of-lt4.true in
    record { lists = subst (AreFirst c.args.workers c.args.cells) (sym c.add.ensures.lists) (first_more c.args.workers c.args.cells c.args.first.now.lists 0 0 c.requires.lists c.if-workers-gt0.true c.if-cells-gt0.true (omega arith)) }
''',
    "proofs/walkers/first_cell/Answers.antt": '''use Rattle.std.proofs.Common.{subst, sym}
use Rattle.steal_pool.specs.CellTasks.{AreFirst}
use Rattle.steal_pool.proofs.CellTaskLemmas.{first_none}
use Rattle.crew_cost.proofs.walkers.first_cell.Goals as goal

pub add_first-requires-clause-lists : goal.add_first-requires-clause-lists
add_first-requires-clause-lists c = (subst (AreFirst c.args.workers c.args.cells) (sym c.in_ok-first.ensures.lists) (first_none c.args.workers c.args.cells))
''',
    "proofs/walkers/walk/Answers.antt": '''use Rattle.std.proofs.Common.{arith, ◌≡◌, length, sym, ◌∙◌, subst}
use Rattle.crew_cost.specs.declared.walkers.Cells.{Cells}
use Rattle.crew_cost.specs.declared.walkers.Walker.{Walker}
use Rattle.steal_pool.specs.CellTasks.{AreFirst}
use Rattle.steal_pool.proofs.CellTaskLemmas.{rooms, enough_turns}
use Rattle.crew_cost.proofs.walkers.walk.Goals as goal

pub run-requires-clause-room : goal.run-requires-clause-room
run-requires-clause-room g c κs within =
    let js = c.args.jobs.now in
    let n : length js.items ≡ _ = sym js.ok.0 ∙ c.requires.count in
    rooms (λ (s : Cells). s.count) (λ (j : Walker). j.room) (λ (j : Walker). j.turns) c.args.cells.now.count _ js.items c.args.first.now.lists c.requires.room c.requires.each
    (subst (λ k. AreFirst k c.args.cells.now.count c.args.first.now.lists) (sym n) c.requires.first)

pub run-requires-clause-turns : goal.run-requires-clause-turns
run-requires-clause-turns g c κs within =
    let js = c.args.jobs.now in
    let n : length js.items ≡ _ = sym js.ok.0 ∙ c.requires.count in
    let few = c.args.crew.now.few in
    enough_turns (λ (s : Cells). s.count) (λ (j : Walker). j.room) (λ (j : Walker). j.turns) c.args.cells.now.count js.items c.args.first.now.lists (omega arith) c.requires.range c.requires.each
    (subst (λ k. AreFirst k c.args.cells.now.count c.args.first.now.lists) (sym n) c.requires.first)
''',
    "proofs/walkers/walkers/Invariants.antt": '''use Rattle.std.proofs.Common.{◌≡◌, ◌^◌, vec_len, vec_capacity}
use Rattle.std.specs.List.{All}
use Rattle.crew_cost.proofs.walkers.walkers.Given as goal

abbrev pub invariant-loop : goal.invariant-loop
invariant-loop l = record {
  len : vec_len l.jobs ≡ l.counter;
  space : vec_capacity l.jobs ≡ l.fn.workers;
  each : All (λ j. (j.room ≡ l.fn.cells) × (j.turns ≡ 2 ^ 40)) l.jobs.items;
}
''',
    "specs/Lib.antt": "",
}


def lay_out(folder):
    """The program as a crate of a small repository, beside the crates that it stands on."""
    shutil.copy(os.path.join(TOP, "HANDLES"), folder)
    for crate in CRATES:
        shutil.copytree(os.path.join(TOP, "crates", crate), os.path.join(folder, "crates", crate), ignore=shutil.ignore_patterns("out"))
    with open(os.path.join(TOP, "crates.txt")) as crates:
        lines = [line for line in crates if line.split(" ")[0].split(":")[0] in CRATES]
    with open(os.path.join(folder, "crates.txt"), "w") as crates:
        crates.writelines(lines + ["crew_cost: scan_job header_rule steal_pool object_table graph_meaning heap_base anyhow\n"])
    program = os.path.join(folder, "crates", "crew_cost")
    for name, text in PROGRAM.items():
        path = os.path.join(program, name)
        os.makedirs(os.path.dirname(path), exist_ok=True)
        with open(path, "w") as file:
            file.write(text)
    return program


def runs_of(program, *words):
    """The microseconds and the count of each run that the program makes for these words."""
    run = subprocess.run([program] + [str(word) for word in words], capture_output=True, text=True)
    rows = [[int(number) for number in line.split()] for line in run.stdout.splitlines()]
    if run.returncode != 0 or not rows:
        sys.exit(run.stdout[-2000:] + run.stderr[-2000:] + f"no run of {words}")
    return rows


def least(program, count, *words):
    """The least time of the runs, each of which has to have done so many."""
    rows = runs_of(program, *words)
    if any(row[1] != count for row in rows):
        sys.exit(f"{words}: not {count} were done")
    return min(row[0] for row in rows)


def peak(program, *words):
    """The peak of the memory of one run, in KiB, and its microseconds."""
    child = os.fork()
    if child == 0:
        took = runs_of(program, *words)[0][0]
        memory = resource.getrusage(resource.RUSAGE_CHILDREN).ru_maxrss
        print(f"{words[2]:>9,} cells, {words[1]:>2} workers: {memory / 1024:>8.1f} MB, {took / 1000:>8.1f} ms", flush=True)
        os._exit(0)
    os.waitpid(child, 0)


def main():
    need_commands("rt")
    with tempfile.TemporaryDirectory() as folder:
        crate = lay_out(folder)
        build = subprocess.run(["rt", "run"], cwd=crate, capture_output=True, text=True)
        program = os.path.join(crate, "out", "crew_cost")
        if build.returncode != 0 or not os.path.exists(program):
            sys.exit(build.stdout[-4000:] + build.stderr[-4000:] + "the program can't be built here")
        shapes = [
            ("chain", lambda workers: (CELLS, "walk", workers, CELLS, CELLS)),
            ("tree", lambda workers: (CELLS, "walk", workers, CELLS, 0)),
            ("chain that opens", lambda workers: (CELLS, "walk", workers, CELLS, OPEN)),
            ("scans of a heap", lambda workers: (CELLS, "scan", workers, CELLS)),
        ]
        print(f'{"tasks":<18} {"workers":>7} {"ns a task":>9} {"ratio":>6}')
        for name, words in shapes:
            one = None
            for workers in (1, 2, 4):
                took = least(program, *words(workers))
                one = one or took
                print(f"{name:<18} {workers:>7} {1000 * took / CELLS:>9.1f} {took / one:>6.2f}")
        print("\nMaking a crew:")
        for cells in (1_000, 100_000, 1_048_576):
            for workers in (1, 16):
                peak(program, "make", workers, cells)


if __name__ == "__main__":
    main()
