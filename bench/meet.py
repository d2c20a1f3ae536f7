#!/usr/bin/env python3
"""Times one meet of a header word against a plain `fetch_add`, with 1, 2 and 4 threads.

Usage: bench/meet.py
It writes the program below into a temporary folder, with copies of the crates that it uses, lets `rt` prove and
build it there (some minutes the first time on a machine), and runs it. Nothing here is part of the gate.
Each worker makes 2,000,000 steps, all on one word or spread over 1,048,576 words. The three kinds of step take turns,
seven times each, and the fastest time of each counts. A ratio is the time of a meet divided by that of a plain add.
"""
import os
import shutil
import subprocess
import sys
import tempfile

from run import need_commands

TOP = os.path.dirname(os.path.dirname(os.path.abspath(__file__)))
CRATES = ["heap_base", "header_rule"]
STEPS = 2_000_000

PROGRAM = {
    "src/main.rt": '''//! Times plain adds, meets, and meets with a mark, by the microsecond.
#![tactic(auto)]

mod steps;

use header_rule::Marks;
use std::sync::atomic::AtomicU64;
use std::sync::atomic::Ordering::SeqCst;
use std::time::Instant;

fn main(rt: HostRuntime) -> anyhow::Result<()> {
    for spread in [false, true] {
        for workers in [1u32, 2, 4] {
            for _ in 0..7 {
                let first = AtomicU64::new(0);
                let mut places = Vec::from_elem(rt.alloc(), 0u8, workers as usize)?;
                let words = steps::words(rt.alloc())?;
                let start = Instant::now(&rt)?;
                steps::add_all(&rt, places.as_mut_slice(), words.as_slice(), spread, &first);
                let plain = start.elapsed(&rt)?.as_micros();
                let mut took = [0u128; 2];
                for found in [false, true] {
                    let given = Marks { found, disputed: false, met_by_roots: false };
                    let (headers, mut passes) = steps::headers(rt.alloc(), workers)?;
                    let start = Instant::now(&rt)?;
                    steps::meet_all(&rt, &headers, passes.as_mut_slice(), spread, given, &first);
                    took[found as usize] = start.elapsed(&rt)?.as_micros();
                }
                let first = first.load(SeqCst);
                println!(rt; "{spread} {workers} {first} {plain} {} {}", took[0], took[1])?;
            }
        }
    }
    Ok(())
}
''',
    "src/steps.rt": '''ghost use Rattle.std.specs.Prelude.{◌≡◌, ◌<◌, ◌≤◌, ◌^◌, length, vec_len, IfOk};
ghost use Rattle.std.specs.List.{All};
ghost use Rattle.meet_cost.specs.Ready.{IsReady};

use header_rule::{Headers, Marks, Pass};
use heap_base::OutOfMemory;
use std::alloc::Global;
use std::sync::atomic::AtomicU64;
use std::sync::atomic::Ordering::SeqCst;
use std::thread::{Threads, for_each_mut};

const WORDS: u32 = 1 << 20;
const STEPS: u32 = 2_000_000;

fn place(step: u32, spread: bool) -> u32
    ensures { result < 2 ^ 20 }
{
    if spread { step.wrapping_mul(2_654_435_761) % WORDS } else { 0 }
}

pub fn words(alloc: Global) -> Result<Vec<AtomicU64>, OutOfMemory>
    ensures { IfOk result (λ v. vec_len v ≡ 2 ^ 20) }
{
    let mut words = Vec::with_capacity(alloc, WORDS as usize)?;
    for _ in 0..WORDS {
        words.push(AtomicU64::new(0))?;
    }
    Ok(words)
}

pub fn headers(alloc: Global, workers: u32) -> Result<(Headers, Vec<Pass>), OutOfMemory>
    requires { (0 < workers) × (workers ≤ 16) }
    ensures cells { IfOk result (λ r. r.0.cells ≡ 2 ^ 20) }
    ensures ready { IfOk result (λ r. All (IsReady r.0) r.1.items) }
{
    let (headers, passes) = Headers::make(alloc, WORDS, workers)?;
    Ok((headers, passes))
}

fn add_each(words: &[AtomicU64], spread: bool, first: &AtomicU64)
    requires { length words.now ≡ 2 ^ 20 }
{
    let mut found = 0u64;
    for step in 0..STEPS {
        if words[place(step, spread) as usize].fetch_add(1, SeqCst) == 0 {
            found = found.wrapping_add(1);
        }
    }
    first.fetch_add(found, SeqCst);
}

pub fn add_all<R: Threads + Sync>(
    rt: &R,
    workers: &mut [u8],
    words: &[AtomicU64],
    spread: bool,
    first: &AtomicU64,
)
    requires { length words.now ≡ 2 ^ 20 }
{
    for_each_mut(
        rt,
        workers,
        4,
        &|_, _: &mut u8|
            requires { length words.now ≡ 2 ^ 20 }
        { add_each(words, spread, first) },
    );
}

fn meet_each(headers: &Headers, pass: &mut Pass, spread: bool, given: Marks, first: &AtomicU64)
    requires cells { headers.now.cells ≡ 2 ^ 20 }
    requires ready { IsReady headers.now pass.old }
{
    let mut won = 0u64;
    for step in 0..STEPS {
        if headers.meet(pass, place(step, spread), given) {
            won = won.wrapping_add(1);
        }
    }
    first.fetch_add(won, SeqCst);
}

pub fn meet_all<R: Threads + Sync>(
    rt: &R,
    headers: &Headers,
    passes: &mut [Pass],
    spread: bool,
    given: Marks,
    first: &AtomicU64,
)
    requires cells { headers.now.cells ≡ 2 ^ 20 }
    requires ready { All (IsReady headers.now) passes.old }
{
    for_each_mut(
        rt,
        passes,
        4,
        &|_, pass: &mut Pass|
            requires { (headers.now.cells ≡ 2 ^ 20) × IsReady headers.now pass.old }
        { meet_each(headers, pass, spread, given, first) },
    );
}
''',
    "specs/Lib.antt": "pub mod Ready\n",
    "specs/Ready.antt": '''use Rattle.std.specs.Prelude.{◌≡◌, ◌^◌}
use Rattle.header_rule.specs.declared.headers.Headers.{Headers}
use Rattle.header_rule.specs.declared.pass.Pass.{Pass}
use Rattle.header_rule.specs.Passes.{IsPassOf}

abbrev pub IsReady : Headers → Pass → Type 0
IsReady h p = IsPassOf h p × (p.left ≡ 2 ^ 51)
''',
    "proofs/Lib.antt": "",
    "proofs/steps/words/Invariants.antt": '''use Rattle.std.proofs.Common.{◌≡◌}
use Rattle.std.specs.Prelude.{vec_len}
use Rattle.meet_cost.proofs.steps.words.Given as goal

abbrev pub invariant-loop : goal.invariant-loop
invariant-loop l = vec_len l.words ≡ l.counter
''',
    "proofs/steps/headers/Answers.antt": '''use Rattle.meet_cost.proofs.steps.headers.Goals as goal

pub returns-clause-ready : goal.returns-clause-ready
returns-clause-ready c = let made = c.in_ok-headers.ensures in λ k d low. (made.passes.0 k d low, (made.fresh k d low).left)
''',
    "proofs/steps/meet_each/Invariants.antt": '''use Rattle.std.proofs.Common.{◌≡◌, ◌+◌, ◌^◌}
use Rattle.header_rule.specs.Passes.{IsPassOf}
use Rattle.meet_cost.proofs.steps.meet_each.Given as goal

abbrev pub invariant-loop-step : goal.invariant-loop-step
invariant-loop-step l = IsPassOf l.headers l.pass × (l.pass.left + l.step ≡ 2 ^ 51)
''',
}


def lay_out(folder):
    """The program as a crate of a small repository, beside the crates that it stands on."""
    shutil.copy(os.path.join(TOP, "HANDLES"), folder)
    for crate in CRATES:
        shutil.copytree(os.path.join(TOP, "crates", crate), os.path.join(folder, "crates", crate), ignore=shutil.ignore_patterns("out"))
    with open(os.path.join(TOP, "crates.txt")) as crates:
        lines = [line for line in crates if line.split(" ")[0].split(":")[0] in CRATES]
    with open(os.path.join(folder, "crates.txt"), "w") as crates:
        crates.writelines(lines + ["meet_cost: header_rule heap_base anyhow\n"])
    program = os.path.join(folder, "crates", "meet_cost")
    for name, text in PROGRAM.items():
        path = os.path.join(program, name)
        os.makedirs(os.path.dirname(path), exist_ok=True)
        with open(path, "w") as file:
            file.write(text)
    return program


def main():
    need_commands("rt")
    with tempfile.TemporaryDirectory() as folder:
        program = lay_out(folder)
        run = subprocess.run(["rt", "run"], cwd=program, capture_output=True, text=True)
        rows = [line.split() for line in run.stdout.splitlines() if line.startswith(("true ", "false "))]
        if run.returncode != 0 or not rows:
            sys.exit(run.stdout[-4000:] + run.stderr[-4000:] + "the program can't be built and run here")
    print(f'{"words":>9} {"threads":>7} {"plain add, ns":>13} {"meet":>6} {"meet with a mark":>16}')
    for spread, words in (("false", 1), ("true", 1 << 20)):
        for workers in ("1", "2", "4"):
            tries = [row for row in rows if row[:2] == [spread, workers]]
            if any(int(row[2]) != 3 * words for row in tries):
                sys.exit("a word was not found at 0 exactly once")
            plain, meet, marked = (min(int(row[kind]) for row in tries) for kind in (3, 4, 5))
            print(f"{words:>9} {workers:>7} {1000 * plain / STEPS:>13.1f} {meet / plain:>6.2f} {marked / plain:>16.2f}")


if __name__ == "__main__":
    main()
