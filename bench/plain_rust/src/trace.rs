//! The trace of a heap: from the owners, and then from the roots, over the header words.
use crate::heap::{Heap, COUNT, IS_MET_BY_ROOTS, IS_OWNER, IS_UNDER};
use crate::slots::edge;
use crossbeam_deque::{Stealer, Worker};
use std::sync::atomic::{AtomicUsize, Ordering::Relaxed, Ordering::SeqCst};

/// A thread pays where a phase has so many cells for it.
const CELLS_OF_A_THREAD: usize = 8_192;
/// A worker with more cells gives so many of them to be stolen, while few are.
const GIVEN: usize = 32;

/// Meets a cell with one worker, and answers its word before.
#[inline]
fn meet_alone(heap: &Heap, marks: u64, cell: u32) -> u64 {
    let word = &heap.header(cell).word;
    let before = word.load(Relaxed);
    word.store((before | marks) + 1, Relaxed);
    before
}

#[inline]
fn meet_shared(heap: &Heap, marks: u64, cell: u32) -> u64 {
    let word = &heap.header(cell).word;
    let before = word.fetch_add(1, Relaxed);
    if marks & !before != 0 {
        word.fetch_or(marks, Relaxed);
    }
    before
}

/// Scans an object: meets what its edges lead to, puts what is met first, and answers how many that are.
#[inline]
fn scan(heap: &Heap, cell: u32, meet: impl Fn(u32) -> u64, mut put: impl FnMut(u32)) -> u32 {
    let mut firsts = 0;
    for to in heap.words(cell).iter().filter_map(|word| edge(*word)) {
        let before = meet(to);
        if before & COUNT == 0 {
            firsts += 1;
            if before & IS_OWNER == 0 {
                put(to);
            }
        }
    }
    firsts
}

fn run_alone(heap: &Heap, marks: u64, mut work: Vec<u32>) -> u32 {
    let mut firsts = 0;
    while let Some(cell) = work.pop() {
        firsts += scan(heap, cell, |to| meet_alone(heap, marks, to), |to| work.push(to));
    }
    firsts
}

fn run_many(heap: &Heap, marks: u64, work: Vec<u32>, threads: usize) -> u32 {
    let queues: Vec<Worker<u32>> = (0..threads).map(|_| Worker::new_lifo()).collect();
    for (place, cell) in work.iter().enumerate() {
        queues[place % threads].push(*cell);
    }
    let crew = Crew { stealers: queues.iter().map(Worker::stealer).collect(), idle: AtomicUsize::new(0) };
    std::thread::scope(|scope| {
        let crew = &crew;
        let running: Vec<_> = queues.into_iter().map(|queue| scope.spawn(move || crew.work(heap, marks, queue))).collect();
        running.into_iter().map(|thread| thread.join().expect("a worker ends")).sum()
    })
}

/// Scans these cells and all that comes of them, and answers how many objects were met first.
fn run(heap: &Heap, marks: u64, work: Vec<u32>, workers: usize) -> u32 {
    match workers.min(heap.headers.len() / CELLS_OF_A_THREAD) {
        0 | 1 => run_alone(heap, marks, work),
        threads => run_many(heap, marks, work, threads),
    }
}

/// The queues of all workers of a phase, from which others steal, and how many of the workers have nothing to do.
struct Crew {
    stealers: Vec<Stealer<u32>>,
    idle: AtomicUsize,
}

impl Crew {
    fn work(&self, heap: &Heap, marks: u64, queue: Worker<u32>) -> u32 {
        let (mut firsts, mut work) = (0, Vec::new());
        while let Some(cell) = work.pop().or_else(|| queue.pop()).or_else(|| self.steal(&queue)) {
            firsts += scan(heap, cell, |to| meet_shared(heap, marks, to), |to| work.push(to));
            if work.len() > 2 * GIVEN && queue.is_empty() {
                work.drain(..GIVEN).for_each(|cell| queue.push(cell));
            }
        }
        firsts
    }

    fn try_steal(&self, queue: &Worker<u32>) -> Option<u32> {
        self.stealers.iter().find_map(|stealer| stealer.steal_batch_and_pop(queue).success())
    }

    /// A cell of another worker; none once all workers have nothing to do. An idle worker's queue is empty, so then all are.
    fn steal(&self, queue: &Worker<u32>) -> Option<u32> {
        loop {
            if let Some(cell) = self.try_steal(queue) {
                return Some(cell);
            }
            self.idle.fetch_add(1, SeqCst);
            while self.stealers.iter().all(Stealer::is_empty) {
                if self.idle.load(SeqCst) == self.stealers.len() {
                    return None;
                }
                std::thread::yield_now();
            }
            self.idle.fetch_sub(1, SeqCst);
        }
    }
}

/// The cells of the owners of live ownees, each marked as one.
fn owners(heap: &Heap) -> Vec<u32> {
    let mut owners = Vec::new();
    for owner in heap.owners.values().filter(|owner| heap.is_live(owner)) {
        let header = heap.header(owner.cell);
        if !header.has(IS_OWNER) {
            header.set(IS_OWNER);
            owners.push(owner.cell);
        }
    }
    owners
}

/// Traces the heap, and answers how many objects are traced.
pub fn trace(heap: &Heap, workers: usize) -> u32 {
    let owners = owners(heap);
    // (only an ownee may not be met by roots)
    let marks = if heap.owners.is_empty() { 0 } else { IS_MET_BY_ROOTS };
    let mut traced = run(heap, IS_UNDER, owners, workers);
    let mut work = Vec::new();
    for cell in heap.roots.cells() {
        let before = meet_alone(heap, marks, cell);
        if before & COUNT == 0 {
            traced += 1;
            if before & IS_OWNER == 0 {
                work.push(cell);
            }
        }
    }
    traced + run(heap, marks, work, workers)
}
