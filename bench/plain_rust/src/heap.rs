//! The heap of a trace: objects in cells that are used again, roots, types, and what is asserted.
use crate::ids::Ids;
use crate::limits::{Limits, MOST_REGIONS, MOST_THREADS};
use crate::names::{Kinds, Roots};
use crate::reading::{Operation, Refusal};
use crate::slots::{edge, Slots, WEAK};
use rustc_hash::FxHashMap;
use std::sync::atomic::{AtomicU64, Ordering::Relaxed};

const NO_CELL: u32 = u32::MAX;

/// The bits of a header word: how often the object was met, its type, what is asserted of it, and what a collection finds.
pub const COUNT: u64 = (1 << 32) - 1;
const KIND: u32 = 32;
pub const IS_LIVE: u64 = 1 << 48;
pub const IS_DEAD: u64 = 1 << 49;
pub const IS_UNSHARED: u64 = 1 << 50;
pub const IS_OWNEE: u64 = 1 << 51;
const HAS_WEAK: u64 = 1 << 52;
/// What stays from one collection to the next.
const STAYS: u64 = (1 << 53) - 1 - COUNT;
pub const IS_OWNER: u64 = 1 << 53;
pub const IS_UNDER: u64 = 1 << 54;
pub const IS_MET_BY_ROOTS: u64 = 1 << 55;
pub const IS_ASKED: u64 = 1 << 56;

/// A cell. All that a trace looks at stands together, four cells in a line of the cache.
#[repr(align(16))]
pub struct Header {
    pub word: AtomicU64,
    /// Where its slots are; of an empty cell the next one.
    begin: u32,
    length: u32,
}

impl Header {
    #[inline]
    pub fn word(&self) -> u64 {
        self.word.load(Relaxed)
    }

    /// Sets bits while no other thread is at the heap.
    #[inline]
    pub fn set(&self, bits: u64) {
        self.word.store(self.word() | bits, Relaxed);
    }

    pub fn unset(&self, bits: u64) {
        self.word.store(self.word() & !bits, Relaxed);
    }

    #[inline]
    pub fn has(&self, bits: u64) -> bool {
        self.word() & bits != 0
    }

    /// Whether it was met, so that it stays.
    #[inline]
    pub fn is_kept(&self) -> bool {
        self.has(COUNT)
    }

    pub fn kind(&self) -> u32 {
        (self.word() >> KIND) as u32 & 0xffff
    }
}

pub struct Owner {
    pub cell: u32,
    pub id: u32,
}

/// The regions of a thread: where each begins in the list of what the thread allocated since the outermost began.
#[derive(Default)]
struct Regions {
    begins: Vec<usize>,
    cells: Vec<u32>,
}

pub struct Heap {
    limits: Limits,
    pub headers: Vec<Header>,
    /// The id of each cell, 0 where it is empty.
    pub ids: Vec<u32>,
    pub slots: Slots,
    cells: Ids,
    first_free: u32,
    greatest: u32,
    live: u32,
    all_slots: u32,
    /// How many objects have had a weak slot.
    weak: u32,
    pub roots: Roots,
    pub kinds: Kinds,
    /// Whether some live object is asserted dead or unshared.
    pub has_asserted: bool,
    /// The types that have a limit, and the limit of each type, by its number.
    pub limited: Vec<u32>,
    pub instance_limits: Vec<Option<u32>>,
    /// The owner of each ownee, by the ownee's cell.
    pub owners: FxHashMap<u32, Owner>,
    regions: Box<[Regions]>,
    open_regions: u32,
}

impl Heap {
    pub fn new(limits: Limits) -> Heap {
        Heap {
            limits,
            headers: Vec::new(),
            ids: Vec::new(),
            slots: Slots::new(),
            cells: Ids::new(),
            first_free: NO_CELL,
            greatest: 0,
            live: 0,
            all_slots: 0,
            weak: 0,
            roots: Roots::default(),
            kinds: Kinds::default(),
            has_asserted: false,
            limited: Vec::new(),
            instance_limits: Vec::new(),
            owners: FxHashMap::default(),
            regions: (0..MOST_THREADS).map(|_| Regions::default()).collect(),
            open_regions: 0,
        }
    }

    pub fn live(&self) -> u32 {
        self.live
    }

    pub fn id(&self, cell: u32) -> u32 {
        self.ids[cell as usize]
    }

    #[inline]
    pub fn header(&self, cell: u32) -> &Header {
        &self.headers[cell as usize]
    }

    /// The name of an object's type.
    pub fn name(&self, cell: u32) -> &str {
        self.kinds.name(self.header(cell).kind())
    }

    #[inline]
    pub fn words(&self, cell: u32) -> &[u32] {
        let header = self.header(cell);
        &self.slots.words[header.begin as usize..][..header.length as usize]
    }

    /// The slots that are edges, with the cells that they lead to.
    #[inline]
    pub fn edges(&self, cell: u32) -> impl Iterator<Item = (u32, u32)> + '_ {
        (0..).zip(self.words(cell)).filter_map(|(slot, word)| Some((slot, edge(*word)?)))
    }

    /// Whether an owner is still live: its cell may have another object.
    pub fn is_live(&self, owner: &Owner) -> bool {
        self.ids.get(owner.cell as usize) == Some(&owner.id)
    }

    /// Puts cells in the order of their ids.
    pub fn sort(&self, cells: &mut Vec<u32>) {
        // (where no cell was used twice they are in order)
        if !cells.windows(2).all(|pair| self.id(pair[0]) < self.id(pair[1])) {
            let mut keyed: Vec<u64> = cells.iter().map(|cell| u64::from(self.id(*cell)) << 32 | u64::from(*cell)).collect();
            keyed.sort_unstable();
            cells.clear();
            cells.extend(keyed.into_iter().map(|key| key as u32));
        }
    }

    #[inline]
    fn cell(&self, id: u32) -> Result<u32, Refusal> {
        self.cells.get(id).ok_or(Refusal::NotLive(id))
    }

    fn kind_of(&mut self, name: &str) -> Result<u32, Refusal> {
        self.kinds.number(name).ok_or(Refusal::TooManyTypes)
    }

    #[inline]
    fn alloc(&mut self, id: u32, kind: &str, slots: u32, thread: u32) -> Result<(), Refusal> {
        if id <= self.greatest {
            return Err(Refusal::IdNotRising(id));
        }
        if self.live == self.limits.objects {
            return Err(Refusal::TooManyObjects);
        }
        if slots > self.limits.slots - self.all_slots {
            return Err(Refusal::TooManySlots);
        }
        let kind = self.kind_of(kind)?;
        let word = AtomicU64::new(IS_LIVE | u64::from(kind) << KIND);
        let header = Header { word, begin: self.slots.take(slots), length: slots };
        let cell = self.first_free;
        let cell = if cell == NO_CELL {
            self.headers.push(header);
            self.ids.push(id);
            self.ids.len() as u32 - 1
        } else {
            self.first_free = std::mem::replace(&mut self.headers[cell as usize], header).begin;
            self.ids[cell as usize] = id;
            cell
        };
        self.greatest = id;
        self.live += 1;
        self.all_slots += slots;
        self.cells.insert(id, cell);
        if self.open_regions > 0 {
            let regions = &mut self.regions[thread as usize];
            if !regions.begins.is_empty() {
                regions.cells.push(cell);
            }
        }
        Ok(())
    }

    #[inline]
    fn slot(&mut self, at: u32, slot: u32) -> Result<(u32, usize), Refusal> {
        let cell = self.cell(at)?;
        let header = self.header(cell);
        if slot >= header.length {
            return Err(Refusal::BadSlot(slot));
        }
        Ok((cell, header.begin as usize + slot as usize))
    }

    #[inline]
    fn store(&mut self, at: u32, slot: u32, to: Option<u32>) -> Result<(), Refusal> {
        let (_, place) = self.slot(at, slot)?;
        let held = match to {
            Some(id) => self.cell(id)? + 1,
            None => 0,
        };
        let word = &mut self.slots.words[place];
        *word = (*word & WEAK) | held;
        Ok(())
    }

    fn set_weak(&mut self, at: u32, slot: u32, weak: bool) -> Result<(), Refusal> {
        let (cell, place) = self.slot(at, slot)?;
        let word = &mut self.slots.words[place];
        *word = if weak { *word | WEAK } else { *word & !WEAK };
        let header = self.header(cell);
        if weak && !header.has(HAS_WEAK) {
            header.set(HAS_WEAK);
            self.weak += 1;
        }
        Ok(())
    }

    fn root(&mut self, name: &str, to: Option<u32>) -> Result<(), Refusal> {
        let Some(id) = to else {
            self.roots.remove(name);
            return Ok(());
        };
        let cell = self.cell(id)?;
        if !self.roots.set(name, cell) {
            if self.roots.len() == self.limits.roots {
                return Err(Refusal::TooManyRoots);
            }
            self.roots.add(name, cell);
        }
        Ok(())
    }

    fn assert(&mut self, id: u32, bits: u64) -> Result<(), Refusal> {
        self.header(self.cell(id)?).set(bits);
        self.has_asserted = true;
        Ok(())
    }

    fn limit(&mut self, kind: &str, limit: u32) -> Result<(), Refusal> {
        let kind = self.kind_of(kind)?;
        if self.instance_limits.len() < self.kinds.len() {
            self.instance_limits.resize(self.kinds.len(), None);
        }
        if self.instance_limits[kind as usize].replace(limit).is_none() {
            self.limited.push(kind);
        }
        Ok(())
    }

    fn own(&mut self, owner: u32, ownee: u32) -> Result<(), Refusal> {
        let cell = self.cell(owner)?;
        let ownee_cell = self.cell(ownee)?;
        if owner == ownee {
            return Err(Refusal::SelfOwned(owner));
        }
        self.header(ownee_cell).set(IS_OWNEE);
        self.owners.insert(ownee_cell, Owner { cell, id: owner });
        Ok(())
    }

    fn start_region(&mut self, thread: u32) -> Result<(), Refusal> {
        let regions = &mut self.regions[thread as usize];
        if regions.begins.len() >= MOST_REGIONS {
            return Err(Refusal::TooDeep(thread));
        }
        regions.begins.push(regions.cells.len());
        self.open_regions += 1;
        Ok(())
    }

    fn end_region(&mut self, thread: u32) -> Result<(), Refusal> {
        let regions = &mut self.regions[thread as usize];
        let begin = regions.begins.pop().ok_or(Refusal::NoRegion(thread))?;
        // What is asserted dead stays so: the regions around this one need not assert it again.
        for cell in regions.cells.drain(begin..) {
            self.headers[cell as usize].set(IS_DEAD);
            self.has_asserted = true;
        }
        if regions.begins.is_empty() {
            regions.cells = Vec::new();
        }
        self.open_regions -= 1;
        Ok(())
    }

    /// Applies an operation that is no collection.
    #[inline]
    pub fn step(&mut self, operation: &Operation) -> Result<(), Refusal> {
        match operation {
            Operation::Alloc { id, kind, slots, thread } => self.alloc(*id, kind, *slots, *thread),
            Operation::Store { at, slot, to } => self.store(*at, *slot, *to),
            Operation::SetWeak { at, slot, weak } => self.set_weak(*at, *slot, *weak),
            Operation::Root { name, to } => self.root(name, *to),
            Operation::AssertDead { id } => self.assert(*id, IS_DEAD),
            Operation::AssertUnshared { id } => self.assert(*id, IS_UNSHARED),
            Operation::AssertInstances { kind, limit } => self.limit(kind, *limit),
            Operation::AssertOwnedBy { owner, ownee } => self.own(*owner, *ownee),
            Operation::StartRegion { thread } => self.start_region(*thread),
            Operation::AssertAllDead { thread } => self.end_region(*thread),
            Operation::Collect => Ok(()),
        }
    }

    /// Frees each object that was not met, and takes the marks off the others. Empty cells behind the last object go.
    pub fn sweep(&mut self) {
        self.forget_freed();
        self.first_free = NO_CELL;
        self.has_asserted = false;
        let mut used = None;
        // From the last cell to the first, so that the first empty one is used again first.
        for cell in (0..self.headers.len()).rev() {
            let header = &mut self.headers[cell];
            let word = *header.word.get_mut();
            if word & COUNT != 0 {
                used.get_or_insert(cell + 1);
                *header.word.get_mut() = word & STAYS;
                self.has_asserted |= word & (IS_DEAD | IS_UNSHARED) != 0;
                continue;
            }
            if word & IS_LIVE != 0 {
                self.live -= 1;
                self.all_slots -= header.length;
                self.weak -= u32::from(word & HAS_WEAK != 0);
                self.slots.give(header.begin, header.length);
                self.cells.remove(std::mem::take(&mut self.ids[cell]));
            }
            if used.is_some() {
                *header = Header { word: AtomicU64::new(0), begin: self.first_free, length: 0 };
                self.first_free = cell as u32;
            }
        }
        self.headers.truncate(used.unwrap_or(0));
        self.ids.truncate(used.unwrap_or(0));
        if self.slots.are_sparse() {
            self.slots.compact(self.headers.iter_mut().filter(|header| header.length > 0).map(|header| (&mut header.begin, header.length)));
        }
    }

    /// Takes what is about to be freed out of weak slots, ownerships and regions.
    fn forget_freed(&mut self) {
        if self.weak > 0 {
            for header in self.headers.iter().filter(|header| header.is_kept() && header.has(HAS_WEAK)) {
                for word in &mut self.slots.words[header.begin as usize..][..header.length as usize] {
                    if *word > WEAK && !self.headers[(*word & !WEAK) as usize - 1].is_kept() {
                        *word = WEAK;
                    }
                }
            }
        }
        let headers = &self.headers;
        self.owners.retain(|ownee, _| headers[*ownee as usize].is_kept());
        if self.open_regions > 0 {
            for regions in self.regions.iter_mut().filter(|regions| !regions.cells.is_empty()) {
                regions.retain(|cell| headers[cell as usize].is_kept());
            }
        }
    }
}

impl Regions {
    fn retain(&mut self, is_kept: impl Fn(u32) -> bool) {
        let (mut kept, mut region) = (0, 0);
        for place in 0..self.cells.len() {
            while region < self.begins.len() && self.begins[region] <= place {
                self.begins[region] = kept;
                region += 1;
            }
            let cell = self.cells[place];
            if is_kept(cell) {
                self.cells[kept] = cell;
                kept += 1;
            }
        }
        self.begins[region..].fill(kept);
        self.cells.truncate(kept);
    }
}
