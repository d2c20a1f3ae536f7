//! The slots of all objects in one vector, four bytes each.
use rustc_hash::FxHashMap;

/// A slot has one more than the cell that it holds, or 0, and this bit where it is weak.
pub const WEAK: u32 = 1 << 31;
const NONE: u32 = u32::MAX;
/// Blocks up to this length have a list of free ones each.
const SMALL: usize = 64;
/// Less is never worth moving all slots for.
const FEW: u64 = 1 << 16;

/// The cell of an edge: of a slot that holds something and isn't weak.
#[inline]
pub fn edge(word: u32) -> Option<u32> {
    let cell = word.wrapping_sub(1);
    (cell < WEAK - 1).then_some(cell)
}

pub struct Slots {
    pub words: Vec<u32>,
    /// The first free block of each length. The first word of a free block says where the next one is.
    small: [u32; SMALL + 1],
    large: FxHashMap<u32, u32>,
    /// How many words are in free blocks.
    free: u64,
}

impl Slots {
    pub fn new() -> Slots {
        Slots { words: Vec::new(), small: [NONE; SMALL + 1], large: FxHashMap::default(), free: 0 }
    }

    #[inline]
    fn first_free(&mut self, length: u32) -> &mut u32 {
        match self.small.get_mut(length as usize) {
            Some(first) => first,
            None => self.large.entry(length).or_insert(NONE),
        }
    }

    /// Where a block of so many empty slots begins.
    #[inline]
    pub fn take(&mut self, length: u32) -> u32 {
        if length == 0 {
            return 0;
        }
        let first = self.first_free(length);
        let begin = *first;
        if begin == NONE {
            let begin = self.words.len();
            self.words.resize(begin + length as usize, 0);
            return begin as u32;
        }
        let next = self.words[begin as usize];
        *self.first_free(length) = next;
        self.words[begin as usize..][..length as usize].fill(0);
        self.free -= u64::from(length);
        begin
    }

    #[inline]
    pub fn give(&mut self, begin: u32, length: u32) {
        if length > 0 {
            let next = std::mem::replace(self.first_free(length), begin);
            self.words[begin as usize] = next;
            self.free += u64::from(length);
        }
    }

    /// Whether more slots are free than not, and many.
    pub fn are_sparse(&self) -> bool {
        self.free > FEW.max(self.words.len() as u64 / 2)
    }

    /// Copies the blocks of all objects, each a begin and a length, into a new vector.
    pub fn compact<'a>(&mut self, blocks: impl Iterator<Item = (&'a mut u32, u32)>) {
        let mut words = Vec::with_capacity(self.words.len() - self.free as usize);
        for (begin, length) in blocks {
            let old = std::mem::replace(begin, words.len() as u32) as usize;
            words.extend_from_slice(&self.words[old..old + length as usize]);
        }
        *self = Slots { words, ..Slots::new() };
    }
}
