//! The cell of each live id.
//!
//! Ids rise, and most are near one another. So they are looked up in pages of 4,096, which are arrays. A page with few live ids is none: its
//! ids stand in a map, but for the page of the greatest id, which is always an array.
use rustc_hash::FxHashMap;

const BITS: u32 = 12;
const PAGE: usize = 1 << BITS;
/// A page that is left with fewer ids becomes none, and so does one that loses its ids until it has fewer than half of these.
const DENSE: u16 = 256;

pub struct Ids {
    /// For each page one more than its number in `words`, or 0 if it is none.
    pages: Vec<u32>,
    /// How many live ids each page has.
    counts: Vec<u16>,
    /// The words of the pages: one more than the cell of an id, or 0 if it isn't live.
    words: Vec<u32>,
    free: Vec<u32>,
    sparse: FxHashMap<u32, u32>,
    /// The page of the greatest id, and the first of its ids.
    current: usize,
    recent: Vec<u32>,
}

fn page_of(id: u32) -> usize {
    (id >> BITS) as usize
}

fn place(page: u32, id: u32) -> usize {
    ((page as usize - 1) << BITS) | (id as usize & (PAGE - 1))
}

impl Ids {
    pub fn new() -> Ids {
        let (pages, counts, words) = (vec![1], vec![0], vec![0; PAGE]);
        Ids { pages, counts, words, free: Vec::new(), sparse: FxHashMap::default(), current: 0, recent: Vec::new() }
    }

    #[inline]
    pub fn get(&self, id: u32) -> Option<u32> {
        match self.pages.get(page_of(id)) {
            None => None,
            Some(0) => self.sparse.get(&id).copied(),
            Some(page) => self.words[place(*page, id)].checked_sub(1),
        }
    }

    /// Puts an id that is greater than all before.
    #[inline]
    pub fn insert(&mut self, id: u32, cell: u32) {
        if page_of(id) != self.current {
            self.turn_to(page_of(id));
        }
        if self.recent.len() < usize::from(DENSE) {
            self.recent.push(id);
        }
        self.counts[self.current] += 1;
        let page = self.pages[self.current];
        self.words[place(page, id)] = cell + 1;
    }

    pub fn remove(&mut self, id: u32) {
        let number = page_of(id);
        self.counts[number] -= 1;
        match self.pages[number] {
            0 => {
                self.sparse.remove(&id);
            }
            page => {
                self.words[place(page, id)] = 0;
                if self.counts[number] < DENSE / 2 && number != self.current {
                    self.move_out(number);
                }
            }
        }
    }

    fn turn_to(&mut self, number: usize) {
        let (left, page) = (self.current, self.pages[self.current]);
        if self.recent.len() < usize::from(DENSE) {
            for id in std::mem::take(&mut self.recent) {
                if let Some(cell) = std::mem::take(&mut self.words[place(page, id)]).checked_sub(1) {
                    self.sparse.insert(id, cell);
                }
            }
            self.give_back(left);
        } else if self.counts[left] < DENSE / 2 {
            self.move_out(left);
        }
        self.recent.clear();
        self.pages.resize(number + 1, 0);
        self.counts.resize(number + 1, 0);
        self.pages[number] = self.take_page();
        self.current = number;
    }

    fn move_out(&mut self, number: usize) {
        let first = place(self.pages[number], 0);
        for offset in 0..PAGE {
            if let Some(cell) = std::mem::take(&mut self.words[first + offset]).checked_sub(1) {
                self.sparse.insert(((number << BITS) | offset) as u32, cell);
            }
        }
        self.give_back(number);
    }

    fn give_back(&mut self, number: usize) {
        self.free.push(std::mem::take(&mut self.pages[number]));
    }

    /// The number of a page without ids.
    fn take_page(&mut self) -> u32 {
        self.free.pop().unwrap_or_else(|| {
            self.words.resize(self.words.len() + PAGE, 0);
            (self.words.len() >> BITS) as u32
        })
    }
}
