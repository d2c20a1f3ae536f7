//! Writes the trace of a heap that is like a JVM's.
//!
//! Usage: jvm_like [--objects N] [--classes N] [--seed N] > TRACE     (1,000,000 objects of 2,000 classes, from seed 1)
//!
//! - An object has 1.7 slots on average. One in a hundred is an array of 16 to 64 slots; all others of a class have as many slots, 3 at most.
//! - Some classes have far more objects than others.
//! - Three quarters of the references are near: of one object and another that was allocated shortly before or after. The others lead from
//!   an object to any that was allocated before it.
//! - A slot of an object allocated shortly before holds each object, but for one in 50, which is garbage if no other slot happens to hold it.
//! - A root names one object in 2,000, and there are 50,000 roots at most.
//! - Some 50 objects each are asserted dead, of which about half are garbage, and unshared; one class is limited, and one object owns another.
//! - One collection ends the trace.
use std::io::{self, Write};

const ARRAYS: u64 = 100;
const UNHELD: u64 = 50;
const OBJECTS_OF_A_ROOT: u64 = 2_000;
const MOST_ROOTS: u64 = 50_000;
const MOST_ASSERTIONS: u64 = 50;
/// How many slots wait to hold the next objects, and how far back a near reference leads otherwise.
const WAITING: usize = 64;
const NEAR: u64 = 64;
/// Of a thousand references that hold no new object so many are near. Together with those that do, three quarters of all are.
const NEAR_OTHERS: u64 = 450;
/// The slots of an object that is no array, by the last digit of its class: 1.3 on average.
const SLOTS: [u32; 10] = [0, 0, 1, 1, 1, 1, 2, 2, 2, 3];
const LONGEST: usize = 1 << 18;

/// SplitMix64.
struct Random(u64);

impl Random {
    fn next(&mut self) -> u64 {
        self.0 = self.0.wrapping_add(0x9e37_79b9_7f4a_7c15);
        let mut mixed = self.0;
        mixed = (mixed ^ (mixed >> 30)).wrapping_mul(0xbf58_476d_1ce4_e5b9);
        mixed = (mixed ^ (mixed >> 27)).wrapping_mul(0x94d0_49bb_1331_11eb);
        mixed ^ (mixed >> 31)
    }

    /// A number below this one, which has 32 bits at most.
    fn below(&mut self, most: u64) -> u64 {
        ((self.next() >> 32) * most) >> 32
    }

    /// The same, and small ones far more often.
    fn mostly_small(&mut self, most: u64) -> u64 {
        let part = self.next() >> 32;
        ((((part * part) >> 32) * part >> 32) * most) >> 32
    }
}

struct Lines<W: Write> {
    out: W,
    text: Vec<u8>,
    numbers: itoa::Buffer,
}

impl<W: Write> Lines<W> {
    fn text(&mut self, text: &[u8]) -> &mut Self {
        self.text.extend_from_slice(text);
        self
    }

    fn number(&mut self, number: u64) -> &mut Self {
        self.text.extend_from_slice(self.numbers.format(number).as_bytes());
        self
    }

    fn end(&mut self) -> io::Result<()> {
        self.text.extend_from_slice(b"}\n");
        if self.text.len() >= LONGEST {
            self.flush()?;
        }
        Ok(())
    }

    fn flush(&mut self) -> io::Result<()> {
        self.out.write_all(&self.text)?;
        self.text.clear();
        self.out.flush()
    }

    fn alloc(&mut self, id: u64, class: u64, slots: u32) -> io::Result<()> {
        self.text(b"{\"op\":\"alloc\",\"id\":").number(id).text(b",\"type\":\"Class").number(class);
        self.text(b"\",\"slots\":").number(u64::from(slots)).end()
    }

    fn store(&mut self, at: u64, slot: u32, to: u64) -> io::Result<()> {
        self.text(b"{\"op\":\"store\",\"at\":").number(at).text(b",\"slot\":").number(u64::from(slot)).text(b",\"to\":").number(to).end()
    }

    fn root(&mut self, to: u64) -> io::Result<()> {
        self.text(b"{\"op\":\"root\",\"name\":\"root").number(to).text(b"\",\"to\":").number(to).end()
    }

    fn assert(&mut self, op: &[u8], id: u64) -> io::Result<()> {
        self.text(b"{\"op\":\"").text(op).text(b"\",\"id\":").number(id).end()
    }
}

struct Words {
    objects: u64,
    classes: u64,
    seed: u64,
}

fn words() -> Words {
    let mut found = Words { objects: 1_000_000, classes: 2_000, seed: 1 };
    let mut given = std::env::args().skip(1);
    while let Some(word) = given.next() {
        let number = given.next().and_then(|text| text.parse().ok()).expect("a number");
        match word.as_str() {
            "--objects" => found.objects = number,
            "--classes" => found.classes = number,
            "--seed" => found.seed = number,
            other => panic!("unknown word {other}"),
        }
    }
    assert!(found.classes >= 20, "20 classes or more");
    found
}

fn write_trace(words: &Words, out: impl Write) -> io::Result<()> {
    let mut lines = Lines { out, text: Vec::with_capacity(2 * LONGEST), numbers: itoa::Buffer::new() };
    let mut random = Random(words.seed);
    // One class in a hundred is of arrays, and so are those that are left over of tens of classes.
    let tens = (words.classes - words.classes / 100).max(20) / 10 - 1;
    let of_arrays = words.classes - 10 * tens;
    let every = words.objects / MOST_ASSERTIONS + 1;
    let root_every = OBJECTS_OF_A_ROOT.max(words.objects / MOST_ROOTS + 1);
    // Slots that are still empty, of the objects that were allocated last.
    let mut waiting: Vec<(u64, u32)> = Vec::with_capacity(2 * WAITING);
    for id in 1..=words.objects {
        let (class, slots) = if random.below(ARRAYS) == 0 {
            (10 * tens + random.below(of_arrays), 16 + random.below(49) as u32)
        } else {
            let digit = random.below(10);
            (10 * random.mostly_small(tens) + digit, SLOTS[digit as usize])
        };
        lines.alloc(id, class, slots)?;
        let is_held = random.below(UNHELD) > 0;
        match waiting.len() as u64 {
            0 => lines.root(id)?,
            _ if !is_held => {}
            many => {
                let (at, slot) = waiting.swap_remove(random.below(many) as usize);
                lines.store(at, slot, id)?;
            }
        }
        if id % root_every == 0 {
            lines.root(id)?;
        }
        waiting.extend((0..slots).map(|slot| (id, slot)));
        while waiting.len() > WAITING {
            let place = random.below(waiting.len() as u64) as usize;
            let (at, slot) = waiting.swap_remove(place);
            let back = if random.below(1_000) < NEAR_OTHERS { random.below(NEAR.min(id)) } else { random.below(id) };
            lines.store(at, slot, id - back)?;
        }
        if !is_held && id / UNHELD % (every / UNHELD + 1) == 0 {
            lines.assert(b"assert-dead", id)?;
        }
        if id % every == 0 {
            lines.assert(b"assert-unshared", id)?;
        }
    }
    lines.text(b"{\"op\":\"assert-instances\",\"type\":\"Class0\",\"limit\":").number(words.objects / 10).end()?;
    if words.objects > 1 {
        lines.text(b"{\"op\":\"assert-ownedby\",\"owner\":1,\"ownee\":").number(words.objects).end()?;
    }
    lines.text(b"{\"op\":\"collect\"").end()?;
    lines.flush()
}

fn main() -> io::Result<()> {
    write_trace(&words(), io::stdout().lock())
}
