//! What `bench/snapshots.py` measures `gcsnap to-trace` against: reads a snapshot on standard input and writes the trace
//! that makes its heap, or the line of the refusal, with nothing proved.
use std::collections::HashSet;
use std::io::{self, BufWriter, Read, Write};

const MOST_OBJECTS: usize = 1_048_576;
const MOST_SLOTS: usize = 16_777_216;
const MOST_ROOTS: usize = 65_536;
const MOST_TYPES: usize = 65_536;
const LONGEST: usize = 268_435_456;

struct Object<'a> {
    id: u32,
    kind: &'a str,
    slots: Vec<Option<u32>>,
}

#[derive(Default, PartialEq)]
enum Stage {
    #[default]
    Empty,
    Objects,
    Roots,
    Ended,
}

#[derive(Default)]
struct Reading<'a> {
    stage: Stage,
    objects: Vec<Object<'a>>,
    roots: Vec<(&'a str, u32)>,
    types: HashSet<&'a str>,
    slots: usize,
    // One past the last slot that was named of the last object.
    filled: u32,
    // Each reference with its line.
    references: Vec<(usize, u32)>,
}

fn number(text: &str) -> Option<u32> {
    let is_plain = text.bytes().all(|b| b.is_ascii_digit()) && (text.len() == 1 || !text.starts_with('0'));
    if is_plain { text.parse().ok() } else { None }
}

fn id(text: &str) -> Option<u32> {
    number(text).filter(|id| *id > 0)
}

fn name(text: &str) -> Option<&str> {
    let is_name = (1..=256).contains(&text.len()) && text.bytes().all(|b| b >= 32 && b != 127);
    is_name.then_some(text)
}

impl<'a> Reading<'a> {
    fn take(&mut self, at: usize, line: &'a [u8]) -> Option<()> {
        let text = std::str::from_utf8(line).ok()?;
        if text == "heapsnap 1" {
            if self.stage != Stage::Empty {
                return None;
            }
            self.stage = Stage::Objects;
            return Some(());
        }
        if self.stage == Stage::Empty || self.stage == Stage::Ended {
            return None;
        }
        if text == "end" {
            self.stage = Stage::Ended;
            return Some(());
        }
        let (word, rest) = text.split_once(' ')?;
        match word {
            "object" if self.stage == Stage::Objects => self.object(rest),
            "slot" if self.stage == Stage::Objects => self.slot(at, rest),
            "root" => self.root(at, rest),
            _ => None,
        }
    }

    fn object(&mut self, text: &'a str) -> Option<()> {
        let mut words = text.splitn(3, ' ');
        let (id, slots, kind) = (id(words.next()?)?, number(words.next()?)? as usize, name(words.next()?)?);
        if self.objects.last().is_some_and(|last| last.id >= id) || self.objects.len() == MOST_OBJECTS || self.slots + slots > MOST_SLOTS {
            return None;
        }
        if !self.types.contains(kind) {
            if self.types.len() == MOST_TYPES {
                return None;
            }
            self.types.insert(kind);
        }
        self.slots += slots;
        self.filled = 0;
        self.objects.push(Object { id, kind, slots: vec![None; slots] });
        Some(())
    }

    fn slot(&mut self, at: usize, text: &str) -> Option<()> {
        let (slot, to) = text.split_once(' ')?;
        let (slot, to) = (number(slot)?, id(to)?);
        if slot < self.filled {
            return None;
        }
        *self.objects.last_mut()?.slots.get_mut(slot as usize)? = Some(to);
        self.filled = slot + 1;
        self.references.push((at, to));
        Some(())
    }

    fn root(&mut self, at: usize, text: &'a str) -> Option<()> {
        let (to, text) = text.split_once(' ')?;
        let (to, text) = (id(to)?, name(text)?);
        if self.roots.last().is_some_and(|last| last.0 >= text) || self.roots.len() == MOST_ROOTS {
            return None;
        }
        self.stage = Stage::Roots;
        self.roots.push((text, to));
        self.references.push((at, to));
        Some(())
    }
}

fn read(bytes: &[u8]) -> Result<Reading<'_>, String> {
    if bytes.len() > LONGEST {
        let lines = bytes[..LONGEST].iter().filter(|b| **b == b'\n').count();
        return Err(format!("{}: TooLong", lines + 1));
    }
    let mut reading = Reading::default();
    let (mut rest, mut lines) = (bytes, 0);
    while let Some(end) = rest.iter().position(|b| *b == b'\n') {
        lines += 1;
        reading.take(lines, &rest[..end]).ok_or_else(|| format!("{lines}: BadLine"))?;
        rest = &rest[end + 1..];
    }
    if !rest.is_empty() || reading.stage != Stage::Ended {
        return Err(format!("{}: Unended", lines + 1));
    }
    let is_there = |id: u32| reading.objects.binary_search_by_key(&id, |object| object.id).is_ok();
    match reading.references.iter().find(|reference| !is_there(reference.1)) {
        Some((line, to)) => Err(format!("{line}: Dangling {to}")),
        None => Ok(reading),
    }
}

fn main() -> io::Result<()> {
    let mut bytes = Vec::new();
    io::stdin().read_to_end(&mut bytes)?;
    let mut out = BufWriter::with_capacity(1 << 16, io::stdout().lock());
    let reading = match read(&bytes) {
        Ok(reading) => reading,
        Err(why) => {
            writeln!(out, "fault line {why}")?;
            out.flush()?;
            std::process::exit(2);
        }
    };
    for object in &reading.objects {
        let kind = serde_json::to_string(object.kind)?;
        writeln!(out, "{{\"id\":{},\"op\":\"alloc\",\"slots\":{},\"type\":{kind}}}", object.id, object.slots.len())?;
    }
    for object in &reading.objects {
        for (slot, to) in object.slots.iter().enumerate() {
            if let Some(to) = to {
                writeln!(out, "{{\"at\":{},\"op\":\"store\",\"slot\":{slot},\"to\":{to}}}", object.id)?;
            }
        }
    }
    for (name, to) in &reading.roots {
        writeln!(out, "{{\"name\":{},\"op\":\"root\",\"to\":{to}}}", serde_json::to_string(name)?)?;
    }
    out.flush()
}
