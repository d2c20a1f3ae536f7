//! A line as an operation.
//!
//! `read_borrowed` reads a line with serde in one pass, and copies nothing where names have no escapes. It gives up on whatever is unusual.
//! `read_value` then reads the line again as serde_json's `Value`, and says why it is refused if it is.
use crate::limits::{LONGEST_NAME, MOST_THREADS};
use serde::de::{Deserialize, Deserializer, Error, MapAccess, SeqAccess, Visitor};
use serde_json::{Map, Value};
use std::borrow::Cow;
use std::fmt;

pub enum Operation<'a> {
    Alloc { id: u32, kind: Cow<'a, str>, slots: u32, thread: u32 },
    Store { at: u32, slot: u32, to: Option<u32> },
    SetWeak { at: u32, slot: u32, weak: bool },
    Root { name: Cow<'a, str>, to: Option<u32> },
    AssertDead { id: u32 },
    AssertUnshared { id: u32 },
    AssertInstances { kind: Cow<'a, str>, limit: u32 },
    AssertOwnedBy { owner: u32, ownee: u32 },
    StartRegion { thread: u32 },
    AssertAllDead { thread: u32 },
    Collect,
}

#[derive(Debug)]
pub enum Refusal {
    LineTooLong,
    TraceTooLong,
    NotJson,
    NotObject,
    UnknownOp,
    MissingField(&'static str),
    BadField(&'static str),
    IdNotRising(u32),
    TooManyObjects,
    TooManySlots,
    NotLive(u32),
    BadSlot(u32),
    TooManyRoots,
    TooManyTypes,
    TooDeep(u32),
    NoRegion(u32),
    SelfOwned(u32),
}

impl fmt::Display for Refusal {
    fn fmt(&self, f: &mut fmt::Formatter) -> fmt::Result {
        match self {
            Refusal::MissingField(field) => write!(f, "MissingField {field}"),
            Refusal::BadField(field) => write!(f, "BadField {field}"),
            Refusal::IdNotRising(id) => write!(f, "IdNotRising {id}"),
            Refusal::NotLive(id) => write!(f, "NotLive {id}"),
            Refusal::BadSlot(slot) => write!(f, "BadSlot {slot}"),
            Refusal::TooDeep(thread) => write!(f, "TooDeep {thread}"),
            Refusal::NoRegion(thread) => write!(f, "NoRegion {thread}"),
            Refusal::SelfOwned(id) => write!(f, "SelfOwned {id}"),
            plain => write!(f, "{plain:?}"),
        }
    }
}

fn is_name(text: &str) -> bool {
    (1..=LONGEST_NAME).contains(&text.len()) && !text.bytes().any(|byte| byte.is_ascii_control())
}

// ---- in one pass

#[derive(Clone, Copy)]
enum Op {
    Alloc,
    Store,
    SetWeak,
    Root,
    AssertDead,
    AssertUnshared,
    AssertInstances,
    AssertOwnedBy,
    StartRegion,
    AssertAllDead,
    Collect,
}

struct OpVisitor;

impl<'de> Visitor<'de> for OpVisitor {
    type Value = Op;

    fn expecting(&self, f: &mut fmt::Formatter) -> fmt::Result {
        f.write_str("an operation")
    }

    #[inline]
    fn visit_bytes<E: Error>(self, op: &[u8]) -> Result<Op, E> {
        Ok(match op {
            b"alloc" => Op::Alloc,
            b"store" => Op::Store,
            b"set-weak" => Op::SetWeak,
            b"root" => Op::Root,
            b"assert-dead" => Op::AssertDead,
            b"assert-unshared" => Op::AssertUnshared,
            b"assert-instances" => Op::AssertInstances,
            b"assert-ownedby" => Op::AssertOwnedBy,
            b"start-region" => Op::StartRegion,
            b"assert-alldead" => Op::AssertAllDead,
            b"collect" => Op::Collect,
            _ => return Err(E::custom("unknown")),
        })
    }
}

impl<'de> Deserialize<'de> for Op {
    #[inline]
    fn deserialize<D: Deserializer<'de>>(deserializer: D) -> Result<Op, D::Error> {
        deserializer.deserialize_bytes(OpVisitor)
    }
}

#[derive(Clone, Copy)]
enum Key {
    Op,
    Id,
    Type,
    Slots,
    Thread,
    At,
    Slot,
    To,
    Name,
    Weak,
    Owner,
    Ownee,
    Limit,
    Other,
}

struct KeyVisitor;

impl<'de> Visitor<'de> for KeyVisitor {
    type Value = Key;

    fn expecting(&self, f: &mut fmt::Formatter) -> fmt::Result {
        f.write_str("a key")
    }

    #[inline]
    fn visit_bytes<E: Error>(self, key: &[u8]) -> Result<Key, E> {
        Ok(match key {
            b"op" => Key::Op,
            b"id" => Key::Id,
            b"at" => Key::At,
            b"to" => Key::To,
            b"slot" => Key::Slot,
            b"type" => Key::Type,
            b"name" => Key::Name,
            b"weak" => Key::Weak,
            b"slots" => Key::Slots,
            b"owner" => Key::Owner,
            b"ownee" => Key::Ownee,
            b"limit" => Key::Limit,
            b"thread" => Key::Thread,
            // serde_json checks the bytes of texts only
            other if other.iter().all(|byte| *byte >= b' ') && std::str::from_utf8(other).is_ok() => Key::Other,
            _ => return Err(E::custom("unusual")),
        })
    }
}

impl<'de> Deserialize<'de> for Key {
    #[inline]
    fn deserialize<D: Deserializer<'de>>(deserializer: D) -> Result<Key, D::Error> {
        deserializer.deserialize_bytes(KeyVisitor)
    }
}

/// A text that borrows from the line where it has no escape.
struct Text<'a>(Cow<'a, str>);

struct TextVisitor;

impl<'de> Visitor<'de> for TextVisitor {
    type Value = Text<'de>;

    fn expecting(&self, f: &mut fmt::Formatter) -> fmt::Result {
        f.write_str("a text")
    }

    #[inline]
    fn visit_borrowed_str<E: Error>(self, text: &'de str) -> Result<Text<'de>, E> {
        Ok(Text(Cow::Borrowed(text)))
    }

    fn visit_str<E: Error>(self, text: &str) -> Result<Text<'de>, E> {
        Ok(Text(Cow::Owned(text.to_owned())))
    }
}

impl<'de> Deserialize<'de> for Text<'de> {
    #[inline]
    fn deserialize<D: Deserializer<'de>>(deserializer: D) -> Result<Text<'de>, D::Error> {
        deserializer.deserialize_str(TextVisitor)
    }
}

impl<'a> Text<'a> {
    #[inline]
    fn name(self) -> Option<Cow<'a, str>> {
        is_name(&self.0).then_some(self.0)
    }
}

/// Any value. serde's `IgnoredAny` lets pass what is no JSON: wrong escapes and bytes, numbers that are too large, and values nested too deep.
struct Checked;

struct CheckedVisitor;

impl<'de> Visitor<'de> for CheckedVisitor {
    type Value = Checked;

    fn expecting(&self, f: &mut fmt::Formatter) -> fmt::Result {
        f.write_str("a value")
    }

    fn visit_bool<E>(self, _: bool) -> Result<Checked, E> {
        Ok(Checked)
    }

    fn visit_i64<E>(self, _: i64) -> Result<Checked, E> {
        Ok(Checked)
    }

    fn visit_u64<E>(self, _: u64) -> Result<Checked, E> {
        Ok(Checked)
    }

    fn visit_f64<E>(self, _: f64) -> Result<Checked, E> {
        Ok(Checked)
    }

    fn visit_str<E>(self, _: &str) -> Result<Checked, E> {
        Ok(Checked)
    }

    fn visit_unit<E>(self) -> Result<Checked, E> {
        Ok(Checked)
    }

    fn visit_seq<A: SeqAccess<'de>>(self, mut values: A) -> Result<Checked, A::Error> {
        while values.next_element::<Checked>()?.is_some() {}
        Ok(Checked)
    }

    fn visit_map<A: MapAccess<'de>>(self, mut members: A) -> Result<Checked, A::Error> {
        while members.next_entry::<Checked, Checked>()?.is_some() {}
        Ok(Checked)
    }
}

impl<'de> Deserialize<'de> for Checked {
    #[inline]
    fn deserialize<D: Deserializer<'de>>(deserializer: D) -> Result<Checked, D::Error> {
        deserializer.deserialize_any(CheckedVisitor)
    }
}

/// The members that some operation has. What a line lacks is none; of a key that occurs twice the last value counts.
#[derive(Default)]
struct Members<'a> {
    op: Option<Op>,
    id: Option<u32>,
    kind: Option<Text<'a>>,
    slots: Option<u32>,
    thread: Option<u32>,
    at: Option<u32>,
    slot: Option<u32>,
    to: Option<Option<u32>>,
    name: Option<Text<'a>>,
    weak: Option<bool>,
    owner: Option<u32>,
    ownee: Option<u32>,
    limit: Option<u32>,
}

struct MembersVisitor;

impl<'de> Visitor<'de> for MembersVisitor {
    type Value = Members<'de>;

    fn expecting(&self, f: &mut fmt::Formatter) -> fmt::Result {
        f.write_str("an object")
    }

    #[inline]
    fn visit_map<A: MapAccess<'de>>(self, mut given: A) -> Result<Members<'de>, A::Error> {
        let mut members = Members::default();
        while let Some(key) = given.next_key()? {
            match key {
                Key::Op => members.op = Some(given.next_value()?),
                Key::Id => members.id = Some(given.next_value()?),
                Key::Type => members.kind = Some(given.next_value()?),
                Key::Slots => members.slots = Some(given.next_value()?),
                Key::Thread => members.thread = Some(given.next_value()?),
                Key::At => members.at = Some(given.next_value()?),
                Key::Slot => members.slot = Some(given.next_value()?),
                Key::To => members.to = Some(given.next_value()?),
                Key::Name => members.name = Some(given.next_value()?),
                Key::Weak => members.weak = Some(given.next_value()?),
                Key::Owner => members.owner = Some(given.next_value()?),
                Key::Ownee => members.ownee = Some(given.next_value()?),
                Key::Limit => members.limit = Some(given.next_value()?),
                Key::Other => {
                    given.next_value::<Checked>()?;
                }
            }
        }
        Ok(members)
    }
}

impl<'de> Deserialize<'de> for Members<'de> {
    #[inline]
    fn deserialize<D: Deserializer<'de>>(deserializer: D) -> Result<Members<'de>, D::Error> {
        deserializer.deserialize_map(MembersVisitor)
    }
}

#[inline]
fn id(number: Option<u32>) -> Option<u32> {
    number.filter(|number| *number > 0)
}

impl<'a> Members<'a> {
    fn thread(&self) -> Option<u32> {
        Some(self.thread.unwrap_or(0)).filter(|thread| *thread < MOST_THREADS)
    }

    fn target(&self) -> Option<Option<u32>> {
        self.to.filter(|to| *to != Some(0))
    }

    #[inline]
    fn operation(self) -> Option<Operation<'a>> {
        Some(match self.op? {
            Op::Alloc => {
                let thread = self.thread()?;
                Operation::Alloc { id: id(self.id)?, kind: self.kind?.name()?, slots: self.slots.unwrap_or(0), thread }
            }
            Op::Store => Operation::Store { at: id(self.at)?, slot: self.slot?, to: self.target()? },
            Op::SetWeak => Operation::SetWeak { at: id(self.at)?, slot: self.slot?, weak: self.weak? },
            Op::Root => {
                let to = self.target()?;
                Operation::Root { name: self.name?.name()?, to }
            }
            Op::AssertDead => Operation::AssertDead { id: id(self.id)? },
            Op::AssertUnshared => Operation::AssertUnshared { id: id(self.id)? },
            Op::AssertInstances => Operation::AssertInstances { kind: self.kind?.name()?, limit: self.limit? },
            Op::AssertOwnedBy => Operation::AssertOwnedBy { owner: id(self.owner)?, ownee: id(self.ownee)? },
            Op::StartRegion => Operation::StartRegion { thread: self.thread()? },
            Op::AssertAllDead => Operation::AssertAllDead { thread: self.thread()? },
            Op::Collect => Operation::Collect,
        })
    }
}

/// The operation of a usual line.
#[inline]
pub fn read_borrowed(line: &[u8]) -> Option<Operation<'_>> {
    serde_json::from_slice::<Members>(line).ok()?.operation()
}

// ---- by `Value`

/// The members of a line, each looked at when its operation needs it.
struct Fields(Map<String, Value>);

impl Fields {
    fn field<T>(&mut self, name: &'static str, read: impl Fn(&Value) -> Option<T>) -> Result<T, Refusal> {
        let value = self.0.get(name).ok_or(Refusal::MissingField(name))?;
        read(value).ok_or(Refusal::BadField(name))
    }

    fn id(&mut self, name: &'static str) -> Result<u32, Refusal> {
        self.field(name, |value| id(count(value)))
    }

    fn count(&mut self, name: &'static str) -> Result<u32, Refusal> {
        self.field(name, count)
    }

    fn count_or_zero(&mut self, name: &'static str) -> Result<u32, Refusal> {
        if self.0.contains_key(name) {
            self.count(name)
        } else {
            Ok(0)
        }
    }

    fn thread(&mut self) -> Result<u32, Refusal> {
        match self.count_or_zero("thread") {
            Ok(thread) if thread >= MOST_THREADS => Err(Refusal::BadField("thread")),
            found => found,
        }
    }

    fn target(&mut self) -> Result<Option<u32>, Refusal> {
        self.field("to", |value| if value.is_null() { Some(None) } else { id(count(value)).map(Some) })
    }

    fn name(&mut self, name: &'static str) -> Result<Cow<'static, str>, Refusal> {
        self.field(name, |value| value.as_str().filter(|text| is_name(text)).map(|text| Cow::Owned(text.to_owned())))
    }
}

fn count(value: &Value) -> Option<u32> {
    value.as_u64()?.try_into().ok()
}

/// The operation of a line, none if it is blank, or the reason why it is refused whatever the heap.
pub fn read_value(line: &[u8]) -> Result<Option<Operation<'static>>, Refusal> {
    if line.iter().all(|byte| b" \t\r".contains(byte)) {
        return Ok(None);
    }
    let Value::Object(members) = serde_json::from_slice(line).map_err(|_| Refusal::NotJson)? else {
        return Err(Refusal::NotObject);
    };
    let mut given = Fields(members);
    let op = given.field("op", |value| value.as_str().map(str::to_owned))?;
    Ok(Some(match op.as_str() {
        "alloc" => Operation::Alloc { id: given.id("id")?, kind: given.name("type")?, slots: given.count_or_zero("slots")?, thread: given.thread()? },
        "store" => Operation::Store { at: given.id("at")?, slot: given.count("slot")?, to: given.target()? },
        "set-weak" => Operation::SetWeak { at: given.id("at")?, slot: given.count("slot")?, weak: given.field("weak", Value::as_bool)? },
        "root" => Operation::Root { name: given.name("name")?, to: given.target()? },
        "assert-dead" => Operation::AssertDead { id: given.id("id")? },
        "assert-unshared" => Operation::AssertUnshared { id: given.id("id")? },
        "assert-instances" => Operation::AssertInstances { kind: given.name("type")?, limit: given.count("limit")? },
        "assert-ownedby" => Operation::AssertOwnedBy { owner: given.id("owner")?, ownee: given.id("ownee")? },
        "start-region" => Operation::StartRegion { thread: given.thread()? },
        "assert-alldead" => Operation::AssertAllDead { thread: given.thread()? },
        "collect" => Operation::Collect,
        _ => return Err(Refusal::UnknownOp),
    }))
}
