//! What `bench/malformed.py` compares gcaudit's reading of lines with, by serde_json's `Value` and the fields of docs/TRACES.md alone.
//!
//! On standard input stand traces, each behind a line with its length in bytes. Of each line of a trace it writes one line of JSON, up to the
//! first line that is refused whatever the heap: null for a blank one, the operation as an object with all its fields, or the refusal as a text.
//! An empty line ends what is said of a trace.
use serde_json::{Map, Value};
use std::fmt;
use std::io::{self, BufRead, BufWriter, Read, Write};

const LONGEST_LINE: usize = 65_536;
const LONGEST_NAME: usize = 256;
const THREADS: u64 = 1_024;

type Members = Map<String, Value>;

enum Refusal {
    LineTooLong,
    NotJson,
    NotObject,
    UnknownOp,
    MissingField(&'static str),
    BadField(&'static str),
}

impl fmt::Display for Refusal {
    fn fmt(&self, f: &mut fmt::Formatter) -> fmt::Result {
        match self {
            Refusal::LineTooLong => write!(f, "LineTooLong"),
            Refusal::NotJson => write!(f, "NotJson"),
            Refusal::NotObject => write!(f, "NotObject"),
            Refusal::UnknownOp => write!(f, "UnknownOp"),
            Refusal::MissingField(field) => write!(f, "MissingField {field}"),
            Refusal::BadField(field) => write!(f, "BadField {field}"),
        }
    }
}

struct Field {
    name: &'static str,
    is_good: fn(&Value) -> bool,
    /// A field that may be missing is 0 then.
    is_optional: bool,
}

fn needed(name: &'static str, is_good: fn(&Value) -> bool) -> Field {
    Field { name, is_good, is_optional: false }
}

fn optional(name: &'static str, is_good: fn(&Value) -> bool) -> Field {
    Field { name, is_good, is_optional: true }
}

fn is_count(value: &Value) -> bool {
    value.as_u64().map_or(false, |number| number <= u64::from(u32::MAX))
}

fn is_id(value: &Value) -> bool {
    is_count(value) && value.as_u64() != Some(0)
}

fn is_target(value: &Value) -> bool {
    value.is_null() || is_id(value)
}

fn is_thread(value: &Value) -> bool {
    value.as_u64().map_or(false, |number| number < THREADS)
}

fn is_name(value: &Value) -> bool {
    let is_good = |text: &str| (1..=LONGEST_NAME).contains(&text.len()) && !text.bytes().any(|byte| byte.is_ascii_control());
    value.as_str().map_or(false, is_good)
}

/// The fields of an operation, in the order in which they are looked at.
fn fields_of(op: &str) -> Option<Vec<Field>> {
    Some(match op {
        "alloc" => vec![needed("id", is_id), needed("type", is_name), optional("slots", is_count), optional("thread", is_thread)],
        "store" => vec![needed("at", is_id), needed("slot", is_count), needed("to", is_target)],
        "set-weak" => vec![needed("at", is_id), needed("slot", is_count), needed("weak", Value::is_boolean)],
        "root" => vec![needed("name", is_name), needed("to", is_target)],
        "assert-dead" | "assert-unshared" => vec![needed("id", is_id)],
        "start-region" | "assert-alldead" => vec![optional("thread", is_thread)],
        "assert-instances" => vec![needed("type", is_name), needed("limit", is_count)],
        "assert-ownedby" => vec![needed("owner", is_id), needed("ownee", is_id)],
        "collect" => vec![],
        _ => return None,
    })
}

fn value_of(members: &Members, field: &Field) -> Result<Value, Refusal> {
    match members.get(field.name) {
        Some(value) if (field.is_good)(value) => Ok(value.clone()),
        Some(_) => Err(Refusal::BadField(field.name)),
        None if field.is_optional => Ok(Value::from(0)),
        None => Err(Refusal::MissingField(field.name)),
    }
}

fn operation_of(members: &Members) -> Result<Value, Refusal> {
    let op = members.get("op").ok_or(Refusal::MissingField("op"))?;
    let fields = fields_of(op.as_str().ok_or(Refusal::BadField("op"))?).ok_or(Refusal::UnknownOp)?;
    let mut operation = Members::new();
    operation.insert("op".to_string(), op.clone());
    for field in &fields {
        operation.insert(field.name.to_string(), value_of(members, field)?);
    }
    Ok(Value::Object(operation))
}

fn is_blank(line: &[u8]) -> bool {
    line.iter().all(|byte| b" \t\r".contains(byte))
}

/// The operation of a line without its newline, or null for a blank one.
fn reading_of(line: &[u8]) -> Result<Value, Refusal> {
    if line.len() > LONGEST_LINE {
        return Err(Refusal::LineTooLong);
    }
    if is_blank(line) {
        return Ok(Value::Null);
    }
    let value: Value = serde_json::from_slice(line).map_err(|_| Refusal::NotJson)?;
    operation_of(value.as_object().ok_or(Refusal::NotObject)?)
}

fn write_readings(trace: &[u8], out: &mut impl Write) -> io::Result<()> {
    for line in trace.split_inclusive(|byte| *byte == b'\n') {
        match reading_of(line.strip_suffix(b"\n").unwrap_or(line)) {
            Ok(operation) => writeln!(out, "{operation}")?,
            Err(refusal) => {
                writeln!(out, "\"{refusal}\"")?;
                break;
            }
        }
    }
    writeln!(out)
}

fn main() -> io::Result<()> {
    let mut input = io::stdin().lock();
    let mut out = BufWriter::new(io::stdout().lock());
    let mut length = String::new();
    while input.read_line(&mut length)? > 0 {
        let mut trace = vec![0; length.trim().parse().expect("a length")];
        input.read_exact(&mut trace)?;
        write_readings(&trace, &mut out)?;
        length.clear();
    }
    out.flush()
}
