//! CSV rows (T-11): the crate reads a message and writes one, and Rust's own formatting spells the values. Where a row
//! can't go on is told by spelling: bytes begin a field if one of a few ends makes them a value's one spelling.

use crate::table::{self, Table, STRUCT};
use crate::{read, write, Entry, Refusal, ENTRIES, WORDS};
use core::ops::RangeInclusive;

/// Most fields of a row.
pub const FIELDS: usize = 1_024;

pub const SHAPE: Refusal = Refusal { no: 20, place: 0 };
pub const FULL: Refusal = Refusal { no: 12, place: 0 };

fn no_row(place: usize) -> Refusal {
    Refusal { no: 21, place }
}

/// The kinds of the fields, if the root is a struct of at most 1,024, all of kinds 0 to 13 or 20 to 31.
pub fn fields(table: &Table) -> Option<Vec<u8>> {
    let root = &table.nodes[table.root];
    let kinds: Vec<u8> = root.kids.iter().map(|&kid| table.nodes[kid].kind).collect();
    let fit = kinds.iter().all(|kind| matches!(kind, 0..=13 | 20..=31));
    (root.kind == STRUCT && kinds.len() <= FIELDS && fit).then_some(kinds)
}

/// A field's value.
#[derive(Clone, Debug, PartialEq, Eq)]
pub enum Value {
    Number(i128),
    Char(char),
    Text(String),
    Bytes(Vec<u8>),
}

/// The numbers that a field of a kind has, floats by their bits; none for what is quoted.
pub fn numbers(kind: u8) -> Option<RangeInclusive<i128>> {
    let signed = |bits: u32| Some(-(1i128 << (bits - 1))..=(1i128 << (bits - 1)) - 1);
    let unsigned = |bits: u32| Some(0..=(1i128 << bits) - 1);
    match kind {
        table::BOOL => unsigned(1),
        table::I8 => signed(8),
        table::I16 | 20 | 26 => signed(16),
        table::I32 | 21 | 27 => signed(32),
        table::I64 | 22 | 28 => signed(64),
        table::U8 => unsigned(8),
        table::U16 | 23 | 29 => unsigned(16),
        table::U32 | table::F32 | 24 | 30 => unsigned(32),
        table::U64 | table::F64 | 25 | 31 => unsigned(64),
        _ => None,
    }
}

/// The value that an entry of a message stands for.
fn value(kind: u8, [w0, w1, _]: Entry, message: &[u8]) -> Value {
    let part = || message[w0 as usize..][..w1 as usize].to_vec();
    match (kind, numbers(kind)) {
        (_, Some(all)) if *all.start() < 0 => Value::Number(i128::from(w0 as i64)),
        (_, Some(_)) => Value::Number(i128::from(w0)),
        (table::CHAR, _) => Value::Char(char::from_u32(w0 as u32).expect("the crate read a char")),
        (table::STR, _) => Value::Text(String::from_utf8(part()).expect("the crate read a text")),
        _ => Value::Bytes(part()),
    }
}

/// A value's one spelling.
pub fn spelling(value: &Value) -> Vec<u8> {
    let quoted = |text: String| format!("\"{}\"", text.replace('"', "\"\""));
    match value {
        Value::Number(x) => x.to_string(),
        Value::Char(c) => quoted(c.to_string()),
        Value::Text(text) => quoted(text.clone()),
        Value::Bytes(bytes) => quoted(bytes.iter().map(|b| format!("{b:02x}")).collect()),
    }
    .into_bytes()
}

/// The row of values: commas between, CRLF behind.
pub fn row(values: &[Value]) -> Vec<u8> {
    let fields: Vec<Vec<u8>> = values.iter().map(spelling).collect();
    [fields.join(&b","[..]), b"\r\n".to_vec()].concat()
}

/// The public call, with an output of so many bytes.
pub fn export(file: &[u8], message: &[u8], out_len: usize) -> Result<Vec<u8>, Refusal> {
    let table = Table::parse(file)?;
    let kinds = fields(&table).ok_or(SHAPE)?;
    let got = read::read_good(&table, message, ENTRIES, Vec::new());
    if got.no != 0 {
        return Err(Refusal { no: got.no, place: got.place });
    }
    let values: Vec<Value> = kinds.iter().zip(&got.entries[1..]).map(|(&k, &entry)| value(k, entry, message)).collect();
    let row = row(&values);
    if row.len() > out_len {
        return Err(FULL);
    }
    Ok(row)
}

/// The value of a kind that bytes spell. Whatever they are taken for, it must be spelt so.
pub fn spelt(kind: u8, bytes: &[u8]) -> Option<Value> {
    let value = if let Some(all) = numbers(kind) {
        let x = core::str::from_utf8(bytes).ok()?.parse().ok()?;
        all.contains(&x).then_some(Value::Number(x))
    } else {
        let inner = core::str::from_utf8(bytes).ok()?.strip_prefix('"')?.strip_suffix('"')?.replace("\"\"", "\"");
        match kind {
            table::CHAR => inner.chars().next().map(Value::Char),
            table::STR => Some(Value::Text(inner)),
            _ => crate::proto::unhex(if inner.is_empty() { "-" } else { &inner }).ok().map(Value::Bytes),
        }
    };
    value.filter(|value| spelling(value) == bytes)
}

/// Ends of fields. What begins a field's spelling becomes a whole one by one of them.
const ENDS: [&[u8]; 14] = [
    b"",
    b"0",
    b"1",
    b"\"",
    b"\"\"",
    b"a\"",
    b"0\"",
    b"\"a\"",
    b"\"00\"",
    b"\x80\"",
    b"\x80\x80\"",
    b"\xA0\x80\"",
    b"\x80\x80\x80\"",
    b"\x90\x80\x80\"",
];

/// Whether some value's spelling, with what separates it from the next field, begins with these bytes.
fn begins(kind: u8, separator: &[u8], bytes: &[u8]) -> bool {
    let inside = ENDS.iter().any(|end| spelt(kind, &[bytes, end].concat()).is_some());
    let behind = |n: usize| bytes.strip_suffix(&separator[..n]).is_some_and(|field| spelt(kind, field).is_some());
    inside || (1..=separator.len()).any(behind)
}

/// How many of the bytes begin a field: with fewer it is never otherwise.
fn longest(kind: u8, separator: &[u8], bytes: &[u8]) -> usize {
    let good = |n: usize| begins(kind, separator, &bytes[..n]);
    let mut step = 1;
    while step < bytes.len() && good(step) {
        step *= 2;
    }
    let (mut low, mut high) = (step / 2, step.min(bytes.len()));
    while low < high {
        let middle = (low + high).div_ceil(2);
        if good(middle) {
            low = middle;
        } else {
            high = middle - 1;
        }
    }
    low
}

/// The values of the one row that these bytes are.
pub fn values(kinds: &[u8], bytes: &[u8]) -> Result<Vec<Value>, Refusal> {
    let (mut values, mut at) = (vec![], 0);
    for (i, &kind) in kinds.iter().enumerate() {
        let separator: &[u8] = if i + 1 < kinds.len() { b"," } else { b"\r\n" };
        let len = longest(kind, separator, &bytes[at..]);
        let field = bytes[at..at + len].strip_suffix(separator).and_then(|field| spelt(kind, field));
        at += len;
        values.push(field.ok_or(no_row(at))?);
    }
    if kinds.is_empty() {
        at = bytes.iter().zip(b"\r\n").take_while(|(a, b)| a == b).count();
    }
    let ended = !kinds.is_empty() || at == 2;
    if !ended || at < bytes.len() {
        return Err(no_row(at));
    }
    Ok(values)
}

/// The public call, with an output of so many bytes: the crate writes the values.
pub fn import(file: &[u8], bytes: &[u8], out_len: usize) -> Result<Vec<u8>, Refusal> {
    let table = Table::parse(file)?;
    let values = values(&fields(&table).ok_or(SHAPE)?, bytes)?;
    let (mut words, mut pool) = (vec![0; WORDS], vec![]);
    for value in &values {
        let text = match value {
            Value::Number(x) => {
                words.extend([*x as u64, 0, 0]);
                continue;
            }
            Value::Char(c) => {
                words.extend([u64::from(u32::from(*c)), 0, 0]);
                continue;
            }
            Value::Text(text) => text.as_bytes(),
            Value::Bytes(bytes) => bytes,
        };
        words.extend([pool.len() as u64, text.len() as u64, 0]);
        pool.extend(text);
    }
    write::write(file, &words, &pool, out_len)
}
