//! Writing: 11 from 01, then the real `postcard::Serializer` under a table-driven `Serialize`.

use crate::table::{self, Table};
use crate::{Entry, Refusal, WORDS};
use core::cell::Cell;
use postcard::{fixint, Error};
use serde::ser::{Serialize, SerializeMap, SerializeSeq, SerializeTuple, Serializer};

/// The words as entries. A number of words that isn't a multiple of three is 11 at a third of it, rounded down.
pub fn entries_of(words: &[u64]) -> Result<Vec<Entry>, Refusal> {
    let entries = words.chunks_exact(WORDS);
    if !entries.remainder().is_empty() {
        return Err(Refusal { no: 11, place: entries.len() });
    }
    Ok(entries.map(|w| [w[0], w[1], w[2]]).collect())
}

/// Does the list fit? From 01. An item's place, the third word, isn't looked at.
pub fn fit(table: &Table, entries: &[Entry], pool: &[u8]) -> Result<(), Refusal> {
    let mut at = 0;
    fit_item(table, table.root, entries, pool, &mut at)?;
    if at < entries.len() {
        return Err(Refusal { no: 11, place: at });
    }
    Ok(())
}

fn fit_item(table: &Table, node: usize, entries: &[Entry], pool: &[u8], at: &mut usize) -> Result<(), Refusal> {
    let refusal = Refusal { no: 11, place: *at };
    let Some(&[w0, w1, _]) = entries.get(*at) else {
        return Err(refusal);
    };
    let node = &table.nodes[node];
    let signed = |bits: u32| {
        let (x, edge) = (w0 as i64, 1i128 << (bits - 1));
        (-edge..edge).contains(&i128::from(x))
    };
    let unsigned = |bits: u32| u128::from(w0) < 1u128 << bits;
    let (first_ok, text_or_bytes) = match node.kind {
        table::BOOL | table::OPTION => (w0 <= 1, false),
        table::I8 => (signed(8), false),
        table::I16 | 20 | 26 => (signed(16), false),
        table::I32 | 21 | 27 => (signed(32), false),
        table::I64 | 22 | 28 => (true, false),
        table::U8 => (unsigned(8), false),
        table::U16 | 23 | 29 => (unsigned(16), false),
        table::U32 | table::F32 | 24 | 30 => (unsigned(32), false),
        table::U64 | table::F64 | 25 | 31 => (true, false),
        table::CHAR => (u32::try_from(w0).is_ok_and(|c| char::from_u32(c).is_some()), false),
        table::STR => (part(pool, w0, w1).is_some_and(|b| core::str::from_utf8(b).is_ok()), true),
        table::BYTES => (part(pool, w0, w1).is_some(), true),
        table::UNIT | table::STRUCT => (w0 == 0, false),
        table::SEQ | table::MAP => (true, false),
        table::ENUM => (w0 < node.kids.len() as u64, false),
        _ => unreachable!("checked table"),
    };
    if !first_ok || (!text_or_bytes && w1 != 0) {
        return Err(refusal);
    }
    *at += 1;
    match node.kind {
        table::OPTION if w0 == 1 => fit_item(table, node.kids[0], entries, pool, at)?,
        // Every item takes an entry, so a hostile count stops at the end of the list.
        table::SEQ | table::MAP => {
            for _ in 0..w0 {
                for &k in &node.kids {
                    fit_item(table, k, entries, pool, at)?;
                }
            }
        }
        table::STRUCT => {
            for &k in &node.kids {
                fit_item(table, k, entries, pool, at)?;
            }
        }
        table::ENUM => fit_item(table, node.kids[w0 as usize], entries, pool, at)?,
        _ => {}
    }
    Ok(())
}

fn part(pool: &[u8], offset: u64, len: u64) -> Option<&[u8]> {
    let end = offset.checked_add(len).filter(|&e| e <= pool.len() as u64)?;
    Some(&pool[offset as usize..end as usize])
}

struct List<'w> {
    table: &'w Table,
    entries: &'w [Entry],
    pool: &'w [u8],
    at: Cell<usize>,
}

/// One item of a list that fits.
struct Value<'a, 'w> {
    list: &'a List<'w>,
    node: usize,
}

impl Serialize for Value<'_, '_> {
    fn serialize<S: Serializer>(&self, s: S) -> Result<S::Ok, S::Error> {
        let list = self.list;
        let node = &list.table.nodes[self.node];
        let [w0, w1, _] = list.entries[list.at.replace(list.at.get() + 1)];
        let kid = |k: usize| Value { list, node: node.kids[k] };
        let bytes = || part(list.pool, w0, w1).expect("fits");
        match node.kind {
            table::BOOL => s.serialize_bool(w0 == 1),
            table::I8 => s.serialize_i8(w0 as i8),
            table::I16 => s.serialize_i16(w0 as i16),
            table::I32 => s.serialize_i32(w0 as i32),
            table::I64 => s.serialize_i64(w0 as i64),
            table::U8 => s.serialize_u8(w0 as u8),
            table::U16 => s.serialize_u16(w0 as u16),
            table::U32 => s.serialize_u32(w0 as u32),
            table::U64 => s.serialize_u64(w0),
            table::F32 => s.serialize_f32(f32::from_bits(w0 as u32)),
            table::F64 => s.serialize_f64(f64::from_bits(w0)),
            table::CHAR => s.serialize_char(char::from_u32(w0 as u32).expect("fits")),
            table::STR => s.serialize_str(core::str::from_utf8(bytes()).expect("fits")),
            table::BYTES => s.serialize_bytes(bytes()),
            table::UNIT => s.serialize_unit(),
            table::OPTION if w0 == 0 => s.serialize_none(),
            table::OPTION => s.serialize_some(&kid(0)),
            table::SEQ => {
                let mut seq = s.serialize_seq(Some(w0 as usize))?;
                for _ in 0..w0 {
                    seq.serialize_element(&kid(0))?;
                }
                seq.end()
            }
            table::MAP => {
                let mut map = s.serialize_map(Some(w0 as usize))?;
                for _ in 0..w0 {
                    map.serialize_key(&kid(0))?;
                    map.serialize_value(&kid(1))?;
                }
                map.end()
            }
            table::STRUCT => {
                let mut fields = s.serialize_tuple(node.kids.len())?;
                for k in 0..node.kids.len() {
                    fields.serialize_element(&kid(k))?;
                }
                fields.end()
            }
            table::ENUM => s.serialize_newtype_variant("", w0 as u32, "", &kid(w0 as usize)),
            20 => fixint::le::serialize(&(w0 as i16), s),
            21 => fixint::le::serialize(&(w0 as i32), s),
            22 => fixint::le::serialize(&(w0 as i64), s),
            23 => fixint::le::serialize(&(w0 as u16), s),
            24 => fixint::le::serialize(&(w0 as u32), s),
            25 => fixint::le::serialize(&w0, s),
            26 => fixint::be::serialize(&(w0 as i16), s),
            27 => fixint::be::serialize(&(w0 as i32), s),
            28 => fixint::be::serialize(&(w0 as i64), s),
            29 => fixint::be::serialize(&(w0 as u16), s),
            30 => fixint::be::serialize(&(w0 as u32), s),
            31 => fixint::be::serialize(&w0, s),
            _ => unreachable!("checked table"),
        }
    }
}

/// One item without its children: a count and no elements, a variant's number, an option's byte.
struct Alone<'p> {
    kind: u8,
    entry: Entry,
    pool: &'p [u8],
}

impl Serialize for Alone<'_> {
    fn serialize<S: Serializer>(&self, s: S) -> Result<S::Ok, S::Error> {
        let Alone { kind, entry: entry @ [w0, ..], pool } = *self;
        match kind {
            table::OPTION if w0 == 0 => s.serialize_none(),
            table::OPTION => s.serialize_some(&()),
            table::SEQ => s.serialize_seq(Some(w0 as usize))?.end(),
            table::MAP => s.serialize_map(Some(w0 as usize))?.end(),
            table::STRUCT => s.serialize_tuple(0)?.end(),
            table::ENUM => s.serialize_unit_variant("", w0 as u32, ""),
            _ => {
                let list = List { table: &Table::leaf(kind), entries: &[entry], pool, at: Cell::new(0) };
                Value { list: &list, node: 0 }.serialize(s)
            }
        }
    }
}

/// Whether an item's own bytes are the ones that the crate writes for its value.
pub fn is_written_so(kind: u8, entry: Entry, pool: &[u8], own: &[u8]) -> bool {
    let mut out = vec![0; own.len()];
    postcard::to_slice(&Alone { kind, entry, pool }, &mut out).expect("no longer than what was read") == own
}

/// What stands in the output before the call; the crate must leave it alone past its bytes.
const UNTOUCHED: u8 = 0xA5;

/// Writes a list that fits. The crate alone says whether the output is long enough.
pub fn write_good(table: &Table, entries: &[Entry], pool: &[u8], out_len: usize) -> Result<Vec<u8>, Refusal> {
    let list = List { table, entries, pool, at: Cell::new(0) };
    let value = Value { list: &list, node: table.root };
    let size = postcard::experimental::serialized_size(&value).expect("size of a list that fits");
    assert_eq!(list.at.replace(0), entries.len());

    let mut out = vec![UNTOUCHED; out_len];
    match postcard::to_slice(&value, &mut out) {
        Ok(done) => {
            let used = done.len();
            assert_eq!(used, size);
            assert!(out[used..].iter().all(|&b| b == UNTOUCHED));
            out.truncate(used);
            Ok(out)
        }
        Err(Error::SerializeBufferFull) => {
            assert!(size > out_len, "buffer full though the wire form fits");
            Err(Refusal { no: 12, place: 0 })
        }
        Err(other) => panic!("the crate gave an error that 01 has no number for: {other:?}"),
    }
}

/// Writes a list that fits, and nothing else: the crate's serializer under the table-driven `Serialize`.
pub fn to_slice(table: &Table, entries: &[Entry], pool: &[u8], out: &mut [u8]) -> usize {
    let list = List { table, entries, pool, at: Cell::new(0) };
    postcard::to_slice(&Value { list: &list, node: table.root }, out).expect("room enough").len()
}

/// The writer's public call.
pub fn write(file: &[u8], words: &[u64], pool: &[u8], out_len: usize) -> Result<Vec<u8>, Refusal> {
    let table = Table::parse(file)?;
    let entries = entries_of(words)?;
    fit(&table, &entries, pool)?;
    write_good(&table, &entries, pool, out_len)
}
