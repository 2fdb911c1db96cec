//! 01's wire rules written out once more WITHOUT the crate, to find where the two differ.
//! Nothing here is the oracle; `oracle check` compares it with the oracle line by line.

use crate::compare::{Of, Pair};
use crate::table::{self, Table};
use crate::{Entry, ReadAnswer, Refusal};
use core::ops::Range;

/// 01's two constants for each varint width: most bytes, largest last byte.
#[derive(Clone, Copy, Debug)]
pub struct Width(pub usize, pub u8);
pub const W16: Width = Width(3, 3);
pub const W32: Width = Width(5, 15);
pub const W64: Width = Width(10, 1);

/// A varint that was read: its value, the bytes used, and whether that was the shortest form.
struct Varint {
    value: u64,
    used: usize,
    shortest: bool,
}

/// Reads a varint, or answers 3 or 4.
fn varint(width: Width, m: &[u8]) -> Result<Varint, u8> {
    let mut value = 0u64;
    for i in 0..width.0 {
        let &b = m.get(i).ok_or(3u8)?;
        if i == width.0 - 1 && b > width.1 {
            return Err(4);
        }
        value += u64::from(b % 128) << (7 * i);
        if b < 128 {
            // A last byte of 0 could be left out, but not an only one.
            return Ok(Varint { value, used: i + 1, shortest: b > 0 || i == 0 });
        }
    }
    unreachable!("a last allowed byte with its high bit set is over the largest")
}

/// The width of the UTF-8 sequence that a lead byte starts, 0 where none starts.
pub fn lead(b: u8) -> usize {
    match b {
        0x00..=0x7F => 1,
        0xC2..=0xDF => 2,
        0xE0..=0xEF => 3,
        0xF0..=0xF4 => 4,
        _ => 0,
    }
}

/// The first character's code point and width, or None if no good sequence starts here.
pub fn first_char(m: &[u8]) -> Option<(u32, usize)> {
    let b0 = *m.first()?;
    let width = lead(b0);
    if width == 0 || m.len() < width {
        return None;
    }
    let second = match b0 {
        0xE0 => 0xA0..=0xBF,
        0xED => 0x80..=0x9F,
        0xF0 => 0x90..=0xBF,
        0xF4 => 0x80..=0x8F,
        _ => 0x80..=0xBF,
    };
    let mut code = u32::from(b0) & [0, 0x7F, 0x1F, 0x0F, 0x07][width];
    for (i, &b) in m[1..width].iter().enumerate() {
        let good = if i == 0 { second.contains(&b) } else { (0x80..=0xBF).contains(&b) };
        if !good {
            return None;
        }
        code = code * 64 + u32::from(b & 0x3F);
    }
    Some((code, width))
}

pub fn utf8(mut m: &[u8]) -> bool {
    while !m.is_empty() {
        let Some((_, width)) = first_char(m) else { return false };
        m = &m[width..];
    }
    true
}

struct Reader<'m> {
    table: &'m Table,
    room: usize,
    strict: bool,
    entries: Vec<Entry>,
}

/// An item's own bytes: its two words, how many bytes there are, and whether that is the shortest form.
struct Own {
    words: [u64; 2],
    used: usize,
    shortest: bool,
}

/// One of a fixed number of bytes, which has no other form.
fn fixed(word: u64, used: usize) -> Own {
    Own { words: [word, 0], used, shortest: true }
}

impl Reader<'_> {
    /// Reads the item that starts at `at` without its children, gives its entry and the place behind it.
    fn head(&mut self, node: usize, m: &[u8], at: usize) -> Result<(Entry, usize), Refusal> {
        if self.entries.len() >= self.room {
            return Err(Refusal { no: 10, place: at });
        }
        let Own { words: [w0, w1], used, shortest } =
            self.own(node, &m[at..], at).map_err(|no| Refusal { no, place: at })?;
        if self.strict && !shortest {
            return Err(Refusal { no: 16, place: at });
        }
        let entry = [w0, w1, at as u64];
        self.entries.push(entry);
        Ok((entry, at + used))
    }

    /// Reads the item that starts at `at`, gives the place behind it and its children.
    fn item(&mut self, node: usize, m: &[u8], at: usize) -> Result<usize, Refusal> {
        let ([w0, ..], mut at) = self.head(node, m, at)?;
        let table = self.table;
        let node = &table.nodes[node];
        match node.kind {
            table::OPTION if w0 == 1 => at = self.item(node.kids[0], m, at)?,
            table::SEQ | table::MAP => {
                for _ in 0..w0 {
                    for &k in &node.kids {
                        at = self.item(k, m, at)?;
                    }
                }
            }
            table::STRUCT => {
                for &k in &node.kids {
                    at = self.item(k, m, at)?;
                }
            }
            table::ENUM => at = self.item(node.kids[w0 as usize], m, at)?,
            _ => {}
        }
        Ok(at)
    }

    /// Reads from the item at `at` up to the one that the path leads to from it, and no further.
    fn find(&mut self, node: usize, path: &[u64], m: &[u8], at: usize) -> Result<Entry, Refusal> {
        let (entry, mut behind) = self.head(node, m, at)?;
        let [position, onward @ ..] = path else { return Ok(entry) };
        let table = self.table;
        let node = &table.nodes[node];
        if node.kind == table::OPTION && entry[0] == 0 {
            return Err(Refusal { no: 14, place: at });
        }
        let position = *position as usize;
        for &kid in &node.kids[..position] {
            behind = self.item(kid, m, behind)?;
        }
        self.find(node.kids[position], onward, m, behind)
    }

    /// The item's own bytes, which are the first of `m`.
    fn own(&self, node: usize, m: &[u8], at: usize) -> Result<Own, u8> {
        let node = &self.table.nodes[node];
        let plain = |Varint { value, used, shortest }| Own { words: [value, 0], used, shortest };
        let zigzag = |Varint { value: z, used, shortest }| {
            let x = if z % 2 == 0 { z / 2 } else { (z / 2 + 1).wrapping_neg() };
            Own { words: [x, 0], used, shortest }
        };
        let little = |len: usize| -> Result<u64, u8> {
            let b = m.get(..len).ok_or(3u8)?;
            Ok(b.iter().rev().fold(0, |v, &b| v << 8 | u64::from(b)))
        };
        let big = |len: usize| -> Result<u64, u8> {
            let b = m.get(..len).ok_or(3u8)?;
            Ok(b.iter().fold(0, |v, &b| v << 8 | u64::from(b)))
        };
        let sign = |v: u64, len: usize| {
            let bits = 8 * len as u32;
            if bits < 64 && v >> (bits - 1) == 1 {
                v.wrapping_sub(1 << bits)
            } else {
                v
            }
        };
        let counted = || -> Result<(usize, usize, bool), u8> {
            let Varint { value: len, used, shortest } = varint(W64, m)?;
            // Compared with what is left; a hostile length is never added to anything.
            if len > (m.len() - used) as u64 {
                Err(3)
            } else {
                Ok((len as usize, used, shortest))
            }
        };
        Ok(match node.kind {
            table::BOOL | table::OPTION => match m.first() {
                None => return Err(3),
                Some(&b @ (0 | 1)) => fixed(b.into(), 1),
                Some(_) => return Err(if node.kind == table::BOOL { 5 } else { 8 }),
            },
            table::I8 => fixed(sign(little(1)?, 1), 1),
            table::U8 => fixed(little(1)?, 1),
            table::I16 => zigzag(varint(W16, m)?),
            table::I32 => zigzag(varint(W32, m)?),
            table::I64 => zigzag(varint(W64, m)?),
            table::U16 => plain(varint(W16, m)?),
            table::U32 => plain(varint(W32, m)?),
            table::U64 | table::SEQ | table::MAP => plain(varint(W64, m)?),
            table::F32 => fixed(little(4)?, 4),
            table::F64 => fixed(little(8)?, 8),
            table::CHAR => {
                let Varint { value: len, used, shortest } = varint(W64, m)?;
                if len > 4 {
                    return Err(6);
                }
                let bytes = m[used..].get(..len as usize).ok_or(3u8)?;
                if !utf8(bytes) {
                    return Err(6);
                }
                let (code, width) = first_char(bytes).ok_or(6u8)?;
                let shortest = shortest && bytes.len() == width;
                Own { words: [code.into(), 0], used: used + bytes.len(), shortest }
            }
            table::STR | table::BYTES => {
                let (len, used, shortest) = counted()?;
                if node.kind == table::STR && !utf8(&m[used..used + len]) {
                    return Err(7);
                }
                Own { words: [(at + used) as u64, len as u64], used: used + len, shortest }
            }
            table::UNIT | table::STRUCT => fixed(0, 0),
            table::ENUM => {
                let number = varint(W32, m)?;
                if number.value >= node.kids.len() as u64 {
                    return Err(9);
                }
                plain(number)
            }
            kind @ 20..=31 => {
                let i = (kind - 20) % 6;
                let len = [2, 4, 8][usize::from(i % 3)];
                let v = if kind <= 25 { little(len)? } else { big(len)? };
                fixed(if i < 3 { sign(v, len) } else { v }, len)
            }
            _ => unreachable!("checked table"),
        })
    }
}

pub fn read<'m>(file: &[u8], message: &'m [u8], store_words: usize) -> ReadAnswer<'m> {
    reading(file, message, store_words, false)
}

pub fn read_strict<'m>(file: &[u8], message: &'m [u8], store_words: usize) -> ReadAnswer<'m> {
    reading(file, message, store_words, true)
}

fn reading<'m>(file: &[u8], message: &'m [u8], store_words: usize, strict: bool) -> ReadAnswer<'m> {
    let table = match Table::parse(file) {
        Ok(table) => table,
        Err(Refusal { no, place }) => return ReadAnswer { no, place, entries: vec![], rest: &[] },
    };
    let mut reader = Reader { table: &table, room: store_words / 3, strict, entries: vec![] };
    let done = reader.item(table.root, message, 0);
    let entries = reader.entries;
    match done {
        Ok(place) => ReadAnswer { no: 0, place, entries, rest: &message[place..] },
        Err(Refusal { no, place }) => ReadAnswer { no, place, entries, rest: &[] },
    }
}

/// Whether a path leads from a node to an item that can be asked for.
fn leads(table: &Table, node: usize, path: &[u64]) -> bool {
    let node = &table.nodes[node];
    match (path, node.kind) {
        ([], kind) => kind < table::UNIT || kind >= table::FIX_FIRST,
        ([0, onward @ ..], table::OPTION) => leads(table, node.kids[0], onward),
        ([position, onward @ ..], table::STRUCT) => {
            *position < node.kids.len() as u64 && leads(table, node.kids[*position as usize], onward)
        }
        _ => false,
    }
}

pub fn find(file: &[u8], path: &[u64], message: &[u8]) -> Result<Entry, Refusal> {
    let table = Table::parse(file)?;
    if !leads(&table, table.root, path) {
        return Err(Refusal { no: 13, place: 0 });
    }
    Reader { table: &table, room: 16_384, strict: false, entries: vec![] }.find(table.root, path, message, 0)
}

/// An item of a message with what is inside it.
struct Tree<'m> {
    /// Its first word; for texts and bytes their content.
    value: (u64, &'m [u8]),
    place: u64,
    inside: Vec<Tree<'m>>,
}

fn tree<'m>(table: &Table, node: usize, left: &mut &[Entry], m: &'m [u8]) -> Tree<'m> {
    let node = &table.nodes[node];
    let [w0, w1, place] = left[0];
    *left = &left[1..];
    let value = match node.kind {
        table::STR | table::BYTES => (0, &m[w0 as usize..(w0 + w1) as usize]),
        _ => (w0, &m[..0]),
    };
    let kids = match node.kind {
        table::OPTION | table::SEQ | table::MAP => node.kids.repeat(w0 as usize),
        table::ENUM => vec![node.kids[w0 as usize]],
        _ => node.kids.clone(),
    };
    Tree { value, place, inside: kids.iter().map(|&kid| tree(table, kid, left, m)).collect() }
}

fn differences(one: &Tree, other: &Tree, pairs: &mut Vec<Pair>) {
    if one.value != other.value {
        return pairs.push([one.place, other.place]);
    }
    for (one, other) in one.inside.iter().zip(&other.inside) {
        differences(one, other, pairs);
    }
}

pub fn compare(file: &[u8], one: &[u8], other: &[u8], list_words: usize) -> Result<Vec<Pair>, (Refusal, Of)> {
    let table = Table::parse(file).map_err(|refusal| (refusal, Of::Neither))?;
    let mut trees = vec![];
    for (message, of) in [(one, Of::One), (other, Of::Other)] {
        let ReadAnswer { no, place, entries, .. } = read(file, message, 49_152);
        if no != 0 {
            return Err((Refusal { no, place }, of));
        }
        trees.push(tree(&table, table.root, &mut &entries[..], message));
    }
    let mut pairs = vec![];
    differences(&trees[0], &trees[1], &mut pairs);
    if 2 * pairs.len() > list_words {
        return Err((Refusal { no: 15, place: 0 }, Of::Neither));
    }
    Ok(pairs)
}

/// The entries of the store that a batch's messages are read as with.
const STORE: usize = 16_384;

/// A message of a batch: its key, its first byte's place and the place behind it.
struct Nightly {
    key: [u64; 2],
    from: usize,
    to: usize,
}

fn unfit(table: &Table, fields: [u64; 2]) -> bool {
    let root = &table.nodes[table.root];
    let is_of =
        |field: u64, kind: u8| field < root.kids.len() as u64 && table.nodes[root.kids[field as usize]].kind == kind;
    root.kind != table::STRUCT || !is_of(fields[0], table::U32) || !is_of(fields[1], table::U64)
}

/// Reads messages from the first byte to the last, each field by field, so that a key field's entry is the first that it
/// makes.
fn nightly(table: &Table, m: &[u8], fields: [u64; 2]) -> Result<Vec<Nightly>, Refusal> {
    let (mut all, mut from) = (vec![], 0);
    while from < m.len() {
        let mut reader = Reader { table, room: STORE, strict: false, entries: vec![] };
        let (_, mut to) = reader.head(table.root, m, from)?;
        let mut key = [0; 2];
        for (field, &kid) in table.nodes[table.root].kids.iter().enumerate() {
            let first = reader.entries.len();
            to = reader.item(kid, m, to)?;
            for i in 0..2 {
                if fields[i] == field as u64 {
                    key[i] = reader.entries[first][0];
                }
            }
        }
        all.push(Nightly { key, from, to });
        from = to;
    }
    Ok(all)
}

pub fn batch_write(file: &[u8], messages: &[u8], fields: [u64; 2], out_len: usize) -> Result<Vec<u8>, Refusal> {
    let table = Table::parse(file)?;
    if unfit(&table, fields) {
        return Err(Refusal { no: 17, place: 0 });
    }
    let all = nightly(&table, messages, fields)?;
    let most = u64::from(u32::MAX);
    if 16 * all.len() as u64 > most || all.iter().any(|message| message.from as u64 > most) {
        return Err(Refusal { no: 18, place: 0 });
    }
    let rows = all.iter().map(|m| [m.key[0], m.key[1], m.from as u64]).collect();
    let batch = with_index(messages.to_vec(), rows, fields);
    if batch.len() > out_len {
        return Err(Refusal { no: 12, place: 0 });
    }
    Ok(batch)
}

/// Messages with their rows, which need not be in order yet, and the trailer.
fn with_index(mut batch: Vec<u8>, mut rows: Vec<[u64; 3]>, fields: [u64; 2]) -> Vec<u8> {
    rows.sort_by_key(|&[store, product, offset]| (store, product, offset));
    let mut put = |x: u64, len: usize| batch.extend(&x.to_le_bytes()[..len]);
    for &[store, product, offset] in &rows {
        put(store, 4);
        put(product, 8);
        put(offset, 4);
    }
    put(rows.len() as u64, 4);
    put(16 * rows.len() as u64, 4);
    put(fields[0], 2);
    put(fields[1], 2);
    batch
}

/// A batch whose trailer is good: where the rows begin, the rows (store, product, offset), and the key fields.
struct Index {
    start: usize,
    rows: Vec<[u64; 3]>,
    fields: [u64; 2],
}

fn index(table: &Table, batch: &[u8]) -> Result<Index, Refusal> {
    let bad = Refusal { no: 18, place: 0 };
    if batch.len() < 12 {
        return Err(bad);
    }
    let end = batch.len() - 12;
    let little = |p: usize, len: usize| batch[p..p + len].iter().rev().fold(0, |x, &b| x * 256 + u64::from(b));
    let (count, distance) = (little(end, 4), little(end + 4, 4));
    let fields = [little(end + 8, 2), little(end + 10, 2)];
    if unfit(table, fields) {
        return Err(Refusal { no: 17, place: 0 });
    }
    if distance != 16 * count || distance > end as u64 {
        return Err(bad);
    }
    let start = end - distance as usize;
    let rows = (start..end).step_by(16).map(|p| [little(p, 4), little(p + 4, 8), little(p + 12, 4)]).collect();
    Ok(Index { start, rows, fields })
}

/// The messages, if each has one row with its own key and offset, and the rows stand in order; else none.
fn indexed(table: &Table, batch: &[u8], index: &Index) -> Option<Vec<Nightly>> {
    let all = nightly(table, &batch[..index.start], index.fields).ok()?;
    let ordered = index.rows.windows(2).all(|two| two[0] <= two[1]);
    let own = |m: &Nightly| index.rows.contains(&[m.key[0], m.key[1], m.from as u64]);
    (ordered && index.rows.len() == all.len() && all.iter().all(own)).then_some(all)
}

pub fn batch_check(file: &[u8], batch: &[u8]) -> Result<(), Refusal> {
    let table = Table::parse(file)?;
    let index = index(&table, batch)?;
    indexed(&table, batch, &index).map(drop).ok_or(Refusal { no: 18, place: 0 })
}

/// None where the documents don't fix the answer.
pub fn batch_last(file: &[u8], batch: &[u8], store: u64, product: u64) -> Option<Result<Range<usize>, Refusal>> {
    let refused = |no: u8| Some(Err(Refusal { no, place: 0 }));
    let table = match Table::parse(file) {
        Ok(table) => table,
        Err(refusal) => return Some(Err(refusal)),
    };
    let index = match index(&table, batch) {
        Ok(index) => index,
        Err(refusal) => return Some(Err(refusal)),
    };
    let found = index.rows.iter().rfind(|row| row[..2] == [store, product]);
    let Some(all) = indexed(&table, batch, &index) else {
        let behind = found.is_some_and(|row| row[2] >= index.start as u64);
        let ordered = index.rows.windows(2).all(|two| two[0] <= two[1]);
        return if store >> 32 > 0 {
            refused(19)
        } else if ordered && behind {
            refused(18)
        } else {
            None
        };
    };
    let Some(&[.., offset]) = found else { return refused(19) };
    let message = all.iter().find(|message| message.from as u64 == offset).expect("each row has its message");
    Some(Ok(message.from..message.to))
}

pub fn batch_compact(file: &[u8], batch: &[u8], out_len: usize) -> Result<Vec<u8>, Refusal> {
    let table = Table::parse(file)?;
    let index = index(&table, batch)?;
    let all = indexed(&table, batch, &index).ok_or(Refusal { no: 18, place: 0 })?;
    // Rows of one key stand together, and its last message's row is the last of them.
    let mut kept: Vec<[u64; 3]> = vec![];
    for (i, row) in index.rows.iter().enumerate() {
        if index.rows.get(i + 1).is_none_or(|next| next[..2] != row[..2]) {
            kept.push(*row);
        }
    }
    kept.sort_by_key(|row| row[2]);
    let (mut messages, mut rows) = (vec![], vec![]);
    for [store, product, offset] in kept {
        rows.push([store, product, messages.len() as u64]);
        let message = all.iter().find(|message| message.from as u64 == offset).expect("each kept row has its message");
        messages.extend(&batch[message.from..message.to]);
    }
    let compacted = with_index(messages, rows, index.fields);
    if compacted.len() > out_len {
        return Err(Refusal { no: 12, place: 0 });
    }
    Ok(compacted)
}

/// The kinds of a row's fields, or 20.
fn columns(table: &Table) -> Result<Vec<u8>, Refusal> {
    let root = &table.nodes[table.root];
    let kinds: Vec<u8> = root.kids.iter().map(|&kid| table.nodes[kid].kind).collect();
    let is_struct = root.kind == table::STRUCT;
    if !is_struct || kinds.len() > 1_024 || kinds.iter().any(|&kind| (14..20).contains(&kind)) {
        return Err(Refusal { no: 20, place: 0 });
    }
    Ok(kinds)
}

/// How many bytes a number of a kind has, and whether it may be below zero.
fn column(kind: u8) -> (u32, bool) {
    match kind {
        table::BOOL => (0, false),
        table::I8..=table::I64 => (1 << (kind - table::I8), true),
        table::U8..=table::U64 => (1 << (kind - table::U8), false),
        table::F32 | table::F64 => (4 << (kind - table::F32), false),
        _ => (2 << ((kind - 20) % 3), (kind - 20) % 6 < 3),
    }
}

fn decimal(mut x: u64, row: &mut Vec<u8>) {
    let from = row.len();
    loop {
        row.insert(from, b'0' + (x % 10) as u8);
        x /= 10;
        if x == 0 {
            return;
        }
    }
}

fn quoted(content: &[u8], row: &mut Vec<u8>) {
    row.push(b'"');
    for &b in content {
        row.push(b);
        if b == b'"' {
            row.push(b);
        }
    }
    row.push(b'"');
}

pub fn csv_export(file: &[u8], message: &[u8], out_len: usize) -> Result<Vec<u8>, Refusal> {
    let table = Table::parse(file)?;
    let kinds = columns(&table)?;
    let ReadAnswer { no, place, entries, .. } = read(file, message, 3 * STORE);
    if no != 0 {
        return Err(Refusal { no, place });
    }
    let mut row = vec![];
    for (i, &kind) in kinds.iter().enumerate() {
        if i > 0 {
            row.push(b',');
        }
        let [w0, w1, _] = entries[i + 1];
        match kind {
            table::CHAR => quoted(&encode_char(w0 as u32), &mut row),
            table::STR => quoted(&message[w0 as usize..(w0 + w1) as usize], &mut row),
            table::BYTES => {
                row.push(b'"');
                for &b in &message[w0 as usize..(w0 + w1) as usize] {
                    row.extend([b >> 4, b & 15].map(|half| b"0123456789abcdef"[half as usize]));
                }
                row.push(b'"');
            }
            _ if column(kind).1 && w0 >> 63 == 1 => {
                row.push(b'-');
                decimal(w0.wrapping_neg(), &mut row);
            }
            _ => decimal(w0, &mut row),
        }
    }
    row.extend(*b"\r\n");
    if row.len() > out_len {
        return Err(Refusal { no: 12, place: 0 });
    }
    Ok(row)
}

/// A row that is read byte by byte; where a byte can't stand there, or is missing, is 21.
struct Cells<'r> {
    row: &'r [u8],
    at: usize,
}

impl Cells<'_> {
    fn here(&self) -> Option<u8> {
        self.row.get(self.at).copied()
    }
    /// Passes over a byte that fits.
    fn next(&mut self, fits: impl Fn(u8) -> bool) -> Result<u8, Refusal> {
        let b = self.here().filter(|&b| fits(b)).ok_or(Refusal { no: 21, place: self.at })?;
        self.at += 1;
        Ok(b)
    }
    fn digit(&mut self, least: u8) -> Result<u128, Refusal> {
        Ok(u128::from(self.next(|b| (least..=b'9').contains(&b))? - b'0'))
    }
    fn number(&mut self, kind: u8) -> Result<u64, Refusal> {
        let (len, signed) = column(kind);
        let below = signed && self.here() == Some(b'-');
        if below {
            self.at += 1;
        }
        let most = match (len, signed) {
            (0, _) => 1,
            (_, false) => (1u128 << (8 * len)) - 1,
            (_, true) => (1u128 << (8 * len - 1)) - u128::from(!below),
        };
        let mut x = 0;
        let mut first = true;
        while first || x > 0 && self.here().is_some_and(|b| b.is_ascii_digit()) {
            let place = self.at;
            x = 10 * x + self.digit(if first && below { b'1' } else { b'0' })?;
            if x > most {
                return Err(Refusal { no: 21, place });
            }
            first = false;
        }
        Ok(if below { (x as u64).wrapping_neg() } else { x as u64 })
    }
    /// One char of a quoted field; at the quote that closes it none, and that quote is passed over.
    fn char(&mut self) -> Result<Option<u32>, Refusal> {
        let b = self.next(|b| lead(b) > 0)?;
        if b == b'"' {
            if self.here() != Some(b'"') {
                return Ok(None);
            }
            self.at += 1;
            return Ok(Some(u32::from(b)));
        }
        let (from, width) = (self.at - 1, lead(b));
        for i in 1..width {
            // Some bytes behind these must make it a char.
            let front = &self.row[from..self.at];
            let ends: [&[u8]; 3] = [&[0x80, 0x80], &[0xBF, 0xBF], &[]];
            let goes_on = |b: u8| {
                ends.iter()
                    .any(|end| first_char(&[front, &[b], &end[..(width - 1 - i).min(end.len())]].concat()).is_some())
            };
            self.next(goes_on)?;
        }
        Ok(first_char(&self.row[from..self.at]).map(|(code, _)| code))
    }
    fn hex(&mut self) -> Result<Vec<u8>, Refusal> {
        let half = |b: u8| b"0123456789abcdef".iter().position(|&digit| digit == b);
        let mut bytes = vec![];
        loop {
            let high = self.next(|b| b == b'"' || half(b).is_some())?;
            let Some(high) = half(high) else { return Ok(bytes) };
            let low = self.next(|b| half(b).is_some())?;
            bytes.push((16 * high + half(low).expect("a digit")) as u8);
        }
    }
    /// A field's wire form.
    fn field(&mut self, kind: u8) -> Result<Vec<u8>, Refusal> {
        let (table, mut pool) = (Table::leaf(kind), vec![]);
        let word = match kind {
            table::CHAR | table::STR | table::BYTES => {
                self.next(|b| b == b'"')?;
                match kind {
                    table::CHAR => {
                        let behind = self.at + 1;
                        let code = self.char()?.ok_or(Refusal { no: 21, place: behind })?;
                        self.next(|b| b == b'"')?;
                        u64::from(code)
                    }
                    table::STR => {
                        while let Some(code) = self.char()? {
                            pool.extend(encode_char(code));
                        }
                        0
                    }
                    _ => {
                        pool = self.hex()?;
                        0
                    }
                }
            }
            _ => self.number(kind)?,
        };
        Ok(write_good(&table, &[[word, pool.len() as u64, 0]], &pool, &mut Plain))
    }
}

pub fn csv_import(file: &[u8], row: &[u8], out_len: usize) -> Result<Vec<u8>, Refusal> {
    let kinds = columns(&Table::parse(file)?)?;
    let mut cells = Cells { row, at: 0 };
    let mut message = vec![];
    for (i, &kind) in kinds.iter().enumerate() {
        if i > 0 {
            cells.next(|b| b == b',')?;
        }
        message.extend(cells.field(kind)?);
    }
    cells.next(|b| b == b'\r')?;
    cells.next(|b| b == b'\n')?;
    if cells.at < row.len() {
        return Err(Refusal { no: 21, place: cells.at });
    }
    if message.len() > out_len {
        return Err(Refusal { no: 12, place: 0 });
    }
    Ok(message)
}

/// The shortest varint.
pub fn shortest(mut value: u64) -> Vec<u8> {
    let mut out = vec![];
    while value >= 128 {
        out.push(value as u8 | 0x80);
        value >>= 7;
    }
    out.push(value as u8);
    out
}

/// How a list is put on the wire; the generator has a style of its own for odd forms.
pub trait Style {
    fn varint(&mut self, _width: Width, value: u64) -> Vec<u8> {
        shortest(value)
    }
    fn char(&mut self, code: u32) -> Vec<u8> {
        let utf8 = encode_char(code);
        let mut out = self.varint(W64, utf8.len() as u64);
        out.extend(utf8);
        out
    }
}

pub struct Plain;
impl Style for Plain {}

pub fn encode_char(c: u32) -> Vec<u8> {
    let tail = |shift: u32| 0x80 | (c >> shift & 0x3F) as u8;
    match c {
        0..=0x7F => vec![c as u8],
        0x80..=0x7FF => vec![0xC0 | (c >> 6) as u8, tail(0)],
        0x800..=0xFFFF => vec![0xE0 | (c >> 12) as u8, tail(6), tail(0)],
        _ => vec![0xF0 | (c >> 18) as u8, tail(12), tail(6), tail(0)],
    }
}

/// Writes a list that fits.
pub fn write_good(table: &Table, entries: &[Entry], pool: &[u8], style: &mut impl Style) -> Vec<u8> {
    let mut out = vec![];
    let mut left = entries;
    put(table, table.root, &mut left, pool, style, &mut out);
    out
}

fn put(t: &Table, node: usize, left: &mut &[Entry], pool: &[u8], style: &mut impl Style, out: &mut Vec<u8>) {
    let node = &t.nodes[node];
    let [w0, w1, _] = left[0];
    *left = &left[1..];
    let zigzag = if (w0 as i64) < 0 { (w0.wrapping_neg() - 1) * 2 + 1 } else { w0 * 2 };
    let little = w0.to_le_bytes();
    match node.kind {
        table::BOOL | table::OPTION | table::I8 | table::U8 => out.push(w0 as u8),
        table::I16 => out.extend(style.varint(W16, zigzag)),
        table::I32 => out.extend(style.varint(W32, zigzag)),
        table::I64 => out.extend(style.varint(W64, zigzag)),
        table::U16 => out.extend(style.varint(W16, w0)),
        table::U32 | table::ENUM => out.extend(style.varint(W32, w0)),
        table::U64 | table::SEQ | table::MAP => out.extend(style.varint(W64, w0)),
        table::F32 => out.extend(&little[..4]),
        table::F64 => out.extend(little),
        table::CHAR => out.extend(style.char(w0 as u32)),
        table::STR | table::BYTES => {
            out.extend(style.varint(W64, w1));
            out.extend(&pool[w0 as usize..(w0 + w1) as usize]);
        }
        table::UNIT | table::STRUCT => {}
        kind => {
            let len = [2, 4, 8][usize::from((kind - 20) % 3)];
            let mut bytes = little[..len].to_vec();
            if kind >= 26 {
                bytes.reverse();
            }
            out.extend(bytes);
        }
    }
    match node.kind {
        table::OPTION if w0 == 0 => {}
        table::SEQ | table::MAP => {
            for _ in 0..w0 {
                for &k in &node.kids {
                    put(t, k, left, pool, style, out);
                }
            }
        }
        table::ENUM => put(t, node.kids[w0 as usize], left, pool, style, out),
        _ => {
            for &k in &node.kids {
                put(t, k, left, pool, style, out);
            }
        }
    }
}

pub fn write(file: &[u8], words: &[u64], pool: &[u8], out_len: usize) -> Result<Vec<u8>, Refusal> {
    let table = Table::parse(file)?;
    if words.len() % 3 != 0 {
        return Err(Refusal { no: 11, place: words.len() / 3 });
    }
    let entries: Vec<Entry> = words.chunks(3).map(|w| [w[0], w[1], 0]).collect();
    crate::write::fit(&table, &entries, pool)?;
    let wire = write_good(&table, &entries, pool, &mut Plain);
    if wire.len() > out_len {
        return Err(Refusal { no: 12, place: 0 });
    }
    Ok(wire)
}
