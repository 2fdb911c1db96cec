//! Batches that no stream has. At the edges of their 32-bit fields, as document 02 says: an offset, a count and a distance
//! that just fit and that just don't; the bytes lent are zero and hardly any of them is looked at, so that they take
//! addresses and no memory. And of many messages, good ones and ones with a row changed. The oracle isn't asked.
use crate::batches::{check_in_c, compact_in_c, last_in_c, write_in_c};
use crate::calls::same;
use crate::Tally;
use oracle_driver::batch::{Row, Trailer};
use oracle_driver::model::shortest;
use oracle_driver::rng::Rng;
use oracle_driver::table::{Node, Table, BYTES, STRUCT, U32, U64};
use std::collections::HashMap;

/// A struct of a store, a product and maybe bytes.
fn table(kinds: &[u8]) -> Vec<u8> {
    let mut nodes: Vec<Node> = kinds.iter().map(|&kind| Node { kind, kids: vec![] }).collect();
    nodes.push(Node { kind: STRUCT, kids: (0..kinds.len()).collect() });
    Table { root: kinds.len(), nodes }.file()
}

/// A message of so many bytes, of store 0 and product 0, with zeros; and behind it these bytes.
fn long(len: usize, behind: &[u8]) -> Vec<u8> {
    let mut message = vec![0; len + behind.len()];
    // Store, product, and five bytes of the length of what follows.
    let count = shortest(len as u64 - 7);
    assert_eq!(count.len(), 5);
    message[2..7].copy_from_slice(&count);
    message[len..].copy_from_slice(behind);
    message
}

fn index(rows: &[Row]) -> Vec<u8> {
    let trailer = Trailer { count: rows.len() as u32, distance: 16 * rows.len() as u32, fields: [0, 1] };
    let rows: Vec<u8> = rows.iter().flat_map(Row::bytes).collect();
    [&rows[..], &trailer.bytes()].concat()
}

/// Messages of at least so many bytes in all, and their rows as they come.
fn many(len: usize, rng: &mut Rng) -> (Vec<u8>, Vec<Row>) {
    let (mut messages, mut rows) = (vec![], vec![]);
    while messages.len() < len {
        let key = (rng.below(50) as u32, rng.below(300) as u64);
        rows.push(Row { key, offset: messages.len() as u32 });
        messages.extend([shortest(key.0.into()), shortest(key.1)].concat());
    }
    (messages, rows)
}

fn batch_of(messages: &[u8], rows: &[Row]) -> Vec<u8> {
    let mut sorted = rows.to_vec();
    sorted.sort_by_key(|row| (row.key, row.offset));
    [messages, &index(&sorted)].concat()
}

/// The batch of each key's last message.
fn kept(messages: &[u8], rows: &[Row]) -> Vec<u8> {
    let last: HashMap<_, _> = rows.iter().map(|row| (row.key, row.offset)).collect();
    let ends = rows[1..].iter().map(|row| row.offset as usize).chain([messages.len()]);
    let (mut stay, mut index) = (vec![], vec![]);
    for (row, end) in rows.iter().zip(ends).filter(|(row, _)| last[&row.key] == row.offset) {
        index.push(Row { key: row.key, offset: stay.len() as u32 });
        stay.extend(&messages[row.offset as usize..end]);
    }
    batch_of(&stay, &index)
}

/// A batch of many messages: written, checked, compacted, and refused once a bit of a row is changed.
fn night(table: &[u8], len: usize, tally: &mut Tally) {
    let rng = &mut Rng(len as u64);
    let (messages, rows) = many(len, rng);
    let what = || format!("{} bytes of messages", messages.len());
    let (mut batch, right) = (batch_of(&messages, &rows), kept(&messages, &rows));
    let mut out = vec![0; batch.len()];
    let ours = write_in_c(table, &messages, [0, 1], &mut out);
    tally.note("batch written", same("answer, and whether it wrote right", (ours, out == batch), ((0, batch.len() as u64), true)), what);
    tally.note("batch checked", same("number and place", check_in_c(table, &batch), (0, 0)), what);
    let ours = compact_in_c(table, &batch, &mut out);
    out.truncate(right.len());
    tally.note("batch compacted", same("answer, and whether it wrote right", (ours, out == right), ((0, right.len() as u64), true)), what);
    for turn in 0..24 {
        // The first and the last row, and some in between.
        let row = [0, rows.len() - 1].get(turn).copied().unwrap_or_else(|| rng.below(rows.len()));
        let (at, bit) = (messages.len() + 16 * row + rng.below(16), 1 << rng.below(8));
        batch[at] ^= bit;
        let ours = (check_in_c(table, &batch), compact_in_c(table, &batch, &mut []));
        tally.note("batch with a row changed", same("numbers and places", ours, ((18, 0), (18, 0))), what);
        batch[at] ^= bit;
    }
}

pub fn run() -> Tally {
    let mut tally = Tally::default();
    let (short, wide) = (table(&[U32, U64]), table(&[U32, U64, BYTES]));
    let (full, bad) = ((12, 0), (18, 0));

    for len in [32_760, 32_768, 32_776, 70_000, 2_097_140, 2_097_152, 2_097_160, 5_000_000] {
        night(&short, len, &mut tally);
    }

    // Two bytes a message. The distance is 2^32 with 2^28 of them.
    for (count, right) in [((1 << 28) - 1, full), (1 << 28, bad)] {
        let ours = write_in_c(&short, &vec![0; 2 * count], [0, 1], &mut []);
        tally.note("batch not written", same("number and place", ours, right), || format!("{count} messages"));
    }

    // A second message, of store 1 and product 1, that begins at just 2^32 - 1, or one byte later.
    let second = [1, 1, 0];
    for (offset, right) in [((1 << 32) - 1, full), (1 << 32, bad)] {
        let ours = write_in_c(&wide, &long(offset, &second), [0, 1], &mut []);
        tally.note("batch not written", same("number and place", ours, right), || format!("a message at {offset}"));
    }
    let first = Row { key: (0, 0), offset: 0 };
    for (offset, right) in [((1 << 32) - 1, (0, 0)), (1 << 32, bad)] {
        let behind = [&second[..], &index(&[first, Row { key: (1, 1), offset: offset as u32 }])].concat();
        let batch = long(offset, &behind);
        let ours = check_in_c(&wide, &batch);
        tally.note("batch checked", same("number and place", ours, right), || format!("a message at {offset}"));
        // Compacting it keeps both messages, for which there is no room.
        let (ours, right) = (compact_in_c(&wide, &batch, &mut []), if right.0 == 0 { full } else { right });
        tally.note("batch compacted", same("number and place", ours, right), || format!("a message at {offset}"));
        if right == full {
            for (store, from, len) in [(0, 0, offset), (1, offset, 3)] {
                let right = (0, [0, from as u64, len as u64]);
                let ours = last_in_c(&wide, &batch, store, store);
                tally.note("last found", same("number, place, from and len", ours, right), || format!("store {store}"));
            }
        }
    }

    // One message longer than any offset.
    let batch = long((1 << 32) + 5, &index(&[first]));
    tally.note("batch checked", same("number and place", check_in_c(&wide, &batch), (0, 0)), || "one".into());
    let right = (0, [0, 0, (1 << 32) + 5]);
    let ours = last_in_c(&wide, &batch, 0, 0);
    tally.note("last found", same("number, place, from and len", ours, right), || "one".into());
    tally
}
