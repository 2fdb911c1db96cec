//! Night batches of a million messages of T, beside plain Rust over the same bytes. That has no table: it knows T's types
//! and reads their varints by hand.
use crate::timing::{few, side};
use oracle_driver::model::shortest;
use oracle_driver::rng::Rng;
use reystavem::samples::TABLE_T;
use std::hint::black_box;

const MESSAGES: usize = 1_000_000;
const ROW: usize = 16;
const TRAILER: usize = 12;

type Key = (u32, u64);

#[derive(Clone, Copy, PartialEq, Eq, PartialOrd, Ord)]
struct Row {
    key: Key,
    offset: u32,
}

impl Row {
    #[inline]
    fn of(bytes: &[u8]) -> Row {
        let [store, offset] = [0, 12].map(|p| u32::from_le_bytes(bytes[p..p + 4].try_into().expect("four bytes")));
        let product = u64::from_le_bytes(bytes[4..12].try_into().expect("eight bytes"));
        Row { key: (store, product), offset }
    }

    #[inline]
    fn put(&self, bytes: &mut [u8]) {
        bytes[..4].copy_from_slice(&self.key.0.to_le_bytes());
        bytes[4..12].copy_from_slice(&self.key.1.to_le_bytes());
        bytes[12..].copy_from_slice(&self.offset.to_le_bytes());
    }
}

/// A varint of at most so many bytes whose last is at most so large; and how many bytes it has.
#[inline]
fn varint<const MOST: usize, const LAST: u8>(bytes: &[u8]) -> Option<(u64, usize)> {
    let mut value = 0;
    for i in 0..MOST {
        let &byte = bytes.get(i)?;
        value |= u64::from(byte & 0x7f) << (7 * i);
        if byte < 0x80 {
            return (i + 1 < MOST || byte <= LAST).then_some((value, i + 1));
        }
    }
    None
}

/// The key of the message that comes first, and how many bytes the message has.
#[inline]
fn message(bytes: &[u8]) -> Option<(Key, usize)> {
    let (store, a) = varint::<5, 15>(bytes)?;
    let (product, b) = varint::<10, 1>(&bytes[a..])?;
    let (_, c) = varint::<5, 15>(&bytes[a + b..])?;
    Some(((store as u32, product), a + b + c))
}

/// The rows of messages laid end to end, as they come.
fn rows_of(messages: &[u8]) -> Option<Vec<Row>> {
    let (mut rows, mut at) = (vec![], 0);
    while at < messages.len() {
        let (key, len) = message(&messages[at..])?;
        rows.push(Row { key, offset: u32::try_from(at).ok()? });
        at += len;
    }
    Some(rows)
}

/// Puts rows and a trailer behind the first bytes of an output; how many bytes there are then.
fn put_index(out: &mut [u8], at: usize, rows: &[Row]) -> usize {
    let end = at + ROW * rows.len();
    for (row, bytes) in rows.iter().zip(out[at..end].chunks_exact_mut(ROW)) {
        row.put(bytes);
    }
    out[end..end + 4].copy_from_slice(&(rows.len() as u32).to_le_bytes());
    out[end + 4..end + 8].copy_from_slice(&((ROW * rows.len()) as u32).to_le_bytes());
    out[end + 8..end + 12].copy_from_slice(&[0, 0, 1, 0]);
    end + TRAILER
}

fn write(messages: &[u8], out: &mut [u8]) -> Option<usize> {
    let mut rows = rows_of(messages)?;
    if messages.len() + ROW * rows.len() + TRAILER > out.len() {
        return None;
    }
    rows.sort_unstable();
    out[..messages.len()].copy_from_slice(messages);
    Some(put_index(out, messages.len(), &rows))
}

/// A batch's messages and its rows.
fn parts(batch: &[u8]) -> Option<(&[u8], &[u8])> {
    let (body, trailer) = batch.split_at_checked(batch.len().checked_sub(TRAILER)?)?;
    let [count, distance] = [0, 4].map(|p| u32::from_le_bytes(trailer[p..p + 4].try_into().expect("four bytes")));
    if distance as usize != ROW * count as usize || trailer[8..] != [0, 0, 1, 0] {
        return None;
    }
    body.split_at_checked(body.len().checked_sub(distance as usize)?)
}

/// Whether sorting the messages' rows anew gives the batch's.
fn check_by_sorting(batch: &[u8]) -> Option<()> {
    let (messages, index) = parts(batch)?;
    let mut rows = rows_of(messages)?;
    rows.sort_unstable();
    (ROW * rows.len() == index.len()).then_some(())?;
    rows.iter().zip(index.chunks_exact(ROW)).all(|(row, bytes)| *row == Row::of(bytes)).then_some(())
}

/// Whether the batch's rows rise, are as many as the messages, and each is that of the message that it leads to.
fn check_by_following(batch: &[u8]) -> Option<()> {
    let (messages, index) = parts(batch)?;
    let mut starts = vec![false; messages.len()];
    let (mut count, mut at) = (0, 0);
    while at < messages.len() {
        starts[at] = true;
        count += 1;
        at += message(&messages[at..])?.1;
    }
    (ROW * count == index.len()).then_some(())?;
    let mut before = None;
    for row in index.chunks_exact(ROW).map(Row::of) {
        let offset = row.offset as usize;
        let own = starts.get(offset) == Some(&true) && message(&messages[offset..])?.0 == row.key;
        (own && before < Some(row)).then_some(())?;
        before = Some(row);
    }
    Some(())
}

fn last(batch: &[u8], key: Key) -> Option<&[u8]> {
    let (messages, index) = parts(batch)?;
    let row = |i: usize| Row::of(&index[ROW * i..ROW * i + ROW]);
    // The first row behind the key's.
    let (mut low, mut high) = (0, index.len() / ROW);
    while low < high {
        let middle = low + (high - low) / 2;
        if row(middle).key <= key {
            low = middle + 1;
        } else {
            high = middle;
        }
    }
    let found = row(low.checked_sub(1)?);
    let bytes = messages.get(found.offset as usize..).filter(|_| found.key == key)?;
    Some(&bytes[..message(bytes)?.1])
}

/// Of a batch that was checked. A key's last row is kept; kept rows stay in order, and only their offsets change.
fn compact(batch: &[u8], out: &mut [u8]) -> Option<usize> {
    check_by_following(batch)?;
    let (messages, index) = parts(batch)?;
    let rows: Vec<Row> = index.chunks_exact(ROW).map(Row::of).collect();
    let goes = |i: usize| rows.get(i + 1).is_some_and(|next| next.key == rows[i].key);
    let mut kept: Vec<Row> = (0..rows.len()).filter(|&i| !goes(i)).map(|i| rows[i]).collect();
    let mut order: Vec<(u32, u32)> = kept.iter().zip(0..).map(|(row, i)| (row.offset, i)).collect();
    order.sort_unstable();
    let mut at = 0;
    for (offset, i) in order {
        let bytes = &messages[offset as usize..];
        let bytes = &bytes[..message(bytes)?.1];
        out.get_mut(at..at + bytes.len())?.copy_from_slice(bytes);
        kept[i as usize].offset = at as u32;
        at += bytes.len();
    }
    (at + ROW * kept.len() + TRAILER <= out.len()).then(|| put_index(out, at, &kept))
}

/// So many random counts of 340 stores' products.
fn night(products: usize) -> Vec<u8> {
    let mut rng = Rng(1);
    let mut messages = vec![];
    for _ in 0..MESSAGES {
        let (store, product, count) = (1 + rng.below(340), 10_000_000 + rng.below(products), rng.below(400));
        for value in [store, product, count] {
            messages.extend(shortest(value as u64));
        }
    }
    messages
}

fn row(name: &str, unit: f64, [ours, plain]: [f64; 2]) {
    println!("| {name} | {:.1} | {:.1} | {:.2} |", ours / unit, plain / unit, ours / plain);
}

/// Nanoseconds of a question, each side asked all of them.
fn searches(name: &str, batch: &[u8], keys: &[Key]) {
    for &(store, product) in keys {
        let ours = reystavem::batch_last(TABLE_T, batch, store.into(), product).ok();
        assert_eq!(ours, last(batch, (store, product)), "{name}");
    }
    let times = few([
        side(|| keys.iter().filter(|key| reystavem::batch_last(TABLE_T, batch, key.0.into(), key.1).is_ok()).count()),
        side(|| keys.iter().filter(|&&key| last(batch, key).is_some()).count()),
    ]);
    row(name, keys.len() as f64, times);
}

/// Of a batch whose products are so few that half of the messages go.
fn compactions() {
    let messages = night(1_845);
    let size = messages.len() + ROW * MESSAGES + TRAILER;
    let mut batch = vec![0; size];
    assert_eq!(reystavem::batch_write(TABLE_T, &messages, 0, 1, &mut batch), Ok(size));
    let (mut out, mut other) = (vec![0; size], vec![0; size]);
    let len = reystavem::batch_compact(TABLE_T, &batch, &mut out).expect("a good batch");
    assert_eq!(compact(&batch, &mut other), Some(len));
    assert!(out == other, "both keep the same");
    let kept = u32::from_le_bytes(out[len - TRAILER..][..4].try_into().expect("four bytes"));
    let times = few([
        side(|| reystavem::batch_compact(TABLE_T, black_box(&batch), &mut out).is_ok()),
        side(|| compact(black_box(&batch), &mut other).is_some()),
    ]);
    row(&format!("compacted, {kept} stay"), 1e6, times);
}

pub fn report() {
    let messages = night(5_000);
    let size = messages.len() + ROW * MESSAGES + TRAILER;
    let (mut batch, mut out) = (vec![0; size], vec![0; size]);
    assert_eq!(reystavem::batch_write(TABLE_T, &messages, 0, 1, &mut batch), Ok(size));
    assert_eq!(write(&messages, &mut out), Some(size));
    assert!(batch == out, "both write the same");
    assert_eq!(reystavem::batch_check(TABLE_T, &batch), Ok(()));
    assert!(check_by_sorting(&batch).is_some() && check_by_following(&batch).is_some());

    println!("| A batch of a million messages of T | ours, ms | plain Rust, ms | ratio |\n|---|---|---|---|");
    let mut other = out.clone();
    let times = few([
        side(|| reystavem::batch_write(TABLE_T, black_box(&messages), 0, 1, &mut out).is_ok()),
        side(|| write(black_box(&messages), &mut other).is_some()),
    ]);
    row("written", 1e6, times);
    let [ours, sorting, following] = few([
        side(|| reystavem::batch_check(TABLE_T, black_box(&batch)).is_ok()),
        side(|| check_by_sorting(black_box(&batch)).is_some()),
        side(|| check_by_following(black_box(&batch)).is_some()),
    ]);
    row("checked, beside rows sorted anew", 1e6, [ours, sorting]);
    row("checked, beside rows followed to their messages", 1e6, [ours, following]);
    compactions();

    println!("\n| A last message of that batch | ours, ns | plain Rust, ns | ratio |\n|---|---|---|---|");
    let mut rng = Rng(2);
    let there: Vec<Key> =
        (0..100_000).map(|_| Row::of(&batch[messages.len() + ROW * rng.below(MESSAGES)..][..ROW]).key).collect();
    searches("there", &batch, &there);
    // Products beyond all that a store has.
    let absent: Vec<Key> = there.iter().map(|&(store, product)| (store, product + 5_000)).collect();
    searches("not there", &batch, &absent);
}
