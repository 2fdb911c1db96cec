//! The night batch (T-08): the crate reads the messages from the front, each as with a store of 16,384 entries, and rows
//! and trailer are laid out from what it read. A batch is good if it comes out as it was. Compacted (T-13) it is written
//! of the messages that no later one has the key of.

use crate::table::{Table, STRUCT, U32, U64};
use crate::{read, Entry, Refusal, ENTRIES};
use core::ops::Range;
use core::slice::Iter;

/// A store and a product.
pub type Key = (u32, u64);

/// A row of the index, in the order in which rows are sorted: by store, then product, then offset.
#[derive(Clone, Copy, Debug, PartialEq, Eq, PartialOrd, Ord)]
pub struct Row {
    pub key: Key,
    pub offset: u32,
}

impl Row {
    pub const LEN: usize = 16;

    pub fn bytes(&self) -> [u8; Row::LEN] {
        let mut bytes = [0; Row::LEN];
        bytes[..4].copy_from_slice(&self.key.0.to_le_bytes());
        bytes[4..12].copy_from_slice(&self.key.1.to_le_bytes());
        bytes[12..].copy_from_slice(&self.offset.to_le_bytes());
        bytes
    }

    fn of(bytes: &[u8]) -> Row {
        let number = |part: Range<usize>| bytes[part].iter().rev().fold(0, |x, &b| x << 8 | u64::from(b));
        Row { key: (number(0..4) as u32, number(4..12)), offset: number(12..16) as u32 }
    }
}

/// The last bytes of a batch, with the two key fields' places in the root struct.
#[derive(Clone, Copy, Debug, PartialEq, Eq)]
pub struct Trailer {
    pub count: u32,
    pub distance: u32,
    pub fields: [u16; 2],
}

impl Trailer {
    pub const LEN: usize = 12;

    pub fn bytes(&self) -> [u8; Trailer::LEN] {
        let mut bytes = [0; Trailer::LEN];
        bytes[..4].copy_from_slice(&self.count.to_le_bytes());
        bytes[4..8].copy_from_slice(&self.distance.to_le_bytes());
        bytes[8..10].copy_from_slice(&self.fields[0].to_le_bytes());
        bytes[10..].copy_from_slice(&self.fields[1].to_le_bytes());
        bytes
    }

    fn of(bytes: &[u8]) -> Trailer {
        let wide = |p: usize| u32::from_le_bytes(bytes[p..p + 4].try_into().expect("four bytes"));
        let narrow = |p: usize| u16::from_le_bytes([bytes[p], bytes[p + 1]]);
        Trailer { count: wide(0), distance: wide(4), fields: [narrow(8), narrow(10)] }
    }
}

pub const UNFIT: Refusal = Refusal { no: 17, place: 0 };
pub const BAD: Refusal = Refusal { no: 18, place: 0 };
pub const NO_KEY: Refusal = Refusal { no: 19, place: 0 };
pub const FULL: Refusal = Refusal { no: 12, place: 0 };

/// Whether the two are places in the root struct, of kinds 7 and 8.
pub fn fit(table: &Table, fields: [u64; 2]) -> bool {
    let root = &table.nodes[table.root];
    root.kind == STRUCT
        && fields.iter().zip([U32, U64]).all(|(&field, kind)| {
            let kid = usize::try_from(field).ok().and_then(|field| root.kids.get(field));
            kid.is_some_and(|&kid| table.nodes[kid].kind == kind)
        })
}

/// Where the entries of the root struct's fields stand among a message's.
pub fn spots(table: &Table, entries: &[Entry]) -> Vec<usize> {
    let mut left = entries[1..].iter();
    let kids = &table.nodes[table.root].kids;
    kids.iter()
        .map(|&kid| {
            let spot = entries.len() - left.len();
            pass(table, kid, &mut left);
            spot
        })
        .collect()
}

/// Passes over the entries of an item and of what is inside it.
fn pass(table: &Table, node: usize, entries: &mut Iter<Entry>) {
    let [w0, ..] = entries.next().expect("a message that was read has every item");
    let (rounds, kids) = table.nodes[node].behind(*w0);
    for _ in 0..rounds {
        for &kid in kids {
            pass(table, kid, entries);
        }
    }
}

/// A message's key, and its bytes' places.
struct Message {
    key: Key,
    at: Range<usize>,
}

/// Reads messages from the first byte to the last. A refusal's place is counted from the first.
fn messages(table: &Table, bytes: &[u8], [store, product]: [u64; 2]) -> Result<Vec<Message>, Refusal> {
    let (mut found, mut at) = (vec![], 0);
    while at < bytes.len() {
        let got = read::read_good(table, &bytes[at..], ENTRIES, Vec::new());
        if got.no != 0 {
            return Err(Refusal { no: got.no, place: at + got.place });
        }
        let spots = spots(table, &got.entries);
        let word = |field: u64| got.entries[spots[field as usize]][0];
        let key = (word(store) as u32, word(product));
        found.push(Message { key, at: at..at + got.place });
        at += got.place;
    }
    Ok(found)
}

/// Messages with their rows and trailer; none if an offset, the count or the distance doesn't fit its field.
fn laid_out(bytes: &[u8], messages: &[Message], fields: [u64; 2]) -> Option<Vec<u8>> {
    let row = |m: &Message| Some(Row { key: m.key, offset: u32::try_from(m.at.start).ok()? });
    let mut rows = messages.iter().map(row).collect::<Option<Vec<Row>>>()?;
    rows.sort();
    let count = u32::try_from(rows.len()).ok()?;
    let distance = u32::try_from(Row::LEN * rows.len()).ok()?;
    let trailer = Trailer { count, distance, fields: fields.map(|field| field as u16) };
    let rows: Vec<u8> = rows.iter().flat_map(Row::bytes).collect();
    Some([bytes, &rows, &trailer.bytes()].concat())
}

/// A batch of messages that are laid end to end, in an output of so many bytes.
pub fn write(file: &[u8], bytes: &[u8], fields: [u64; 2], out_len: usize) -> Result<Vec<u8>, Refusal> {
    let table = Table::parse(file)?;
    if !fit(&table, fields) {
        return Err(UNFIT);
    }
    let batch = laid_out(bytes, &messages(&table, bytes, fields)?, fields).ok_or(BAD)?;
    if batch.len() > out_len {
        return Err(FULL);
    }
    Ok(batch)
}

/// Where the rows begin, and the key fields, of a batch whose trailer is good.
fn trailer(table: &Table, batch: &[u8]) -> Result<(usize, [u64; 2]), Refusal> {
    let end = batch.len().checked_sub(Trailer::LEN).ok_or(BAD)?;
    let Trailer { count, distance, fields } = Trailer::of(&batch[end..]);
    let fields = fields.map(u64::from);
    if !fit(table, fields) {
        return Err(UNFIT);
    }
    if u64::from(distance) != Row::LEN as u64 * u64::from(count) {
        return Err(BAD);
    }
    Ok((end.checked_sub(distance as usize).ok_or(BAD)?, fields))
}

/// The messages of a good batch, and its key fields.
fn checked(table: &Table, batch: &[u8]) -> Result<(Vec<Message>, [u64; 2]), Refusal> {
    let (rows, fields) = trailer(table, batch)?;
    let messages = messages(table, &batch[..rows], fields).map_err(|_| BAD)?;
    let again = laid_out(&batch[..rows], &messages, fields).ok_or(BAD)?;
    if again != batch {
        return Err(BAD);
    }
    Ok((messages, fields))
}

/// The whole check.
pub fn check(file: &[u8], batch: &[u8]) -> Result<(), Refusal> {
    checked(&Table::parse(file)?, batch).map(drop)
}

/// The last message of a store and product: its bytes' places in the batch. None where the documents don't fix the
/// answer: the trailer is good and the batch is bad, but for rows in order that lead to an offset not before them.
pub fn last(file: &[u8], batch: &[u8], store: u64, product: u64) -> Option<Result<Range<usize>, Refusal>> {
    let given = Table::parse(file).and_then(|table| Ok((trailer(&table, batch)?, table)));
    let ((rows, _), table) = match given {
        Ok(given) => given,
        Err(refusal) => return Some(Err(refusal)),
    };
    let Ok(store) = u32::try_from(store) else { return Some(Err(NO_KEY)) };
    let key = (store, product);
    if let Ok((messages, _)) = checked(&table, batch) {
        let found = messages.into_iter().filter(|message| message.key == key).last();
        return Some(found.map(|message| message.at).ok_or(NO_KEY));
    }
    let index: Vec<Row> = batch[rows..batch.len() - Trailer::LEN].chunks(Row::LEN).map(Row::of).collect();
    let found = index.iter().filter(|row| row.key == key).last()?;
    (index.is_sorted() && found.offset as usize >= rows).then_some(Err(BAD))
}

/// A batch of each key's last message only, in the old order, in an output of so many bytes.
pub fn compact(file: &[u8], batch: &[u8], out_len: usize) -> Result<Vec<u8>, Refusal> {
    let (messages, fields) = checked(&Table::parse(file)?, batch)?;
    let is_last = |i: usize| messages[i + 1..].iter().all(|later| later.key != messages[i].key);
    let kept = (0..messages.len()).filter(|&i| is_last(i)).map(|i| &batch[messages[i].at.clone()]);
    write(file, &kept.collect::<Vec<&[u8]>>().concat(), fields, out_len)
}
