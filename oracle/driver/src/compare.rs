//! Two messages side by side (T-05): the crate reads both as with a store of 16,384 entries, and the items that differ are
//! met on a walk along both lists of entries.

use crate::table::{Node, Table, BYTES, STR};
use crate::{read, Entry, Refusal, ENTRIES};
use core::slice::Iter;

/// What a refusal is of: one message, the other, or neither.
#[derive(Clone, Copy, Debug, PartialEq, Eq)]
pub enum Of {
    Neither,
    One,
    Other,
}

/// An item's place in each message.
pub type Pair = [u64; 2];

/// A message, and its entries that are still to come.
struct Side<'m> {
    message: &'m [u8],
    entries: Iter<'m, Entry>,
}

impl Side<'_> {
    fn next(&mut self) -> Entry {
        *self.entries.next().expect("a message that was read has every item")
    }

    fn content(&self, [offset, len, _]: Entry) -> &[u8] {
        &self.message[offset as usize..][..len as usize]
    }

    /// Passes over what is inside an item with such a first word.
    fn pass(&mut self, table: &Table, node: &Node, w0: u64) {
        let (rounds, kids) = node.behind(w0);
        for _ in 0..rounds {
            for &kid in kids {
                let [w0, ..] = self.next();
                self.pass(table, &table.nodes[kid], w0);
            }
        }
    }
}

/// Goes along an item of both messages, and notes where they differ.
fn walk(table: &Table, node: usize, one: &mut Side, other: &mut Side, pairs: &mut Vec<Pair>) {
    let node = &table.nodes[node];
    let (entry, beside) = (one.next(), other.next());
    let same = match node.kind {
        STR | BYTES => one.content(entry) == other.content(beside),
        _ => entry[0] == beside[0],
    };
    if !same {
        pairs.push([entry[2], beside[2]]);
        one.pass(table, node, entry[0]);
        return other.pass(table, node, beside[0]);
    }
    let (rounds, kids) = node.behind(entry[0]);
    for _ in 0..rounds {
        for &kid in kids {
            walk(table, kid, one, other, pairs);
        }
    }
}

/// The public call, with a list of so many words: the pairs that it holds in front.
pub fn compare(file: &[u8], one: &[u8], other: &[u8], list_words: usize) -> Result<Vec<Pair>, (Refusal, Of)> {
    let table = Table::parse(file).map_err(|refusal| (refusal, Of::Neither))?;
    let full = |message, of| {
        let got = read::read_good(&table, message, ENTRIES, Vec::new());
        let refused = (Refusal { no: got.no, place: got.place }, of);
        (got.no == 0).then_some(got.entries).ok_or(refused)
    };
    let (entries, beside) = (full(one, Of::One)?, full(other, Of::Other)?);
    let mut one = Side { message: one, entries: entries.iter() };
    let mut other = Side { message: other, entries: beside.iter() };
    let mut pairs = vec![];
    walk(&table, table.root, &mut one, &mut other, &mut pairs);
    if pairs.len() > list_words / 2 {
        return Err((Refusal { no: 15, place: 0 }, Of::Neither));
    }
    Ok(pairs)
}
