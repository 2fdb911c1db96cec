//! The strict read (T-06): the crate's plain read, and for each item whether the crate writes the bytes that it read.

use crate::table::Table;
use crate::{read, room, write, Entry, ReadAnswer, Refusal};

/// Reads one value of a good table. Where an item's own bytes aren't the ones that the crate writes for its value alone,
/// the first such item is 16 and makes no entry.
///
/// An item's own bytes are all read before its first child begins, so they end where the next item begins. An item that
/// the plain read refuses has no entry, so its own refusal comes before 16.
pub fn read_good<'m>(table: &Table, message: &'m [u8], room: usize) -> ReadAnswer<'m> {
    let mut plain = read::read_good(table, message, room, Vec::new());
    let mut kinds = Vec::with_capacity(plain.entries.len());
    let _ = kinds_of(table, table.root, &mut plain.entries.iter(), &mut kinds);
    let place = |entry: &Entry| entry[2] as usize;
    let ends = plain.entries.iter().skip(1).map(place).chain([plain.place]);
    let mut items = kinds.iter().zip(&plain.entries).zip(ends);
    let longer = items
        .position(|((kind, entry), end)| !write::is_written_so(*kind, *entry, message, &message[place(entry)..end]));
    let Some(first) = longer else { return plain };
    let place = place(&plain.entries[first]);
    plain.entries.truncate(first);
    ReadAnswer { no: 16, place, rest: &[], ..plain }
}

/// The kind of each entry's item, in reading order; None where the entries end before the value does.
fn kinds_of<'e>(
    table: &Table,
    node: usize,
    entries: &mut impl Iterator<Item = &'e Entry>,
    kinds: &mut Vec<u8>,
) -> Option<()> {
    let &[w0, ..] = entries.next()?;
    let node = &table.nodes[node];
    kinds.push(node.kind);
    let (rounds, kids) = node.behind(w0);
    for _ in 0..rounds {
        for &kid in kids {
            kinds_of(table, kid, entries, kinds)?;
        }
    }
    Some(())
}

/// The strict reader's public call, with a store of so many words.
pub fn read<'m>(file: &[u8], message: &'m [u8], store_words: usize) -> ReadAnswer<'m> {
    match Table::parse(file) {
        Ok(table) => read_good(&table, message, room(store_words)),
        Err(Refusal { no, place }) => ReadAnswer { no, place, entries: vec![], rest: &[] },
    }
}
