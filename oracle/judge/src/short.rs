//! Every message of up to two bytes, for each leaf kind and a set of small tables, with stores from no
//! entry to more than enough, and words over, plainly and strictly; every taking from every place; what
//! short paths lead to; every two messages of up to one byte beside each other; and what a batch is written of every
//! message.
use crate::{batches, calls, Tally};
use oracle_driver::table::Table;

/// A table of records (kind, a, b) and a child list, whose root is the last node.
fn table(records: &[(u8, u16, u16)], children: &[u16]) -> Vec<u8> {
    let mut file = Vec::new();
    for (kind, a, b) in records {
        file.extend([*kind, 0]);
        file.extend(a.to_le_bytes());
        file.extend(b.to_le_bytes());
    }
    for child in children {
        file.extend(child.to_le_bytes());
    }
    let (list, nodes) = (2 * children.len() as u16, records.len() as u16);
    for word in [list, 6 * nodes + list, nodes, nodes - 1, 0x5053] {
        file.extend(word.to_le_bytes());
    }
    file
}

/// Each kind that has children, over leaves of no byte, of one byte and of a varint.
fn small_tables() -> Vec<Vec<u8>> {
    let (unit, u8, u16) = (14, 5, 6);
    let mut tables = Vec::new();
    for leaf in [unit, u8, u16] {
        tables.push(table(&[(leaf, 0, 0), (15, 0, 0)], &[]));
        tables.push(table(&[(leaf, 0, 0), (16, 0, 0)], &[]));
        tables.push(table(&[(u8, 0, 0), (leaf, 0, 0), (17, 0, 1)], &[]));
        tables.push(table(&[(leaf, 0, 0), (18, 0, 2)], &[0, 0]));
        tables.push(table(&[(leaf, 0, 0), (19, 0, 2)], &[0, 0]));
        tables.push(table(&[(leaf, 0, 0), (18, 0, 2), (16, 1, 0)], &[0, 0]));
        tables.push(table(&[(leaf, 0, 0), (15, 0, 0), (19, 0, 2), (16, 2, 0)], &[0, 1]));
    }
    tables.push(table(&[(18, 0, 0)], &[]));
    tables
}

fn messages() -> impl Iterator<Item = Vec<u8>> {
    let one = (0..=255u8).map(|a| vec![a]);
    let two = (0..=u16::MAX).map(|w| w.to_be_bytes().to_vec());
    std::iter::once(Vec::new()).chain(one).chain(two)
}

pub fn run() -> Tally {
    let mut tally = Tally::default();
    let leaves = (0..=14).chain(20..=31).map(|kind| Table::leaf(kind).file());
    let tables: Vec<Vec<u8>> = leaves.chain(small_tables()).collect();
    for message in messages() {
        for table in &tables {
            for words in [2, 3, 7, 17] {
                let request = || format!("{table:02x?} {message:02x?}, {words} words");
                tally.note("reading", calls::read(table, &message, words), request);
                tally.note("strict reading", calls::read_strict(table, &message, words).1, request);
            }
            for path in [&[][..], &[0], &[1]] {
                let (kind, outcome) = calls::finding(table, path, &message);
                tally.note(kind, outcome, || format!("{table:02x?} {message:02x?}, path {path:?}"));
            }
        }
        for kind in 0..=33 {
            for place in 0..=message.len() + 1 {
                let outcome = calls::take(kind, &message, place);
                tally.note("taking", outcome, || format!("kind {kind}, {message:02x?} at {place}"));
            }
        }
    }
    let pair = table(&[(7, 0, 0), (8, 0, 0), (18, 0, 2)], &[0, 1]);
    for message in messages() {
        let (kind, outcome) = batches::writing(&pair, &message, [0, 1], 32);
        tally.note(kind, outcome, || format!("{message:02x?}"));
    }
    let short: Vec<Vec<u8>> = messages().take_while(|message| message.len() < 2).collect();
    for table in &tables {
        for one in &short {
            for other in &short {
                let (kind, outcome) = calls::comparing(table, one, other, 3);
                tally.note(kind, outcome, || format!("{table:02x?} {one:02x?} {other:02x?}"));
            }
        }
    }
    tally
}
