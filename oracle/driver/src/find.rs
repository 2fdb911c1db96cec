//! One item by its path (T-02): the crate reads the whole message as with a store of 16,384 entries, and the item's entry
//! is looked up among those that it made.

use crate::table::{Table, OPTION, STRUCT};
use crate::{read, Entry, Refusal, ENTRIES};
use core::slice::Iter;

/// Whether the path leads through structs and options to an item of kind 0 to 13 or 20 to 31. The table alone says so.
pub fn leads(table: &Table, path: &[u64]) -> bool {
    let end = path.iter().try_fold(table.root, |node, &position| {
        let node = &table.nodes[node];
        let enters = matches!(node.kind, STRUCT | OPTION);
        node.kids.get(usize::try_from(position).ok()?).copied().filter(|_| enters)
    });
    end.is_some_and(|node| matches!(table.nodes[node].kind, 0..=13 | 20..=31))
}

/// Where looking for an item ends.
enum End {
    Found(Entry),
    /// At an option on the path, which stands there.
    Absent(usize),
    /// The entries end before the item.
    Before,
}

/// Passes over the entries of an item and of what is inside it. `path` leads on from it, if it is on the path.
fn pass(table: &Table, node: usize, path: Option<&[u64]>, entries: &mut Iter<Entry>) -> Result<(), End> {
    let &entry = entries.next().ok_or(End::Before)?;
    let [w0, _, place] = entry;
    let node = &table.nodes[node];
    match path {
        Some([]) => return Err(End::Found(entry)),
        Some(_) if node.kind == OPTION && w0 == 0 => return Err(End::Absent(place as usize)),
        _ => {}
    }
    let (rounds, kids) = node.behind(w0);
    for _ in 0..rounds {
        for (k, &kid) in kids.iter().enumerate() {
            let onward = match path {
                Some([position, onward @ ..]) if *position == k as u64 => Some(onward),
                _ => None,
            };
            pass(table, kid, onward, entries)?;
        }
    }
    Ok(())
}

/// The public call: the item's entry.
pub fn find(file: &[u8], path: &[u64], message: &[u8]) -> Result<Entry, Refusal> {
    let table = Table::parse(file)?;
    if !leads(&table, path) {
        return Err(Refusal { no: 13, place: 0 });
    }
    let full = read::read_good(&table, message, ENTRIES, Vec::new());
    match pass(&table, table.root, Some(path), &mut full.entries.iter()) {
        Err(End::Found(entry)) => Ok(entry),
        Err(End::Absent(place)) => Err(Refusal { no: 14, place }),
        Err(End::Before) => {
            assert_ne!(full.no, 0, "a message that was read has every item");
            Err(Refusal { no: full.no, place: full.place })
        }
        Ok(()) => unreachable!("a path that leads to an item meets it, or an option that is absent"),
    }
}
