//! The table's check, which every call makes first, beside a plain one in Rust that keeps to the same rules for the first form.
use crate::messages::{fields, stocks};
use crate::timing::{race, side};
use oracle_driver::table::{Node, Table, OPTION, STR, U8};
use std::hint::black_box;

fn u16_at(bytes: &[u8], at: usize) -> usize {
    usize::from(u16::from_le_bytes([bytes[at], bytes[at + 1]]))
}

fn below(numbers: &[u8], node: usize) -> bool {
    numbers.chunks_exact(2).all(|number| u16_at(number, 0) < node)
}

/// A table of the first form: 1 where its trailer isn't good, 2 at the first node that isn't.
fn plain(table: &[u8]) -> Result<(), (u8, usize)> {
    let end = table.len().checked_sub(10).ok_or((1, 0))?;
    let [c, d, n, root, mark] = [0, 2, 4, 6, 8].map(|i| u16_at(table, end + i));
    if mark != 0x5053 || n > 256 || root >= n || c % 2 != 0 || c > 2_048 || d != 6 * n + c || d > end {
        return Err((1, 0));
    }
    let (records, children) = (&table[end - d..end - c], &table[end - c..end]);
    for (node, record) in records.chunks_exact(6).enumerate() {
        let [head, a, b] = [0, 2, 4].map(|i| u16_at(record, i));
        let listed = || children.get(2 * a..2 * (a + b)).is_some_and(|list| below(list, node));
        let good = match head {
            0..=14 | 20..=31 => a == 0 && b == 0,
            15 | 16 => a < node && b == 0,
            17 => a < node && b < node,
            18 => (b > 0 || a == 0) && listed(),
            19 => b > 0 && listed(),
            _ => false,
        };
        if !good {
            return Err((2, node));
        }
    }
    Ok(())
}

pub fn report() {
    println!("| The check of | ours, ns | plain Rust, ns | ratio |\n|---|---|---|---|");
    let table_t = Table::parse(reystavem::samples::TABLE_T).expect("a good table");
    let chain = (0..256).map(|i| match i {
        0 => Node { kind: U8, kids: vec![] },
        _ => Node { kind: OPTION, kids: vec![i - 1] },
    });
    for (name, table) in [
        ("a text's table", Table::leaf(STR)),
        ("T", table_t),
        ("a sequence of T", stocks().0),
        ("200 fields", fields().0),
        ("255 options in each other", Table { nodes: chain.collect(), root: 255 }),
    ] {
        let file = table.file();
        assert_eq!((reystavem::check(&file), plain(&file)), (Ok(()), Ok(())), "{name}");
        let [ours, other] =
            race([side(|| reystavem::check(black_box(&file)).is_ok()), side(|| plain(black_box(&file)).is_ok())]);
        println!("| {name} | {ours:.1} | {other:.1} | {:.2} |", ours / other);
    }
}
