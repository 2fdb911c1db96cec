//! The append question on tables whose shapes grow by doubling, beside what a recursion without a memory of
//! compared pairs would do.
use crate::timing::{race, side};
use oracle_driver::table::{Node, Table, ENUM, STRUCT, U8};
use reystavem::AREA;
use std::hint::black_box;

/// So many nodes, each of a kind with the one below it twice.
fn doubling(kind: u8, nodes: usize) -> Table {
    let mut table = Table { nodes: vec![Node { kind: U8, kids: vec![] }], root: nodes - 1 };
    for below in 0..nodes - 1 {
        table.nodes.push(Node { kind, kids: vec![below; 2] });
    }
    table
}

fn plain(old: &Table, new: &Table, a: usize, b: usize) -> bool {
    let (x, y) = (&old.nodes[a], &new.nodes[b]);
    x.kind == y.kind && x.kids.len() == y.kids.len() && x.kids.iter().zip(&y.kids).all(|(a, b)| plain(old, new, *a, *b))
}

pub fn report() {
    println!("| Append question, each node twice the one below | ours, µs | plain recursion, µs |\n|---|---|---|");
    let mut area = vec![0; AREA];
    for (name, kind) in [("structs", STRUCT), ("enums", ENUM)] {
        for nodes in [11, 16, 21, 256] {
            let table = doubling(kind, nodes);
            let file = table.file();
            assert_eq!(reystavem::appends(&file, &file, &mut area), Ok(true));
            let [ours] = race([side(|| reystavem::appends(black_box(&file), black_box(&file), &mut area).is_ok())]);
            let other = match nodes {
                256 => "2^255 pairs".to_string(),
                _ => {
                    let [plain] = race([side(|| plain(black_box(&table), &table, nodes - 1, nodes - 1))]);
                    format!("{:.1}", plain / 1000.0)
                }
            };
            println!("| {nodes} {name} | {:.1} | {other} |", ours / 1000.0);
        }
    }
}
