//! The reader with a lent list of open items beside the first reader, which calls itself: the same messages and stores.
use crate::messages::{fields, stock, stocks, written};
use crate::timing::{race, side};
use oracle_driver::table::{Node, Table, OPTION, SECOND, U8};
use oracle_driver::WORDS;
use reystavem::OPEN;
use std::hint::black_box;

/// Options in each other, 255 of them, all present.
fn options() -> (Table, Vec<u8>) {
    let mut table = Table { nodes: vec![Node { kind: U8, kids: vec![] }], root: 255 };
    table.nodes.extend((0..255).map(|below| Node { kind: OPTION, kids: vec![below] }));
    (table, vec![1; 256])
}

pub fn report() {
    let table_t = Table::parse(reystavem::samples::TABLE_T).expect("a good table");
    let (sequence, many) = stocks();
    let (wide, value) = fields();
    let (deep, ones) = options();
    println!("| Reading | with a list, ns | the first reader, ns | ratio |\n|---|---|---|---|");
    for (name, file, message) in [
        ("one T", table_t.file(), written(&stock(0))),
        ("1,000 T", sequence.file(), written(&many[..])),
        ("200 fields", wide.file(), written(&value)),
        ("255 options in each other", deep.file_in(SECOND), ones),
    ] {
        let (mut store, mut list) = (vec![0u64; WORDS * 4_001], vec![0u64; OPEN]);
        let mut same = store.clone();
        let read = reystavem::read(&file, &message, &mut store);
        assert_eq!(reystavem::read_open(&file, &message, &mut same, &mut list), read, "{name}");
        assert_eq!(same, store, "{name}");
        let [listed, first] = race([
            side(|| reystavem::read_open(black_box(&file), black_box(&message), &mut same, &mut list).is_ok()),
            side(|| reystavem::read(black_box(&file), black_box(&message), &mut store).is_ok()),
        ]);
        println!("| {name} | {listed:.0} | {first:.0} | {:.2} |", listed / first);
    }
}
