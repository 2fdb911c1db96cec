//! CSV rows exported and imported, beside plain Rust by its own formatting and parsing and, tuned by hand, in the faster of two forms
//! (`rows`). All get the table's bytes in each call: ours checks them, plain Rust only looks up the kinds in them.
use crate::rows::{
    export_copied, export_formatted, export_measured, import_copied, import_measured, import_parsed, Refused,
};
use crate::timing::{race, side};
use oracle_driver::csv::{self, numbers, Value};
use oracle_driver::rng::Rng;
use oracle_driver::table::{Node, Table, BOOL, BYTES, CHAR, F64, I16, I32, I64, STR, STRUCT, U32, U64, U8};
use std::hint::black_box;

/// Values of these kinds: numbers of any length in bits, and texts and bytes of so many bytes.
fn values(kinds: &[u8], len: usize) -> Vec<Value> {
    let mut rng = Rng(1);
    let mut any = |kind: u8| match (kind, numbers(kind)) {
        (_, Some(all)) => {
            let bits = 1 + rng.below(all.end().ilog2() as usize + 1);
            let x = i128::from(rng.word() >> (64 - bits));
            Value::Number(if *all.start() < 0 && rng.chance(2) { -x } else { x })
        }
        (CHAR, _) => Value::Char('é'),
        (STR, _) => Value::Text((0..len).map(|_| char::from(b'a' + rng.below(26) as u8)).collect()),
        _ => Value::Bytes(rng.bytes(len)),
    };
    kinds.iter().map(|&kind| any(kind)).collect()
}

/// The table of a struct of such fields, with one node for each kind.
fn struct_of(kinds: &[u8]) -> Vec<u8> {
    let mut leaves = kinds.to_vec();
    leaves.sort_unstable();
    leaves.dedup();
    let kids = kinds.iter().map(|kind| leaves.partition_point(|leaf| leaf < kind)).collect();
    let mut nodes: Vec<Node> = leaves.iter().map(|&kind| Node { kind, kids: vec![] }).collect();
    nodes.push(Node { kind: STRUCT, kids });
    Table { root: leaves.len(), nodes }.file()
}

type Call = fn(&[u8], &[u8], &mut [u8]) -> Result<usize, Refused>;

fn export(table: &[u8], message: &[u8], out: &mut [u8]) -> Result<usize, Refused> {
    reystavem::csv_export(table, message, out).map_err(|refused| (refused.why as u8, refused.place))
}

fn import(table: &[u8], row: &[u8], out: &mut [u8]) -> Result<usize, Refused> {
    reystavem::csv_import(table, row, out).map_err(|refused| (refused.why as u8, refused.place))
}

/// All answer the same to this input, and to each that has another byte at one place.
fn agree<const N: usize>(calls: [Call; N], table: &[u8], input: &[u8], out_len: usize) {
    let mut changed = input.to_vec();
    for at in 0..input.len() {
        for byte in *b"\0\x01\",0159-\r\n\x80\xC3\xFFz" {
            changed[at] = byte;
            let all = calls.map(|call| {
                let mut out = vec![7; out_len];
                (call(table, &changed, &mut out), out)
            });
            assert!(all.iter().all(|one| *one == all[0]), "{byte:x} at {at}: {:?}", all.map(|one| one.0));
        }
        changed[at] = input[at];
    }
}

/// Nanoseconds of each call.
fn raced<const N: usize>(calls: [Call; N], table: &[u8], input: &[u8], right: &[u8]) -> [f64; N] {
    agree(calls, table, input, right.len() + 3);
    race(calls.map(|call| {
        let mut out = vec![0; right.len()];
        assert_eq!(call(table, input, &mut out), Ok(right.len()));
        assert_eq!(out, right);
        side(move || call(black_box(table), black_box(input), black_box(&mut out)))
    }))
}

pub fn report() {
    println!("| Row of | export: ours, ns a field | Rust's formatting | ratio | tuned | ratio | import: ours | Rust's parsing | ratio | tuned | ratio |");
    println!("|---|---|---|---|---|---|---|---|---|---|---|");
    for (name, kinds, len) in [
        ("200 u32", vec![U32; 200], 0),
        ("200 u8", vec![U8; 200], 0),
        ("200 i64", vec![I64; 200], 0),
        ("50 texts of 12 bytes", vec![STR; 50], 12),
        ("50 texts of 100 bytes", vec![STR; 50], 100),
        ("50 bytes of 16", vec![BYTES; 50], 16),
        ("ten mixed fields", vec![U32, STR, BOOL, I16, U64, CHAR, BYTES, F64, U8, 27], 12),
        ("T", vec![U32, U64, I32], 0),
    ] {
        let (table, row) = (struct_of(&kinds), csv::row(&values(&kinds, len)));
        let message = csv::import(&table, &row, 1 << 16).expect("a row");
        let fields = kinds.len() as f64;
        let beside = |ours: f64, plain: f64| format!(" {:.1} | {:.2} |", plain / fields, ours / plain);
        let [ours, formatted, measured, copied] =
            raced([export, export_formatted, export_measured, export_copied], &table, &message, &row);
        print!("| {name} | {:.1} |{}{}", ours / fields, beside(ours, formatted), beside(ours, measured.min(copied)));
        let [ours, parsed, measured, copied] =
            raced([import, import_parsed, import_measured, import_copied], &table, &row, &message);
        println!(" {:.1} |{}{}", ours / fields, beside(ours, parsed), beside(ours, measured.min(copied)));
    }
}
