//! Whole messages: ours with its table check each time; the crate under a visitor or a `Serialize` that
//! follows a table parsed beforehand; and the crate with types compiled in.
use crate::timing::{race, side};
use oracle_driver::table::{Node, Table, SEQ, STR, STRUCT, U32};
use oracle_driver::{read, write, Entry, WORDS};
use serde::de::DeserializeOwned;
use serde::{Deserialize, Serialize};
use std::hint::black_box;

#[derive(Serialize, Deserialize, Clone, Copy)]
pub struct Stock {
    store: u32,
    product: u64,
    pub count: i32,
}

/// A count with the product's name, as most messages of a shop are.
#[derive(Serialize, Deserialize)]
struct Named<'a> {
    stock: Stock,
    name: &'a str,
}

pub fn stock(i: u64) -> Stock {
    Stock { store: 300 + i as u32, product: 5 + i * 1_000_003, count: -2 - i as i32 }
}

/// A table of a sequence of T, and a value of 1,000 of them.
pub fn stocks() -> (Table, Vec<Stock>) {
    let mut table = Table::parse(reystavem::samples::TABLE_T).expect("a good table");
    table.nodes.push(Node { kind: SEQ, kids: vec![3] });
    table.root = 4;
    (table, (0..1000).map(stock).collect())
}

/// A table of 200 numbers, and a value of it.
pub fn fields() -> (Table, [[u32; 25]; 8]) {
    let nodes = vec![Node { kind: U32, kids: vec![] }, Node { kind: STRUCT, kids: vec![0; 200] }];
    let value = std::array::from_fn(|i| std::array::from_fn(|j| (i * 1000 + j * 37) as u32));
    (Table { nodes, root: 1 }, value)
}

/// A message and what it takes to read and write it: the table, as a file and parsed, its entries, and the
/// crate's own reading and writing of it with types compiled in.
struct Sample<'a> {
    name: &'a str,
    table: Table,
    message: Vec<u8>,
    typed_read: &'a dyn Fn(&[u8]),
    typed_write: &'a dyn Fn(&mut [u8]) -> usize,
}

fn ratio_row(name: &str, [ours, driven, typed]: [f64; 3]) {
    println!("| {name} | {ours:.0} | {driven:.0} | {typed:.0} | {:.2} | {:.2} |", ours / driven, ours / typed);
}

impl Sample<'_> {
    fn entries(&self) -> Vec<Entry> {
        let got = read::read_good(&self.table, &self.message, usize::MAX, Vec::new());
        assert_eq!(got.no, 0, "{}", self.name);
        got.entries
    }

    fn reading(&self) {
        let (file, entries) = (self.table.file(), self.entries());
        let mut store = vec![0u64; WORDS * entries.len()];
        let read = reystavem::read(&file, &self.message, &mut store).expect("a good message");
        assert_eq!((read.count, &store[..]), (entries.len(), entries.as_flattened()), "{}", self.name);
        let mut kept = Vec::with_capacity(entries.len());
        let times = race([
            side(|| reystavem::read(black_box(&file), black_box(&self.message), &mut store).is_ok()),
            side(|| {
                kept.clear();
                let room = std::mem::take(&mut kept);
                kept = read::read_good(&self.table, black_box(&self.message), entries.len(), room).entries;
            }),
            side(|| (self.typed_read)(black_box(&self.message))),
        ]);
        ratio_row(self.name, times);
    }

    /// Both with a store that is allocated for the call.
    fn reading_cold(&self) {
        let (file, count) = (self.table.file(), self.entries().len());
        let times = race([
            side(|| {
                let mut store = vec![0u64; WORDS * count];
                reystavem::read(black_box(&file), black_box(&self.message), &mut store).is_ok()
            }),
            side(|| read::read_good(&self.table, black_box(&self.message), count, Vec::with_capacity(count)).no),
            side(|| (self.typed_read)(black_box(&self.message))),
        ]);
        ratio_row(&format!("{}, store allocated", self.name), times);
    }

    fn writing(&self) {
        let (file, entries, pool) = (self.table.file(), self.entries(), &self.message);
        let words = entries.as_flattened();
        let mut out = vec![0u8; self.message.len()];
        assert_eq!(reystavem::write(&file, words, pool, &mut out), Ok(out.len()), "{}", self.name);
        assert_eq!(out, self.message, "{}", self.name);
        let (mut driven_out, mut typed_out) = (out.clone(), out.clone());
        let times = race([
            side(|| reystavem::write(black_box(&file), black_box(words), pool, &mut out).is_ok()),
            side(|| write::to_slice(&self.table, black_box(&entries), pool, &mut driven_out)),
            side(|| (self.typed_write)(&mut typed_out)),
        ]);
        ratio_row(self.name, times);
    }
}

pub fn written<T: Serialize + ?Sized>(value: &T) -> Vec<u8> {
    let mut out = vec![0; 1 << 17];
    let len = postcard::to_slice(value, &mut out).expect("room enough").len();
    out.truncate(len);
    out
}

fn read_as<T: DeserializeOwned>(message: &[u8]) {
    black_box(postcard::from_bytes::<T>(message).is_ok());
}

/// How many bytes the short texts have.
pub const SHORT: [usize; 5] = [4, 8, 12, 20, 40];

/// A name of so many ASCII bytes.
pub fn name(len: usize) -> String {
    (0..len).map(|i| (b'a' + (i % 26) as u8) as char).collect()
}

/// Names as shops have them, with the kind of their chars that aren't ASCII.
pub const NAMES: [(&str, &str); 3] = [("an accent", "Jalapeño"), ("accents", "Crème brûlée"), ("Hangul", "파프리카")];

/// What long texts repeat: chars of one width, of the lead bytes that leave only a part to the second, and of many.
pub const LONG: [(&str, &str); 9] = [
    ("two-byte", "Περίδρομος"),
    ("three-byte", "在庫計画"),
    ("four-byte", "🥛🍞🧀"),
    ("Thai", "ราคาสินค้า"),
    ("full-width", "ＡＢＣ１２３"),
    ("Hangul and spaces", "한국 파프리카 재고 "),
    ("ASCII with accents", "Jalapeño rouge "),
    ("ASCII with dashes", "Tea – green "),
    ("mixed", "Milk 3.5% — lait entier, γάλα, 牛乳 🥛; "),
];

/// As often as it goes into so many bytes.
pub fn repeated(part: &str, len: usize) -> String {
    part.repeat(len / part.len())
}

/// The texts that are read and written, short ones first.
fn texts() -> Vec<(String, String)> {
    let short = SHORT.map(|len| (format!("text, {len} bytes"), name(len)));
    let names = NAMES.map(|(kind, text)| (format!("text, {} bytes, {kind}", text.len()), text.to_string()));
    let ascii = ("text, 64 KiB ASCII".to_string(), name(65536));
    let long = LONG.map(|(kind, part)| (format!("text, 64 KiB {kind}"), repeated(part, 65536)));
    short.into_iter().chain(names).chain([ascii]).chain(long).collect()
}

pub fn report() {
    let one = stock(0);
    let (sequence, many) = stocks();
    let (fields, wide) = fields();
    let texts = texts();
    let writes: Vec<_> = texts
        .iter()
        .map(|(_, text)| move |out: &mut [u8]| postcard::to_slice(black_box(&text[..]), out).unwrap().len())
        .collect();

    let table_t = Table::parse(reystavem::samples::TABLE_T).expect("a good table");
    let mut table_named = table_t.clone();
    table_named.nodes[3] = Node { kind: STR, kids: vec![] };
    table_named.nodes.push(Node { kind: STRUCT, kids: vec![0, 1, 2, 3] });
    table_named.root = 4;
    let name = name(12);
    let named = Named { stock: one, name: &name };

    let numbers = [
        Sample {
            name: "one T",
            table: table_t,
            message: written(&one),
            typed_read: &read_as::<Stock>,
            typed_write: &|out| postcard::to_slice(black_box(&one), out).unwrap().len(),
        },
        Sample {
            name: "T and a name",
            table: table_named,
            message: written(&named),
            typed_read: &|message| {
                black_box(postcard::from_bytes::<Named>(message).is_ok());
            },
            typed_write: &|out| postcard::to_slice(black_box(&named), out).unwrap().len(),
        },
        Sample {
            name: "1,000 T",
            table: sequence,
            message: written(&many[..]),
            typed_read: &read_as::<Vec<Stock>>,
            typed_write: &|out| postcard::to_slice(black_box(&many[..]), out).unwrap().len(),
        },
        Sample {
            name: "200 fields",
            table: fields,
            message: written(&wide),
            typed_read: &read_as::<[[u32; 25]; 8]>,
            typed_write: &|out| postcard::to_slice(black_box(&wide), out).unwrap().len(),
        },
    ];
    let texts = texts.iter().zip(&writes).map(|((name, text), write)| Sample {
        name,
        table: Table::leaf(STR),
        message: written(&text[..]),
        typed_read: &read_as_text,
        typed_write: write,
    });
    let texts: Vec<Sample> = texts.collect();
    let samples = || numbers.iter().chain(&texts);
    let head =
        "ours, ns | the crate by a table, ns | the crate with types, ns | ours / by a table | ours / with types |";
    println!("| Reading | {head}\n|---|---|---|---|---|---|");
    samples().for_each(Sample::reading);
    numbers[2].reading_cold();
    println!("\n| Writing | {head}\n|---|---|---|---|---|---|");
    samples().for_each(Sample::writing);
}

fn read_as_text(message: &[u8]) {
    black_box(postcard::from_bytes::<&str>(message).is_ok());
}
