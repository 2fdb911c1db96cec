//! Speed of the crate, under the table-driven visitor and with types compiled in.

use crate::T;
use oracle_driver::proto::unhex;
use oracle_driver::read;
use oracle_driver::table::{Node, Table, SEQ, STR};
use serde::{Deserialize, Serialize};
use std::hint::black_box;
use std::time::Instant;

#[derive(Serialize, Deserialize, Clone, Copy)]
struct Stock {
    store: u32,
    product: u64,
    count: i32,
}

/// Best of seven runs, each of about 0.15 s.
fn measure(name: &str, bytes: usize, mut once: impl FnMut()) {
    let start = Instant::now();
    let mut warm = 0u32;
    while start.elapsed().as_millis() < 100 {
        once();
        warm += 1;
    }
    let per_run = warm + warm / 2 + 1;
    let mut best = f64::INFINITY;
    for _ in 0..7 {
        let start = Instant::now();
        for _ in 0..per_run {
            once();
        }
        best = best.min(start.elapsed().as_nanos() as f64 / f64::from(per_run));
    }
    println!("{name:<44} {best:>11.1} ns/message {:>9.1} MB/s  ({bytes} bytes)", bytes as f64 * 1e3 / best);
}

fn driven(name: &str, t: &Table, m: &[u8], room: usize) {
    let mut store = Vec::with_capacity(room);
    measure(name, m.len(), || {
        store.clear();
        let got = read::read_good(t, black_box(m), room, std::mem::take(&mut store));
        assert_eq!(got.no, 0);
        store = black_box(got.entries);
    });
}

pub fn run() {
    if cfg!(debug_assertions) {
        println!("note: built with debug assertions; use --profile bench-fair");
    }
    let stock = |i: u64| Stock { store: 300 + i as u32, product: 5 + i * 1_000_003, count: -2 - i as i32 };
    let table_t = Table::parse(&unhex(T).expect("hex")).expect("a good table");
    let mut buf = vec![0; 1 << 17];

    for (label, s) in [("T small (AC 02 05 03)", stock(0)), ("T large", stock(1 << 26))] {
        let m = postcard::to_slice(&s, &mut buf).unwrap().to_vec();
        measure(&format!("{label}, derive"), m.len(), || {
            let (s, rest) = postcard::take_from_bytes::<Stock>(black_box(&m)).unwrap();
            black_box((s.store, s.product, s.count, rest));
        });
        driven(&format!("{label}, table-driven"), &table_t, &m, 4);
    }

    let many: Vec<Stock> = (0..1000).map(stock).collect();
    let m = postcard::to_slice(&many[..], &mut buf).unwrap().to_vec();
    let mut into = Vec::new();
    measure("1000 x T, derive into Vec", m.len(), || {
        into = postcard::from_bytes::<Vec<Stock>>(black_box(&m)).unwrap();
        black_box(&into);
    });
    let mut seq_of_t = table_t;
    seq_of_t.nodes.push(Node { kind: SEQ, kids: vec![3] });
    seq_of_t.root = 4;
    driven("1000 x T, table-driven", &seq_of_t, &m, 4001);

    let text: String = (0..65536).map(|i| (b'a' + (i % 26) as u8) as char).collect();
    let m = postcard::to_slice(text.as_str(), &mut buf).unwrap().to_vec();
    measure("64 KiB ASCII str, &str", m.len(), || {
        black_box(postcard::from_bytes::<&str>(black_box(&m)).unwrap());
    });
    driven("64 KiB ASCII str, table-driven", &Table::leaf(STR), &m, 1);
}
