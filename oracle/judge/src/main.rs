//! Holds every answer of the proved static library against the oracle: number, place, count, every
//! word of the store, the rest, every byte of the output and of the work area, the accumulator's array
//! and message, an item's entry, every word of the list of differences, a batch's last message, a CSV row.
//!
//!   gen SEED COUNT | judge           request lines from stdin (PROTOCOL.md)
//!   gen SEED COUNT strict | judge    strict reads alone
//!   gen SEED COUNT find | judge      finds alone
//!   gen SEED COUNT compare | judge   comparisons alone
//!   gen SEED COUNT batch | judge     night batches alone
//!   gen SEED COUNT compact | judge   their compaction alone
//!   gen SEED COUNT frames | judge    feeds alone, of long frames too, by both ways
//!   gen SEED COUNT waits | judge     feeds by default, to states that wait and to others
//!   gen SEED COUNT send | judge      messages sent as frames, and fed again
//!   gen SEED COUNT csv | judge       CSV rows exported and imported, and back
//!   judge short                      every message of up to two bytes, for each leaf kind and small tables
//!   judge large                      batches at the edges of their 32-bit fields
//!   judge streams SEED COUNT         whole streams of frames, cut anywhere
//!
//! Prints how many requests of each kind were compared, and each difference; exits with 1 if there was one.
//!
//!   gen SEED COUNT csv | judge rows  compares nothing, but prints the rows that the library exports, for oracle/rows

mod area;
mod batches;
mod calls;
mod feeding;
mod large;
mod opening;
mod rows;
mod sending;
mod short;

use area::Area;
use calls::Differs;
use std::collections::BTreeMap;
use std::io::{self, BufRead};

fn lines() -> Tally {
    let mut tally = Tally::default();
    let mut area = Area::new();
    for line in io::stdin().lock().lines() {
        let line = line.expect("stdin");
        if line.is_empty() || line.starts_with('#') {
            continue;
        }
        let (kind, outcome) = calls::judge(&line, &mut area);
        tally.note(kind, outcome, || line.clone());
    }
    tally
}

/// How many requests of each kind were compared, and how many of them differ.
#[derive(Default)]
pub struct Tally {
    seen: BTreeMap<&'static str, u64>,
    differ: u64,
}

impl Tally {
    pub fn note(&mut self, kind: &'static str, outcome: Result<(), Differs>, request: impl Fn() -> String) {
        *self.seen.entry(kind).or_default() += 1;
        if let Err(Differs(what)) = outcome {
            self.differ += 1;
            if self.differ <= 20 {
                println!("DIFFERS {}\n  {what}", request());
            }
        }
    }

    fn print(&self) {
        let all: u64 = self.seen.values().sum();
        let kinds: Vec<String> = self.seen.iter().map(|(kind, count)| format!("{kind} {count}")).collect();
        println!("{all} requests, {} differ ({})", self.differ, kinds.join(", "));
    }
}

fn main() {
    let args: Vec<String> = std::env::args().skip(1).collect();
    let asked: Vec<&str> = args.iter().map(String::as_str).collect();
    let tally = match asked[..] {
        [] => lines(),
        ["short"] => short::run(),
        ["large"] => large::run(),
        ["rows"] => return rows::print().expect("exports to print"),
        ["streams", seed, count] => {
            let [seed, count] = [seed, count].map(|a| a.parse().expect("SEED and COUNT, both decimal"));
            feeding::streams(seed, count)
        }
        _ => {
            eprintln!("usage: gen SEED COUNT | judge [rows], judge short, judge large, or judge streams SEED COUNT");
            std::process::exit(2)
        }
    };
    tally.print();
    std::process::exit(i32::from(tally.differ > 0));
}
