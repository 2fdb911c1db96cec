//! `oracle` answers request lines from stdin. Other modes: see `usage`.

mod bench;
mod selftest;

use oracle_driver::feed::ROOM;
use oracle_driver::proto;
use oracle_driver::table::{Table, CHAR, I16, U16};
use std::io::{self, BufRead, BufWriter, Write};

fn usage() -> ! {
    eprintln!(
        "oracle            answer each request line from stdin\n\
         oracle pairs      the same, each line as `request => answer`\n\
         oracle check      compare the crate's answers with 01's model, print differences\n\
         oracle cases      the cases listed in 01\n\
         oracle selftest   exhaustive UTF-8, char and varint comparisons of crate and model\n\
         oracle bench      speed"
    );
    std::process::exit(2)
}

fn main() {
    let mode = std::env::args().nth(1);
    let ok = match mode.as_deref() {
        None => lines(false),
        Some("pairs") => lines(true),
        Some("check") => check(),
        Some("cases") => cases(),
        Some("selftest") => selftest::run(),
        Some("bench") => {
            bench::run();
            true
        }
        _ => usage(),
    };
    std::process::exit(if ok { 0 } else { 1 });
}

fn lines(pairs: bool) -> bool {
    let mut out = BufWriter::new(io::stdout().lock());
    let mut ok = true;
    for line in io::stdin().lock().lines() {
        let line = line.expect("stdin");
        if line.trim().is_empty() || line.starts_with('#') {
            continue;
        }
        let answer = proto::answer(&line, false).unwrap_or_else(|e| {
            ok = false;
            format!("error {e}")
        });
        let done = if pairs { writeln!(out, "{line} => {answer}") } else { writeln!(out, "{answer}") };
        if done.is_err() {
            return ok;
        }
    }
    let _ = out.flush();
    ok
}

/// F, A and T have no second source, so only R, S, W, E, I, C, N, K, L, P, X and M can differ. E's are two encoders of ours.
fn check() -> bool {
    let mut out = BufWriter::new(io::stdout().lock());
    let (mut seen, mut differ) = (0u64, 0u64);
    let mut tally = std::collections::BTreeMap::<String, u64>::new();
    for line in io::stdin().lock().lines() {
        let line = line.expect("stdin");
        if line.trim().is_empty() || line.starts_with('#') {
            continue;
        }
        let (crate_says, model_says) = (proto::answer(&line, false), proto::answer(&line, true));
        seen += 1;
        let head = crate_says.as_deref().unwrap_or("error");
        let words: Vec<&str> = head.split(' ').collect();
        let key = if words[0] == "refuse" { format!("refuse {} {}", words[1], words[3]) } else { words[0].into() };
        *tally.entry(format!("{} {key:>3}", &line[..1])).or_default() += 1;
        if crate_says != model_says || crate_says.is_err() {
            differ += 1;
            if writeln!(out, "DIFFER {line}\n crate {crate_says:?}\n model {model_says:?}").is_err() {
                return false;
            }
        }
    }
    let _ = writeln!(out, "{seen} requests, {differ} differ");
    for (key, count) in tally {
        let _ = writeln!(out, "  {key}: {count}");
    }
    differ == 0
}

/// 01's table T, byte for byte.
const T: &str = "07000000000008000000000003000000000012000000030000000100020006001e00040003005350";

fn cases() -> bool {
    let zeros = "00".repeat(ROOM);
    let full = "01".repeat(ROOM);
    let ten = "0102030405060708090a";
    let [u16t, i16t, chart] = [U16, I16, CHAR].map(|kind| proto::hex(&Table::leaf(kind).file()));
    let values = "0,0,0 12c,0,0 5,0,2 fffffffffffffffe,0,3";
    let list = [
        ("1", format!("R {T} ac020503 10"), format!("0 4 4 | {values} | -")),
        ("2", format!("R {T} ac02050307 10"), format!("0 4 4 | {values} | 07")),
        ("3", format!("R {T} ac0205 10"), "3 3 3 | 0,0,0 12c,0,0 5,0,2 | -".into()),
        ("4", format!("R {u16t} ffff03 10"), "0 3 1 | ffff,0,0 | -".into()),
        ("5", format!("R {u16t} 808004 10"), "4 0 0 | - | -".into()),
        ("6", format!("R {u16t} 8000 10"), "0 2 1 | 0,0,0 | -".into()),
        ("7", format!("R {u16t} 8080 10"), "3 0 0 | - | -".into()),
        ("8", format!("W {i16t} ffffffffffff8000,0,0 - 10"), "0 3 | ffff03".into()),
        ("9", format!("R {chart} 026162 10"), "0 3 1 | 61,0,0 | -".into()),
        ("10", format!("R {chart} 05 10"), "6 0 0 | - | -".into()),
        ("11", format!("R {chart} 00 10"), "6 0 0 | - | -".into()),
        ("12 (document), of the new room", format!("F 7fa {full} {ten}"), format!("21 0 | 0708090a | - | {full}")),
        ("13 (document)", format!("F 0 {zeros} 031122023300"), format!("23 0 | - | 11220033 | {zeros}")),
        ("mistake: 03 61 62 FF", format!("R {chart} 036162ff 10"), "6 0 0 | - | -".into()),
    ];
    let mut ok = true;
    for (name, request, want) in list {
        let got = proto::answer(&request, false).expect("good request");
        println!("case {name}: {}", if got == want { "agrees" } else { "DIFFERS" });
        if got != want {
            ok = false;
            println!("  request {request}\n  want {want}\n  got  {got}");
        }
    }
    ok
}
