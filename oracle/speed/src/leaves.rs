//! Varints by width and length, and texts.
use crate::messages::{name, repeated, LONG, NAMES, SHORT};
use crate::timing::{race, side};
use serde::de::DeserializeOwned;
use std::hint::black_box;

extern "C" {
    fn measure_u16(message: *const u8, len: usize) -> u64;
    fn measure_u32(message: *const u8, len: usize) -> u64;
    fn measure_u64(message: *const u8, len: usize) -> u64;
    fn measure_text(text: *const u8, len: usize) -> u64;
}

type Loop = unsafe extern "C" fn(*const u8, usize) -> u64;

fn call(function: Loop, bytes: &[u8]) -> u64 {
    // SAFETY: the slice is lent with its own length.
    unsafe { function(bytes.as_ptr(), bytes.len()) }
}

/// The crate's own reading of items that stand one after the other, summed as ours are.
fn crate_sum<T: DeserializeOwned + Into<u64>>(message: &[u8]) -> u64 {
    let mut rest = message;
    let mut sum = 0u64;
    while let Ok((value, behind)) = postcard::take_from_bytes::<T>(rest) {
        sum = sum.wrapping_add(value.into());
        rest = behind;
    }
    sum
}

const ITEMS: usize = 4096;

/// So many varints of just `len` bytes, none with a last byte above `last`.
fn varints(len: usize, most: usize, last: u8) -> Vec<u8> {
    let top = if len == most { last } else { 127 };
    let mut message = Vec::new();
    for item in 0..ITEMS {
        for at in 1..len {
            message.push(0x80 | ((item * 7 + at * 31) % 128) as u8);
        }
        message.push(if len == 1 { (item % 128) as u8 } else { 1 + (item % top as usize) as u8 });
    }
    message
}

fn width(name: &str, most: usize, last: u8, ours: Loop, theirs: fn(&[u8]) -> u64) {
    for len in 1..=most {
        let message = varints(len, most, last);
        assert_eq!(call(ours, &message), theirs(&message), "{name}, {len} bytes");
        let [mine, other] = race([side(|| call(ours, black_box(&message))), side(|| theirs(black_box(&message)))])
            .map(|all| all / ITEMS as f64);
        println!(
            "| {name}, {len} byte{} | {mine:.2} | {other:.2} | {:.2} |",
            if len == 1 { "" } else { "s" },
            mine / other
        );
    }
}

fn text(name: &str, text: &[u8]) {
    assert_eq!(call(measure_text, text) == 1, std::str::from_utf8(text).is_ok(), "{name}");
    let [mine, other] =
        race([side(|| call(measure_text, black_box(text))), side(|| std::str::from_utf8(black_box(text)).is_ok())]);
    let rate = |ns: f64| text.len() as f64 / ns * 1000.0;
    println!("| {name} | {:.0} | {:.0} | {:.2} |", rate(mine), rate(other), mine / other);
}

/// A short text in nanoseconds: so few bytes have no rate.
fn short(name: &str, text: &str) {
    let text = text.as_bytes();
    assert_eq!(call(measure_text, text), 1, "{name}");
    let [mine, other] =
        race([side(|| call(measure_text, black_box(text))), side(|| std::str::from_utf8(black_box(text)).is_ok())]);
    println!("| {name} | {mine:.2} | {other:.2} | {:.2} |", mine / other);
}

pub fn report() {
    println!("| Varint | ours, ns | the crate, ns | ratio |");
    println!("|---|---|---|---|");
    width("u16", 3, 3, measure_u16, crate_sum::<u16>);
    width("u32", 5, 15, measure_u32, crate_sum::<u32>);
    width("u64", 10, 1, measure_u64, crate_sum::<u64>);
    println!();
    println!("| Short text | ours, ns | core's from_utf8, ns | ratio |");
    println!("|---|---|---|---|");
    for len in SHORT {
        short(&format!("{len} bytes"), &name(len));
    }
    for (kind, text) in NAMES {
        short(&format!("{} bytes, {kind}", text.len()), text);
    }
    println!();
    println!("| Text, 64 KiB | ours, MB/s | core's from_utf8, MB/s | ratio of times |");
    println!("|---|---|---|---|");
    text("ASCII", repeated("The quick brown fox jumps over the lazy dog. ", 65536).as_bytes());
    for (kind, part) in LONG {
        text(kind, repeated(part, 65536).as_bytes());
    }
}
