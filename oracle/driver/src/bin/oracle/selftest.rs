//! Comparisons that need no stream: whole ranges of inputs, one after the other.

use oracle_driver::feed::{self, ROOM};
use oracle_driver::rng::Rng;
use oracle_driver::table::{Table, CHAR};
use oracle_driver::{model, read, strict, WORDS};
use postcard::accumulator::{CobsAccumulator, FeedResult};

pub fn run() -> bool {
    let mut ok = true;
    let mut report = |name: &str, tried: u64, bad: u64| {
        println!("{name}: {tried} tried, {bad} differ");
        ok &= bad == 0;
    };

    // UTF-8: every string of up to three bytes, and every four bytes that start at C0 or above.
    let (mut tried, mut bad) = (0, 0);
    let mut one = |b: &[u8]| {
        tried += 1;
        let rust = core::str::from_utf8(b).ok().map(|s| s.chars().next().map(u32::from));
        let doc = model::utf8(b).then(|| model::first_char(b).map(|c| c.0));
        bad += u64::from(rust != doc);
    };
    one(&[]);
    for len in 1..=3u32 {
        for x in 0..1u32 << (8 * len) {
            one(&x.to_be_bytes()[4 - len as usize..]);
        }
    }
    for x in 0xC000_0000..=u32::MAX {
        one(&x.to_be_bytes());
    }
    report("UTF-8 by 01's table against core", tried, bad);

    // Plainly and strictly; the number of answers that differ.
    let both = |file: &[u8], m: &[u8]| {
        u64::from(read::read(file, m, WORDS) != model::read(file, m, WORDS))
            + u64::from(strict::read(file, m, WORDS) != model::read_strict(file, m, WORDS))
    };

    // char: lengths around the four that are allowed, with every body of up to two bytes.
    let char_file = Table::leaf(CHAR).file();
    let (mut tried, mut bad) = (0, 0);
    for len in 0..=6u8 {
        for have in 0..=2u32 {
            for x in 0..1u32 << (8 * have) {
                let m = [&[len][..], &x.to_be_bytes()[4 - have as usize..]].concat();
                tried += 1;
                bad += both(&char_file, &m);
            }
        }
    }
    report("char, length 0 to 6, body 0 to 2 bytes, plainly and strictly", tried, bad);

    // For every leaf kind, every message of up to two bytes, and of three with some third bytes.
    let (mut tried, mut bad) = (0, 0);
    for kind in (0..=14).chain(20..=31) {
        let file = Table::leaf(kind).file();
        for have in 0..=3u32 {
            for x in 0..1u32 << (8 * have) {
                let m = &x.to_be_bytes()[4 - have as usize..];
                if have == 3 && ![0, 1, 2, 3, 4, 5, 0x7F, 0x80, 0x81, 0x83, 0x84, 0xFF].contains(&m[2]) {
                    continue;
                }
                tried += 1;
                bad += both(&file, m);
            }
        }
    }
    report("every leaf kind, short messages, plainly and strictly", tried, bad);

    // Accumulator: 01's step table against the crate where no decoding happens (20, 21, and
    // the rest of 22/23), from states the crate can reach.
    let (mut tried, mut bad) = (0, 0);
    let mut rng = Rng(1);
    for idx in 0..=ROOM {
        for len in [0, 1, 2, (ROOM - 1).saturating_sub(idx), ROOM - idx, ROOM + 1 - idx, ROOM + 44] {
            for zero in [
                None,
                Some(0),
                Some(len / 2),
                Some((ROOM - 1).saturating_sub(idx)),
                Some(ROOM - idx),
                Some(len.saturating_sub(1)),
            ] {
                let mut chunk: Vec<u8> = (0..len).map(|_| rng.byte().max(1)).collect();
                if let Some(z) = zero {
                    if z >= len {
                        continue;
                    }
                    chunk[z] = 0;
                }
                let mut acc = CobsAccumulator::<ROOM>::new();
                let _ = acc.feed::<()>(&vec![1; idx]);
                let mut array = [0; ROOM];
                array[..idx].fill(1);
                let doc = feed::feed(idx as u64, &array, &chunk);
                let (class, rest) = match acc.feed::<()>(&chunk) {
                    FeedResult::Consumed => (20, &[][..]),
                    FeedResult::OverFull(r) => (21, r),
                    FeedResult::DeserError(r) => (22, r),
                    FeedResult::Success { .. } => unreachable!("the stand-in never decodes"),
                };
                tried += 1;
                bad += u64::from(doc.no.min(22) != class || doc.rest != rest);
            }
        }
    }
    report("feed: 20, 21, rest and the frame case (22 or 23 not told apart)", tried, bad);
    ok
}
