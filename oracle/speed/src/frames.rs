//! A feed beside a plain copy and decode in Rust that keeps to the same rules, in the faster of two forms: chunks of 16
//! bytes, and whole frames of 250 and 2,000 bytes in one chunk. Both write the message to lent memory; beside them, what
//! it costs to hand it over by value.
use crate::timing::{race, side};
use oracle_driver::feed::frame;
use reystavem::{Accumulator, Fed, ROOM};
use std::hint::black_box;

/// A state as a program of its own would keep it.
struct Plain {
    array: [u8; ROOM],
    idx: usize,
}

/// Decodes byte by byte.
fn by_bytes(frame: &[u8], message: &mut [u8; ROOM]) -> Option<usize> {
    let (mut i, mut len) = (0, 0);
    while i < frame.len() {
        let code = frame[i] as usize;
        let end = i + code;
        if end > frame.len() {
            return None;
        }
        i += 1;
        while i < end {
            message[len] = frame[i];
            len += 1;
            i += 1;
        }
        if i < frame.len() && code != 255 {
            message[len] = 0;
            len += 1;
        }
    }
    Some(len)
}

/// The same with one copy a group.
fn by_groups(frame: &[u8], message: &mut [u8; ROOM]) -> Option<usize> {
    let (mut i, mut len) = (0, 0);
    while i < frame.len() {
        let code = frame[i] as usize;
        let group = frame.get(i + 1..i + code)?;
        message[len..len + group.len()].copy_from_slice(group);
        len += group.len();
        i += code;
        if i < frame.len() && code != 255 {
            message[len] = 0;
            len += 1;
        }
    }
    Some(len)
}

impl Plain {
    /// What is fed is kept in the array, and the frame decoded from there; the message is cleared first, as 01 has it.
    fn feed(
        &mut self,
        chunk: &[u8],
        message: &mut [u8; ROOM],
        decode: fn(&[u8], &mut [u8; ROOM]) -> Option<usize>,
    ) -> Option<usize> {
        message.fill(0);
        let end = chunk.iter().position(|&b| b == 0);
        let part = &chunk[..end.unwrap_or(chunk.len())];
        self.array.get_mut(self.idx..self.idx + part.len())?.copy_from_slice(part);
        self.idx += part.len();
        end?;
        let len = decode(&self.array[..self.idx], message);
        self.idx = 0;
        len
    }
}

/// Nanoseconds to feed all chunks in order: ours, the faster of the plain forms, and ours by value.
fn raced(chunks: &[&[u8]]) -> [f64; 3] {
    let (mut state, mut by_value) = (Accumulator::new(), Accumulator::new());
    let mut lent = [0; ROOM];
    let new = || (Plain { array: [0; ROOM], idx: 0 }, [0; ROOM]);
    let ((mut one, mut message), (mut other, mut other_message)) = (new(), new());
    let [ours, bytes, groups, valued] = race([
        side(|| chunks.iter().for_each(|chunk| _ = black_box(state.feed_lent(black_box(chunk), &mut lent)))),
        side(|| chunks.iter().for_each(|chunk| _ = black_box(one.feed(black_box(chunk), &mut message, by_bytes)))),
        side(|| {
            chunks.iter().for_each(|chunk| _ = black_box(other.feed(black_box(chunk), &mut other_message, by_groups)))
        }),
        side(|| chunks.iter().for_each(|chunk| _ = black_box(by_value.feed(black_box(chunk))))),
    ]);
    [ours, bytes.min(groups), valued]
}

pub fn report() {
    println!("| Frame of | fed | message with | ours, ns | plain Rust, ns | ratio | ours by value, ns |\n|---|---|---|---|---|---|---|");
    for size in [250, 2_000] {
        for (name, every) in [("no zero", 10_000), ("every 8th a zero", 8), ("every 2nd a zero", 2), ("zeros only", 1)]
        {
            // As long a message as has a frame of that size.
            let message: Vec<u8> = (1..size).map(|i| if i % every == 0 { 0 } else { (i % 255) as u8 + 1 }).collect();
            let len =
                (0..message.len()).rev().find(|&len| frame(&message[..len]).len() <= size).expect("the empty one");
            let frame = frame(&message[..len]);
            let mut state = Accumulator::new();
            let (Fed::Frame { message: got, len: got_len }, []) = state.feed(&frame) else { panic!("{name}") };
            assert_eq!(got[..got_len], message[..len], "{name}");
            for (fed, chunks) in [("at once", vec![&frame[..]]), ("by 16 bytes", frame.chunks(16).collect())] {
                let [ours, plain, valued] = raced(&chunks);
                println!(
                    "| {size} bytes | {fed} | {name} | {ours:.0} | {plain:.0} | {:.2} | {valued:.0} |",
                    ours / plain
                );
            }
        }
    }
}
