//! A message sent as a frame, beside plain Rust that keeps to the same rules, in the faster of two forms: it finds the
//! frame's length first, since an output that is too short must stay as it was, and then goes byte by byte or group by group.
use crate::timing::{race, side};
use oracle_driver::feed::frame;
use std::hint::black_box;

/// Byte by byte: a code is put in when its group ends.
fn by_bytes(message: &[u8], out: &mut [u8]) -> Option<usize> {
    let (mut len, mut run) = (message.len() + 2, 0);
    for (i, &byte) in message.iter().enumerate() {
        run = if byte == 0 { 0 } else { run + 1 };
        if run == 254 && i + 1 < message.len() {
            (len, run) = (len + 1, 0);
        }
    }
    let out = out.get_mut(..len)?;
    let (mut code_at, mut at) = (0, 1);
    for (i, &byte) in message.iter().enumerate() {
        if byte != 0 {
            out[at] = byte;
            at += 1;
        }
        if byte == 0 || at - code_at == 255 && i + 1 < message.len() {
            out[code_at] = (at - code_at) as u8;
            (code_at, at) = (at, at + 1);
        }
    }
    out[code_at] = (at - code_at) as u8;
    out[at] = 0;
    Some(at + 1)
}

/// The bytes of the next group, and what stands behind it, if that is still to be sent.
fn group(message: &[u8]) -> (&[u8], Option<&[u8]>) {
    let most = message.len().min(254);
    let run = message[..most].iter().position(|&byte| byte == 0).unwrap_or(most);
    let left = if run == 254 { Some(&message[run..]).filter(|left| !left.is_empty()) } else { message.get(run + 1..) };
    (&message[..run], left)
}

/// Group by group, with one copy each.
fn by_groups(message: &[u8], out: &mut [u8]) -> Option<usize> {
    let (mut len, mut left) = (1, Some(message));
    while let Some(message) = left {
        let (bytes, behind) = group(message);
        (len, left) = (len + 1 + bytes.len(), behind);
    }
    let out = out.get_mut(..len)?;
    let (mut at, mut left) = (0, Some(message));
    while let Some(message) = left {
        let (bytes, behind) = group(message);
        out[at] = bytes.len() as u8 + 1;
        out[at + 1..at + 1 + bytes.len()].copy_from_slice(bytes);
        (at, left) = (at + 1 + bytes.len(), behind);
    }
    out[at] = 0;
    Some(at + 1)
}

/// Nanoseconds to send a message into so long an output: ours, and the faster of the plain forms.
fn raced(message: &[u8], out_len: usize) -> (f64, f64) {
    let right = frame(message);
    let [mut one, mut two, mut three] = [0; 3].map(|byte| vec![byte; out_len]);
    let send = |out: &mut [u8]| reystavem::frame(black_box(message), out).ok();
    for (len, out) in [(send(&mut one), &one), (by_bytes(message, &mut two), &two), (by_groups(message, &mut three), &three)] {
        assert_eq!(out[..len.expect("room")], right);
    }
    let [ours, bytes, groups] = race([
        side(|| send(black_box(&mut one))),
        side(|| by_bytes(black_box(message), black_box(&mut two))),
        side(|| by_groups(black_box(message), black_box(&mut three))),
    ]);
    (ours, bytes.min(groups))
}

pub fn report() {
    println!("| Message of | with | output | ours, ns | plain Rust, ns | ratio |\n|---|---|---|---|---|---|");
    for size in [4, 250, 2_000] {
        for (name, every) in [
            ("no zero", usize::MAX),
            ("every 300th a zero", 300),
            ("every 8th a zero", 8),
            ("every 2nd a zero", 2),
            ("zeros only", 1),
        ] {
            if size < every && every < usize::MAX {
                continue;
            }
            let message: Vec<u8> = (1..=size).map(|i| if i % every == 0 { 0 } else { (i % 255) as u8 + 1 }).collect();
            for (room, out_len) in [("2,100 bytes", 2_100), ("just long enough", frame(&message).len())] {
                let (ours, plain) = raced(&message, out_len);
                println!("| {size} bytes | {name} | {room} | {ours:.1} | {plain:.1} | {:.2} |", ours / plain);
            }
        }
    }
}
