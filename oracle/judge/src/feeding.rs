//! Feeds: the library's answer with the state and the message, by value through the bindings and in lent memory in C, by
//! default and by the bridge's way; and whole streams, cut anywhere, with the messages that must come out of them.
use crate::calls::{lent_bytes, same, Differs};
use crate::Tally;
use oracle_driver::feed::{decode, feed, feed_waiting, frame, FeedAnswer, ROOM};
use oracle_driver::rng::Rng;
use reystavem::{Accumulator, Fed};

/// By both ways, to a state that waits and to the same that doesn't.
pub fn both_ways(idx: u64, array: &[u8; ROOM], chunk: &[u8]) -> Result<(), Differs> {
    for waiting in [false, true] {
        by_default(idx, waiting, array, chunk).1?;
        let right = feed(idx, array, chunk);
        let mut state = Accumulator { array: *array, idx, waiting };
        let fed = state.feed_bridge(chunk);
        fed_right(fed, &state, &right, waiting)?;
        let mark = mark_in_c(waiting, chunk);
        fed_right_in_c(reystavem_feed_bridge, (idx, mark), array, chunk, &right, mark)?;
    }
    other_lengths(reystavem_feed_bridge, idx, array, chunk)
}

/// By default; and what the request is counted as.
pub fn by_default(idx: u64, waiting: bool, array: &[u8; ROOM], chunk: &[u8]) -> (&'static str, Result<(), Differs>) {
    let (right, waits) = feed_waiting(idx, waiting, array, chunk);
    let mut state = Accumulator { array: *array, idx, waiting };
    let fed = state.feed(chunk);
    let mark = mark_in_c(waiting, chunk);
    let after = if right.no == 24 { mark } else { waits.into() };
    let outcome = fed_right(fed, &state, &right, waits)
        .and_then(|()| fed_right_in_c(reystavem_feed, (idx, mark), array, chunk, &right, after))
        .and_then(|()| other_lengths(reystavem_feed, idx, array, chunk));
    (if waiting { "feed while waiting" } else { "feed" }, outcome)
}

/// In C any number but 0 is waiting.
fn mark_in_c(waiting: bool, chunk: &[u8]) -> u64 {
    if waiting {
        [1, 2, 1 << 32, u64::MAX][chunk.len() % 4]
    } else {
        0
    }
}

/// What a feed by value gives, and the state that it leaves.
fn fed_right((fed, rest): (Fed, &[u8]), state: &Accumulator, right: &FeedAnswer, waits: bool) -> Result<(), Differs> {
    let (ours, message, len) = match fed {
        Fed::Consumed => (20, [0; ROOM], 0),
        Fed::OverFull => (21, [0; ROOM], 0),
        Fed::BadFrame => (22, [0; ROOM], 0),
        Fed::Frame { message, len } => (23, message, len),
        Fed::BadState => (24, [0; ROOM], 0),
    };
    same("number, idx and the mark", (ours, state.idx, state.waiting), (right.no, right.idx, waits))?;
    same("rest", rest, right.rest)?;
    same("message", (len, message), (right.message.len(), padded(&right.message)))?;
    same("array", state.array, right.array)
}

/// The message with zeros behind it.
fn padded(message: &[u8]) -> [u8; ROOM] {
    let mut padded = [0; ROOM];
    padded[..message.len()].copy_from_slice(message);
    padded
}

/// What the same feed gives in lent memory, as the header has it, with the mark that it leaves.
fn fed_right_in_c(
    call: Call,
    (idx, mark): (u64, u64),
    array: &[u8; ROOM],
    chunk: &[u8],
    right: &FeedAnswer,
    after: u64,
) -> Result<(), Differs> {
    let (mut array_in_c, mut message_in_c) = (*array, lent_bytes(ROOM));
    let used = (chunk.len() - right.rest.len()) as u64;
    let told = [right.idx, after, right.message.len() as u64, used];
    let ours = feed_in_c(call, (idx, mark), &mut array_in_c, chunk, &mut message_in_c);
    same("number, idx, the mark, length and rest in C", ours, (right.no.into(), told))?;
    same("array in C", array_in_c, right.array)?;
    same("message in C", &message_in_c[..], &padded(&right.message))
}

/// Slices of another length than the room's are 24, and nothing changes, nor the mark, whatever number it is.
fn other_lengths(call: Call, idx: u64, array: &[u8; ROOM], chunk: &[u8]) -> Result<(), Differs> {
    let other = [0, 256, ROOM - 1, ROOM + 1][chunk.len() % 4];
    for (array, message) in [(array.to_vec(), lent_bytes(other)), (lent_bytes(other), lent_bytes(ROOM))] {
        let (mut array_in_c, mut message_in_c) = (array.clone(), message.clone());
        let mark = [0, 1, 2, u64::MAX][chunk.len() / 4 % 4];
        let ours = feed_in_c(call, (idx, mark), &mut array_in_c, chunk, &mut message_in_c);
        same("number, idx, the mark, length and rest by another length", ours, (24, [idx, mark, 0, 0]))?;
        same("slices of another length", (array_in_c, message_in_c), (array, message))?;
    }
    Ok(())
}

// ---- whole streams

/// So many streams of frames, good, spoilt, over-full and unfinished ones, each cut at random: the messages that come out
/// are those that stand between two zeros, or between the start and a zero, and no others. Where no over-full chunk lacks
/// a zero, the bridge's way gives the same. The oracle isn't asked, but for a frame's message.
pub fn streams(seed: u64, count: u64) -> Tally {
    let mut tally = Tally::default();
    for n in 0..count {
        let mut rng = Rng(seed.wrapping_mul(0x1_0000_0001).wrapping_add(n));
        let stream = any_stream(&mut rng);
        let cuts = cut(&stream, &mut rng);
        let right = messages(&stream);
        let (by_default, _) = fed(&cuts, Accumulator::feed);
        let outcome = same("messages of a stream", &by_default, &right);
        tally.note("stream", outcome, || format!("stream {n} of seed {seed}"));
        let (by_bridge, calm) = fed(&cuts, Accumulator::feed_bridge);
        if calm {
            let outcome = same("messages by the bridge's way", &by_bridge, &right);
            tally.note("stream by the bridge's way", outcome, || format!("stream {n} of seed {seed}"));
        }
    }
    tally
}

fn any_stream(rng: &mut Rng) -> Vec<u8> {
    let mut stream = vec![];
    for _ in 0..rng.from_to(1, 8) {
        let len = if rng.chance(4) { rng.below(3 * ROOM) } else { rng.below(60) };
        let often = *rng.pick(&[3, 50, 100_000]);
        let message: Vec<u8> = (0..len).map(|_| if rng.chance(often) { 0 } else { rng.byte() }).collect();
        let mut bytes = frame(&message);
        if rng.chance(8) {
            let p = rng.below(bytes.len());
            bytes[p] = rng.byte();
        }
        stream.extend(bytes);
    }
    if rng.chance(3) {
        stream.pop();
    }
    stream
}

/// In chunks of one size, or of any; empty ones too.
fn cut<'s>(stream: &'s [u8], rng: &mut Rng) -> Vec<&'s [u8]> {
    let most = *rng.pick(&[1, 16, 300, 4 * ROOM]);
    let (mut chunks, mut left) = (vec![], stream);
    while !left.is_empty() {
        let (chunk, behind) = left.split_at(rng.below(most + 1).min(left.len()));
        chunks.push(chunk);
        left = behind;
    }
    chunks
}

/// The messages between zeros that fit.
fn messages(stream: &[u8]) -> Vec<Vec<u8>> {
    let mut frames: Vec<&[u8]> = stream.split(|&byte| byte == 0).collect();
    frames.pop();
    frames.into_iter().filter(|bytes| bytes.len() < ROOM).filter_map(decode).collect()
}

/// What comes out of chunks, each rest fed again as the next; and whether no over-full chunk lacks a zero.
fn fed(chunks: &[&[u8]], feed: for<'c> fn(&mut Accumulator, &'c [u8]) -> (Fed, &'c [u8])) -> (Vec<Vec<u8>>, bool) {
    let (mut state, mut messages, mut calm) = (Accumulator::new(), vec![], true);
    for mut chunk in chunks.iter().copied() {
        loop {
            let (fed, rest) = feed(&mut state, chunk);
            match fed {
                Fed::Frame { message, len } => messages.push(message[..len].to_vec()),
                Fed::OverFull => calm &= chunk.contains(&0),
                _ => {}
            }
            if rest.is_empty() {
                break;
            }
            chunk = rest;
        }
    }
    (messages, calm)
}

// ---- the calls, as the header has them

type Call = unsafe extern "C" fn(
    *mut u8,
    usize,
    *const u8,
    usize,
    *mut u8,
    usize,
    *mut u64,
    *mut u64,
    *mut u64,
    *mut u64,
) -> u64;

/// The number, idx, the mark, the message's length and where the rest begins.
fn feed_in_c(
    call: Call,
    (idx, mark): (u64, u64),
    array: &mut [u8],
    chunk: &[u8],
    message: &mut [u8],
) -> (u64, [u64; 4]) {
    let mut told = [idx, mark, u64::MAX, u64::MAX];
    let [idx, waiting, len, rest_from] = &mut told;
    let (array_len, message_len) = (array.len(), message.len());
    let (array, message) = (array.as_mut_ptr(), message.as_mut_ptr());
    // SAFETY: each slice is lent with its own length; the numbers are ours.
    let number = unsafe {
        call(array, array_len, chunk.as_ptr(), chunk.len(), message, message_len, idx, waiting, len, rest_from)
    };
    (number, told)
}

extern "C" {
    fn reystavem_feed(
        array: *mut u8,
        array_len: usize,
        chunk: *const u8,
        chunk_len: usize,
        message: *mut u8,
        message_len: usize,
        idx: *mut u64,
        waiting: *mut u64,
        len: *mut u64,
        rest_from: *mut u64,
    ) -> u64;
    fn reystavem_feed_bridge(
        array: *mut u8,
        array_len: usize,
        chunk: *const u8,
        chunk_len: usize,
        message: *mut u8,
        message_len: usize,
        idx: *mut u64,
        waiting: *mut u64,
        len: *mut u64,
        rest_from: *mut u64,
    ) -> u64;
}
