//! Frames that are sent: the library's answer with the output, through the bindings and in C, and the model's; and what
//! becomes of the frame that it wrote, fed to an accumulator in chunks.
use crate::calls::{lent_bytes, numbered, same, Differs};
use oracle_driver::send::send;
use oracle_driver::Refusal;
use reystavem::{Accumulator, Fed, ROOM};

/// Into an output of so many bytes; and what the request is counted as.
pub fn sending(message: &[u8], out_len: usize) -> (&'static str, Result<(), Differs>) {
    let right = send(message, out_len);
    let kind = match &right {
        Ok(frame) if frame.len() <= ROOM => "frame sent and fed",
        Ok(_) => "frame sent",
        Err(_) => "frame for a short output",
    };
    let before = lent_bytes(out_len);
    let mut after = before.clone();
    if let Ok(frame) = &right {
        after[..frame.len()].copy_from_slice(frame);
    }
    let right = right.map(|frame| frame.len()).map_err(|Refusal { no, place }| (no, place));
    let in_c = right.map_or_else(|(no, place)| (no.into(), place as u64), |len| (0, len as u64));
    let (mut out, mut out_in_c) = (before.clone(), before);
    let ours = reystavem::frame(message, &mut out).map_err(numbered);
    let outcome = same("answer", ours, right)
        .and_then(|()| same("output", &out, &after))
        .and_then(|()| same("number and place in C", frame_in_c(message, &mut out_in_c), in_c))
        .and_then(|()| same("output in C", &out_in_c, &after))
        .and_then(|()| match right {
            Ok(len) if len <= ROOM => fed_again(message, &out[..len]),
            _ => Ok(()),
        });
    (kind, outcome)
}

/// At once, in two parts, and in chunks of another length for each message: 20 until the zero, and then 23.
fn fed_again(message: &[u8], frame: &[u8]) -> Result<(), Differs> {
    let seed = message.iter().fold(message.len(), |sum, &byte| sum.wrapping_mul(31).wrapping_add(byte.into()));
    for size in [frame.len(), 1 + seed % frame.len(), 1 + seed % 17] {
        let mut accumulator = Accumulator { array: [seed as u8; ROOM], idx: 0, waiting: false };
        let mut chunks = frame.chunks(size).peekable();
        while let Some(chunk) = chunks.next() {
            let (fed, rest) = accumulator.feed(chunk);
            same("rest", rest, &[])?;
            match fed {
                Fed::Consumed => same("the last chunk's answer", chunks.peek().is_some(), true)?,
                Fed::Frame { message: got, len } => {
                    same("a chunk behind the frame's", chunks.peek(), None)?;
                    same("message", &got[..len], message)?;
                    same("idx", accumulator.idx, 0)?;
                }
                other => return Err(Differs(format!("a feed of a sent frame: {other:?}"))),
            }
        }
    }
    Ok(())
}

/// The number and the place, as the header has them.
fn frame_in_c(message: &[u8], out: &mut [u8]) -> (u64, u64) {
    let mut place = u64::MAX;
    let (message_len, out_len) = (message.len(), out.len());
    // SAFETY: each slice is lent with its own length; the number is ours.
    let number =
        unsafe { reystavem_frame(message.as_ptr(), message_len, out.as_mut_ptr(), out_len, &mut place) };
    (number, place)
}

extern "C" {
    fn reystavem_frame(
        message: *const u8,
        message_len: usize,
        out: *mut u8,
        out_len: usize,
        place: *mut u64,
    ) -> u64;
}
