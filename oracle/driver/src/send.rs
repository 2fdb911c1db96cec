//! T-14's frames: FROM DOCUMENT 02 AND THE COBS PAPER, NOT THE CRATE, byte by byte. (`feed::frame`, which the generator
//! makes its frames with, goes run by run.)

use crate::Refusal;

/// A message's frame for an output of so many bytes, or 12.
pub fn send(message: &[u8], out_len: usize) -> Result<Vec<u8>, Refusal> {
    let frame = frame(message);
    if frame.len() > out_len {
        return Err(Refusal { no: 12, place: 0 });
    }
    Ok(frame)
}

/// The paper's encoder: a code is counted while its group's bytes are laid behind it, and put in when the group ends.
fn frame(message: &[u8]) -> Vec<u8> {
    let mut frame = vec![0];
    let (mut code_at, mut code) = (0, 1);
    for (i, &byte) in message.iter().enumerate() {
        if byte != 0 {
            frame.push(byte);
            code += 1;
        }
        let full = code == 0xFF;
        // A full group ends by itself; where the message ends with it, no other follows.
        if byte == 0 || full && i + 1 < message.len() {
            frame[code_at] = code;
            (code_at, code) = (frame.len(), 1);
            frame.push(0);
        }
    }
    frame[code_at] = code;
    frame.push(0);
    frame
}
