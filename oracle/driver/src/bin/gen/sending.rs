//! The stream of messages that are sent as frames: every length up to 2,100, and random ones around full groups, each with an
//! output that is just long enough, longer, or too short.

use crate::{Gen, Go};
use oracle_driver::feed::frame;
use oracle_driver::proto::hex;

/// How often a byte of a message is zero: never, always, and now and then.
const EVERY: [usize; 6] = [usize::MAX, 1, 2, 7, 100, 254];

impl Gen {
    fn send(&mut self, message: &[u8], out_len: usize) -> Go {
        self.line('E', format_args!("{} {out_len:x}", hex(message)))
    }

    /// With the frame's own length, a byte less and a byte more.
    fn send_closely(&mut self, message: &[u8]) -> Go {
        let len = frame(message).len();
        for out_len in [len - 1, len, len + 1] {
            self.send(message, out_len)?;
        }
        Ok(())
    }

    pub fn sends_at_the_edge(&mut self) -> Go {
        for len in 0..=2_100 {
            for every in EVERY {
                let message: Vec<u8> = (1..=len).map(|i| if i % every == 0 { 0 } else { (i % 255) as u8 + 1 }).collect();
                self.send_closely(&message)?;
            }
        }
        // A zero at each place around the end of a full group, and outputs of any length.
        for zero in 250..=512 {
            let mut message = vec![0x55; 600];
            message[zero] = 0;
            self.send_closely(&message)?;
        }
        for out_len in 0..=300 {
            self.send(&[7; 255], out_len)?;
        }
        Ok(())
    }

    /// Runs around one, two and eight full groups, with a zero between them or none.
    pub fn send_round(&mut self) -> Go {
        let mut message = vec![];
        for _ in 0..self.rng.from_to(0, 5) {
            let run = *self.rng.pick(&[0, 1, 2, 100, 252, 253, 254, 255, 256, 507, 508, 509, 762, 2_032]);
            message.extend((0..run).map(|_| self.rng.byte().max(1)));
            let zeros = self.rng.below(3);
            message.extend(vec![0; zeros]);
        }
        let len = frame(&message).len();
        let out_len = match self.rng.below(8) {
            0 => self.rng.below(len),
            1 => len - 1,
            2 => len + self.rng.below(600),
            _ => len,
        };
        self.send(&message, out_len)
    }
}
