//! The stream of frames: long ones, full groups at every place of them, and the room filled to the last byte, cut in two:
//! the first part in the state, the second in the chunk.

use crate::{Gen, Go};
use oracle_driver::feed::{frame, ROOM};

/// Lengths of runs without a zero, around one, two, three and eight full groups.
const RUNS: [usize; 14] = [0, 1, 252, 253, 254, 255, 256, 507, 508, 509, 762, 763, 2_032, 2_033];

impl Gen {
    /// The array holds the frame's first `cut` bytes, and others behind them.
    fn feed_cut(&mut self, frame: &[u8], cut: usize, behind: u8, tail: &[u8]) -> Go {
        let mut array = [behind; ROOM];
        array[..cut].copy_from_slice(&frame[..cut]);
        self.feed(cut as u64, &array, &[&frame[cut..], tail].concat())
    }

    pub fn frames_at_the_edge(&mut self) -> Go {
        self.runs_at_the_edge()?;
        self.groups_at_the_edge()?;
        self.rooms_of_frames()
    }

    /// The worked examples of the COBS paper, and their like: runs that just fill groups, with and without a zero behind or
    /// in front; each whole and cut, and with one group too many, too few or spoilt.
    fn runs_at_the_edge(&mut self) -> Go {
        for len in RUNS {
            let run = vec![0x55; len];
            for message in [&run[..], &[&run[..], &[0]].concat(), &[&[0], &run[..]].concat(), &[&run[..], &[0, 7]].concat()] {
                let whole = frame(message);
                let groups = &whole[..whole.len() - 1];
                for bytes in [
                    whole.clone(),
                    [groups, &[1, 0]].concat(),
                    [groups, &[1, 1, 0]].concat(),
                    [groups, &[0xFF, 0]].concat(),
                    [&[0xFF], &groups[1..], &[0]].concat(),
                    [&[0xFE], &groups[1..], &[0]].concat(),
                    [&groups[..groups.len() - 1], &[0]].concat(),
                ] {
                    let end = bytes.len();
                    for cut in [0, 1, 2, 254, 255, 256, 257, 510, 511, end.saturating_sub(2), end - 1] {
                        if cut < end.min(ROOM) {
                            self.feed_cut(&bytes, cut, 0, &[])?;
                        }
                    }
                }
            }
        }
        Ok(())
    }

    /// Groups of each large code, one behind the other.
    fn groups_at_the_edge(&mut self) -> Go {
        let group = |code: u8| [&[code][..], &vec![0x61; usize::from(code) - 1]].concat();
        for first in [1, 2, 0x80, 0xFC, 0xFD, 0xFE, 0xFF] {
            for second in [1, 2, 0xFD, 0xFE, 0xFF] {
                for third in [1, 2, 0xFE, 0xFF] {
                    let bytes = [&group(first)[..], &group(second), &group(third), &[0]].concat();
                    for cut in [0, 1, usize::from(first), usize::from(first) + 1, bytes.len() - 1] {
                        self.feed_cut(&bytes, cut, 9, &[4, 0])?;
                    }
                }
            }
        }
        Ok(())
    }

    /// States and chunks that just fill the room, and by a byte too much; states that no feed leaves.
    fn rooms_of_frames(&mut self) -> Go {
        for idx in [0u64, 1, 255, 256, 257, 1_024, 2_042, 2_045, 2_046, 2_047, 2_048, 2_049, 4_096, 1 << 32, u64::MAX] {
            for array in [[0; ROOM], [1; ROOM], std::array::from_fn(|i| i as u8), [0xFF; ROOM]] {
                for len in [0, 1, 2, 3, 6, 7, 1_023, 1_024, 1_025, 1_791, 1_792, 1_793, 2_046, 2_047, 2_048, 2_049] {
                    let mut chunk = vec![1; len];
                    self.feed(idx, &array, &chunk)?;
                    chunk.push(0);
                    self.feed(idx, &array, &chunk)?;
                    chunk.push(4);
                    self.feed(idx, &array, &chunk)?;
                }
            }
        }
        Ok(())
    }

    /// A frame of a random message, maybe spoilt, cut in two at random.
    pub fn frame_round(&mut self) -> Go {
        let len = if self.rng.chance(3) { self.rng.below(2_060) } else { *self.rng.pick(&RUNS) + self.rng.below(8) };
        let often = *self.rng.pick(&[2, 9, 100, 400, 100_000]);
        let message: Vec<u8> = (0..len).map(|_| if self.rng.chance(often) { 0 } else { self.rng.byte().max(1) }).collect();
        let mut bytes = frame(&message);
        if self.rng.chance(4) {
            // An empty group more, which behind a full one means nothing.
            bytes.insert(bytes.len() - 1, 1);
        }
        if self.rng.chance(4) {
            let p = self.rng.below(bytes.len());
            bytes[p] = self.odd_byte();
        }
        let cut = if self.rng.chance(2) { 0 } else { self.rng.below(bytes.len().min(ROOM + 1)) };
        let mut array = [0; ROOM];
        if self.rng.chance(4) {
            array.fill_with(|| self.rng.byte());
        }
        array[..cut].copy_from_slice(&bytes[..cut]);
        let mut chunk = bytes[cut..].to_vec();
        let tail = self.rng.below(6);
        chunk.extend(self.odd_bytes(tail));
        if self.rng.chance(4) {
            chunk.retain(|&b| b != 0);
        }
        let idx = match self.rng.below(8) {
            0 => self.rng.below(ROOM + 4) as u64,
            1 => *self.rng.pick(&[255, 256, 257, 2_047, 2_048, 2_049, 1 << 32, u64::MAX]),
            _ => cut as u64,
        };
        self.feed(idx, &array, &chunk)
    }
}
