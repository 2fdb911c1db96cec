//! The stream of waiting states: what is dropped, its zero, and what follows that as a chunk of its own.

use crate::{Gen, Go};
use oracle_driver::feed::{frame, ROOM};

impl Gen {
    /// Nothing, little or much dropped, with its zero or without, and behind that each kind of chunk: none, a frame whole,
    /// unfinished, spoilt or empty, one that just fits and one that doesn't, with its zero and without.
    pub fn waits_at_the_edge(&mut self) -> Go {
        let good = frame(&[0x11, 0x22, 0, 0x33]);
        let full = |len: usize| vec![1; len];
        let chunks = [
            vec![],
            good.clone(),
            good[..3].to_vec(),
            vec![0],
            vec![9, 1, 0],
            [&good[..], &[4, 5]].concat(),
            [&good[..], &good].concat(),
            full(ROOM - 1),
            full(ROOM),
            full(ROOM + 1),
            [&full(ROOM - 1)[..], &[0]].concat(),
            [&full(ROOM)[..], &[0, 7]].concat(),
            [&full(ROOM + 1)[..], &[0, 7]].concat(),
            [&full(ROOM + 1)[..], &[0], &good].concat(),
        ];
        for idx in [0u64, 1, 6, 2_047, 2_048, 2_049, u64::MAX] {
            for dropped in [0, 1, 5, 2_047, 2_048, 2_049, 5_000] {
                for chunk in &chunks {
                    let tail = vec![0x77; dropped];
                    self.feed(idx, &[0x2A; ROOM], &[&tail[..], chunk].concat())?;
                    self.feed(idx, &[0x2A; ROOM], &[&tail[..], &[0], chunk].concat())?;
                }
            }
        }
        Ok(())
    }

    /// A tail that is dropped, at random, in front of a frame as in the stream of frames.
    pub fn wait_round(&mut self) -> Go {
        if self.rng.chance(2) {
            return self.frame_round();
        }
        let len = if self.rng.chance(3) { self.rng.below(2 * ROOM) } else { self.rng.below(40) };
        let mut chunk: Vec<u8> = (0..len).map(|_| self.rng.byte().max(1)).collect();
        if !self.rng.chance(6) {
            chunk.push(0);
        }
        for _ in 0..self.rng.below(3) {
            let len = if self.rng.chance(4) { self.rng.below(2_200) } else { self.rng.below(30) };
            let often = *self.rng.pick(&[2, 9, 100, 100_000]);
            let message: Vec<u8> = (0..len).map(|_| if self.rng.chance(often) { 0 } else { self.rng.byte() }).collect();
            let mut bytes = frame(&message);
            if self.rng.chance(5) {
                let p = self.rng.below(bytes.len());
                bytes[p] = self.odd_byte();
            }
            if self.rng.chance(3) {
                bytes.truncate(self.rng.below(bytes.len()));
            }
            chunk.extend(bytes);
        }
        let array = std::array::from_fn::<u8, ROOM, _>(|_| self.rng.byte());
        let idx = if self.rng.chance(3) { 0 } else { self.rng.below(ROOM + 3) as u64 };
        self.feed(idx, &array, &chunk)
    }
}
