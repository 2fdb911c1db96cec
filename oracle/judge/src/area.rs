//! The work area that append questions are lent: one for all of them, since it is large and comes back all zero.
use crate::calls::{same, Differs};
use oracle_driver::append::AREA;
use oracle_driver::rng::Rng;

/// The longest area that a request may ask for has so many bytes more than are needed.
const BEYOND: usize = 4_096;

pub struct Area {
    /// Zero up to `AREA` between calls, and `MARKED` beyond.
    bytes: Vec<u8>,
    /// What a short area held before the call.
    before: Vec<u8>,
}

const MARKED: u8 = 0xA5;

impl Area {
    pub fn new() -> Self {
        let bytes = [vec![0; AREA], vec![MARKED; BEYOND]].concat();
        Area { bytes, before: vec![] }
    }

    /// Puts bytes that the request decides into the area, so that a difference can be seen again: none, some here and
    /// there, all of its first part, where the pairs of small tables might be noted, or all of it. Gives a number that
    /// the request decides too.
    pub fn dirty(&mut self, request: &[&[u8]], length: usize) -> u64 {
        let seed = request
            .iter()
            .flat_map(|part| part.iter())
            .fold(length as u64, |h, &b| (h ^ u64::from(b)).wrapping_mul(0x0000_0100_0000_01B3));
        let mut rng = Rng(seed);
        let noisy = length.min(AREA);
        match rng.below(16) {
            0..=3 => {}
            4..=9 if noisy > 0 => {
                for _ in 0..64 {
                    let p = rng.below(noisy);
                    self.bytes[p] = rng.byte();
                }
            }
            10..=14 => {
                let front = noisy.min(1 << rng.from_to(6, 17));
                self.bytes[..front].fill(0xFF);
            }
            _ => self.bytes[..noisy].fill(if rng.chance(2) { 0xFF } else { rng.byte() }),
        }
        if length < AREA {
            self.before.clear();
            self.before.extend(&self.bytes[..length]);
        }
        rng.word()
    }

    /// The first bytes of the area.
    pub fn lent(&mut self, length: usize) -> &mut [u8] {
        &mut self.bytes[..length]
    }

    /// What the call must have made of it: nothing if it was too short, else zeros, and the bytes beyond as before.
    /// Leaves it as it must be for the next call.
    pub fn settle(&mut self, length: usize) -> Result<(), Differs> {
        let unasked = length < AREA;
        let kept = !unasked || self.bytes[..length] == self.before[..];
        if unasked {
            self.bytes[..length].fill(0);
        }
        let words = self.bytes[..AREA].chunks_exact(8);
        let zero = words.fold(0, |any, word| any | u64::from_ne_bytes(word.try_into().expect("eight"))) == 0;
        let beyond = self.bytes[AREA..].iter().all(|&byte| byte == MARKED);
        if !(zero && beyond) {
            *self = Area::new();
        }
        same("a short area unchanged, else all zero, bytes beyond as before", (kept, zero, beyond), (true, true, true))
    }
}
