//! The stream of strict reads: forms that are longer than they must be, alone and with another refusal beside them.

use crate::forms::{odd_texts, padded_to};
use crate::rounds::Sample;
use crate::tables::{leaf, rooted, with};
use crate::{Gen, Go};
use oracle_driver::model::{self, encode_char, shortest, Style, Width, W16, W32, W64};
use oracle_driver::rng::Rng;
use oracle_driver::table::*;
use oracle_driver::WORDS;

/// Writes every form the shortest, but for one. A spot is a varint that has a longer form within its width, or a char
/// behind which another may stand.
struct OneLonger<'r> {
    rng: &'r mut Rng,
    how: Longer,
    /// Which spot's form is the longer one.
    chosen: usize,
    /// Spots met.
    spots: usize,
    /// The length of the longer form.
    len: usize,
}

#[derive(Clone, Copy)]
enum Longer {
    Within,
    /// Longer than the width allows.
    Past,
    /// Within the width, but of another value.
    Other,
}

impl OneLonger<'_> {
    fn is_chosen(&mut self) -> bool {
        self.spots += 1;
        self.spots - 1 == self.chosen
    }
}

impl Style for OneLonger<'_> {
    fn varint(&mut self, Width(most, last): Width, value: u64) -> Vec<u8> {
        let form = shortest(value);
        if form.len() == most || !self.is_chosen() {
            return form;
        }
        let longer = match self.how {
            Longer::Within => padded_to(form.clone(), self.rng.from_to(form.len() + 1, most)),
            Longer::Past => padded_to(form, most + 1),
            Longer::Other => {
                let others = [value + 1, value + 7, 127, 128, 300, 1 << 31, u32::MAX.into(), 1 << 62];
                let top = u64::from(last) << (7 * (most - 1));
                let other = shortest(*self.rng.pick(&others) % top);
                padded_to(other.clone(), self.rng.from_to(other.len(), most))
            }
        };
        self.len = longer.len();
        longer
    }

    fn char(&mut self, code: u32) -> Vec<u8> {
        let utf8 = encode_char(code);
        let length = self.varint(W64, utf8.len() as u64);
        if utf8.len() == 4 || !self.is_chosen() {
            return [length, utf8].concat();
        }
        let behind = match self.how {
            Longer::Within => vec![b'a'; self.rng.from_to(1, 4 - utf8.len())],
            Longer::Past => vec![b'a'; 5 - utf8.len()],
            Longer::Other => vec![0xC3; 4 - utf8.len()],
        };
        let longer = [vec![(utf8.len() + behind.len()) as u8], utf8, behind].concat();
        self.len = longer.len();
        longer
    }
}

impl Gen {
    /// A message's reads, and twice as many with one of its forms made longer, so that more than a third are 16.
    pub fn strict_round(&mut self) -> Go {
        let t = self.table();
        let file = self.file(&t);
        if self.rng.chance(4) {
            self.bad_tables(&file, 8)?;
        }
        let left = self.left;
        let Some(sample) = self.reads(&t, &file)? else { return Ok(()) };
        let (_, OneLonger { spots, .. }) = one_longer(&mut self.rng, &t, &sample, Longer::Within, usize::MAX);
        if spots > 0 {
            for _ in 0..2 * (left - self.left) {
                self.longer_read(&t, &file, &sample, spots)?;
            }
        }
        Ok(())
    }

    fn longer_read(&mut self, t: &Table, file: &[u8], sample: &Sample, spots: usize) -> Go {
        let how = match self.rng.below(12) {
            0 => Longer::Past,
            1 | 2 => Longer::Other,
            _ => Longer::Within,
        };
        let chosen = self.rng.below(spots);
        let (mut m, OneLonger { len, .. }) = one_longer(&mut self.rng, t, sample, how, chosen);
        // Everything before the longer form is good, so that is where the reader stops.
        let count = sample.entries.len();
        let stop = model::read_strict(file, &m, WORDS * (count + 2));
        let (place, made) = (stop.place, stop.entries.len() as u64);
        let behind = place + len;
        match self.rng.below(10) {
            // It ends inside the item, or right behind the longer form.
            0 => m.truncate(self.rng.from_to(place, m.len())),
            1 => m.truncate(behind),
            // What stands behind it is bad, for a text the item itself.
            2 if behind < m.len() => m[behind] = *self.rng.pick(&[0xFF, 0x80, 0xC3, 2]),
            3 => {
                let p = self.rng.below(m.len());
                m[p] = self.odd_byte();
            }
            4 => m.push(self.odd_byte()),
            _ => {}
        }
        let count = count as u64;
        let room = *self.rng.pick(&[made, made + 1, count, count + 2, count + 2, count + 2]);
        self.read(file, &m, room)
    }

    pub fn paddings_at_the_edge(&mut self) -> Go {
        for (kind, width) in [(I16, W16), (U16, W16), (I32, W32), (U32, W32), (I64, W64), (U64, W64)] {
            let file = Table::leaf(kind).file();
            for value in [0, 1, 2, 0x7F, 0x80, 0x3FFF, 0x4000, 0xFFFF] {
                self.lengths_at_the_edge(&file, width, value, &[&[]])?;
            }
        }
        for kind in [STR, BYTES] {
            let file = Table::leaf(kind).file();
            for text in odd_texts() {
                self.lengths_at_the_edge(&file, W64, text.len() as u64, &[&text, &text[..text.len() / 2]])?;
            }
        }
        let file = Table::leaf(CHAR).file();
        for text in odd_texts().iter().filter(|text| text.len() <= 5) {
            self.lengths_at_the_edge(&file, W64, text.len() as u64, &[text, &text[..text.len() / 2]])?;
        }
        // Elements, pairs and variants that are there, aren't, or are bad: none is looked at before the count.
        let insides: [&[u8]; 5] = [&[], &[0], &[1, 1], &[1, 0x80, 0], &[2, 2]];
        for t in [
            rooted(vec![leaf(BOOL), with(SEQ, &[0])]),
            rooted(vec![leaf(UNIT), with(SEQ, &[0])]),
            rooted(vec![leaf(BOOL), leaf(U16), with(MAP, &[0, 1])]),
        ] {
            for count in [0, 1, 2, 128] {
                self.lengths_at_the_edge(&t.file(), W64, count, &insides)?;
            }
        }
        for variants in [1, 2, 128, 129] {
            let t = rooted(vec![leaf(U16), with(ENUM, &vec![0; variants])]);
            for number in [0, 1, variants as u64 - 1, variants as u64, variants as u64 + 1] {
                self.lengths_at_the_edge(&t.file(), W32, number, &insides)?;
            }
        }
        for lead in [0, 1, 2] {
            let t = rooted(vec![leaf(U16), with(OPTION, &[0])]);
            self.lengths_at_the_edge(&t.file(), W64, lead, &insides)?;
        }
        Ok(())
    }

    /// A varint of every length up to one more than its width has, cut and whole, before each of some bytes.
    fn lengths_at_the_edge(&mut self, file: &[u8], Width(most, _): Width, value: u64, behind: &[&[u8]]) -> Go {
        let form = shortest(value);
        for len in form.len()..=most + 1 {
            let longer = padded_to(form.clone(), len);
            self.read(file, &longer[..len - 1], 4)?;
            for bytes in behind {
                for room in [0, 1, 4] {
                    self.read(file, &[&longer, *bytes].concat(), room)?;
                }
            }
        }
        Ok(())
    }
}

/// A sample's message with one form longer than it must be.
fn one_longer<'r>(
    rng: &'r mut Rng,
    t: &Table,
    sample: &Sample,
    how: Longer,
    chosen: usize,
) -> (Vec<u8>, OneLonger<'r>) {
    let mut style = OneLonger { rng, how, chosen, spots: 0, len: 0 };
    let message = model::write_good(t, &sample.entries, &sample.pool, &mut style);
    (message, style)
}
