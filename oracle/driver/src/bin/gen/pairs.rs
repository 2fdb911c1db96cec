//! The stream of comparisons: messages with the same values in other bytes, with few and with many differences, and
//! messages that are refused; with lists that are just long enough, longer and too short.

use crate::forms::{all_below, padded_to, Odd};
use crate::rounds::Sample;
use crate::tables::{fewest, leaf, rooted, with};
use crate::{Gen, Go};
use oracle_driver::model::{self, encode_char, shortest, Plain, Style, Width, W64};
use oracle_driver::rng::Rng;
use oracle_driver::table::*;
use oracle_driver::{Entry, ENTRIES};

/// Writes the same values, varints and chars in longer forms now and then.
pub struct Longer<'r>(pub &'r mut Rng);

impl Style for Longer<'_> {
    fn varint(&mut self, Width(most, _): Width, value: u64) -> Vec<u8> {
        let form = shortest(value);
        let len = if self.0.chance(2) { self.0.from_to(form.len(), most) } else { 0 };
        padded_to(form, len)
    }
    fn char(&mut self, code: u32) -> Vec<u8> {
        let mut utf8 = encode_char(code);
        if self.0.chance(2) {
            utf8.resize(self.0.from_to(utf8.len(), 4), b'a');
        }
        [self.varint(W64, utf8.len() as u64), utf8].concat()
    }
}

/// Floats that are equal with other bits, or unequal to themselves.
const FLOATS: [u64; 7] = [0, 1 << 63, 0x7FF8 << 48, 0xFFF8 << 48, 0x7FF0_0000_0000_0001, 0x7FF0 << 48, 1];
const FLOATS_32: [u64; 7] = [0, 1 << 31, 0x7FC0 << 16, 0xFFC0 << 16, 0x7F80_0001, 0x7F80 << 16, 1];

/// A value that another one is made of.
struct Source<'t> {
    t: &'t Table,
    /// The fewest entries of each node's values.
    min: &'t [u64],
    /// One item in so many is another.
    one_in: usize,
    /// The entries that are still to come.
    left: &'t [Entry],
}

impl Gen {
    pub fn compare_round(&mut self) -> Go {
        let mut t = if self.rng.chance(60) { self.large_table() } else { self.way() };
        // Several times the same, so that there is more to differ.
        if fewest(&t)[t.root] < 20 {
            let times = self.rng.from_to(1, 6);
            t.nodes.push(with(STRUCT, &vec![t.root; times]));
            t.root = t.nodes.len() - 1;
        }
        let file = self.file(&t);
        let times = if file.len() > 2_000 { 2 } else { 12 };
        for _ in 0..times / 4 {
            let (f, len) = (self.bad_table(&file), self.rng.below(8));
            let (one, other) = (self.odd_bytes(len), self.odd_bytes(6));
            self.compare(&f, &one, &other, 4)?;
            self.compare(&file, &one, &other, 40)?;
        }
        let Some(first) = self.sample(&t) else { return Ok(()) };
        let one_in = *self.rng.pick(&[2, 5, 20]);
        let base = self.varied(&t, &first, one_in);
        for _ in 0..times {
            let one_in = *self.rng.pick(&[1, 2, 3, 4, 6, 10, 20, 50]);
            let other = self.varied(&t, &base, one_in);
            self.compared(&t, &file, &base, &other)?;
        }
        self.crowded_pair(&t, &base)
    }

    /// A value like this one, but for some items: one in so many is another, with all that is inside it.
    fn varied(&mut self, t: &Table, Sample { entries, pool, .. }: &Sample, one_in: usize) -> Sample {
        let min = fewest(t);
        let (mut varied, mut pool) = (vec![], pool.clone());
        let mut source = Source { t, min: &min, one_in, left: entries };
        self.vary(&mut source, t.root, &mut varied, &mut pool);
        let message = model::write_good(t, &varied, &pool, &mut Plain);
        Sample { entries: varied, pool, message }
    }

    /// Takes an item from the source and puts it, or another one, behind the entries.
    fn vary(&mut self, source: &mut Source, node: usize, entries: &mut Vec<Entry>, pool: &mut Vec<u8>) {
        let n = &source.t.nodes[node];
        let one_in = source.one_in;
        let is_other = self.rng.chance(one_in);
        let is_leaf = n.kids.is_empty() && n.kind != F32 && n.kind != F64;
        if is_other && (is_leaf || self.rng.chance(3)) && entries.len() < 300 {
            self.pass(source, node);
            return self.value(source.t, source.min, node, entries, pool);
        }
        let (at, mut entry) = (entries.len(), source.left[0]);
        source.left = &source.left[1..];
        match n.kind {
            F32 if is_other => entry[0] = *self.rng.pick(&FLOATS_32),
            F64 if is_other => entry[0] = *self.rng.pick(&FLOATS),
            _ => {}
        }
        entries.push(entry);
        let (mut rounds, kids) = n.behind(entry[0]);
        // An element or a pair less, or one more.
        let counted = matches!(n.kind, SEQ | MAP) && is_other;
        if counted && rounds > 0 && self.rng.chance(2) {
            kids.iter().for_each(|&kid| self.pass(source, kid));
            entries[at][0] -= 1;
            rounds -= 1;
        } else if counted && kids.iter().all(|&kid| source.min[kid] < 20) {
            kids.iter().for_each(|&kid| self.value(source.t, source.min, kid, entries, pool));
            entries[at][0] += 1;
        }
        for _ in 0..rounds {
            for &kid in kids {
                self.vary(source, kid, entries, pool);
            }
        }
    }

    /// Leaves out an item of the source.
    fn pass(&mut self, source: &mut Source, node: usize) {
        let [w0, ..] = source.left[0];
        source.left = &source.left[1..];
        let (rounds, kids) = source.t.nodes[node].behind(w0);
        for _ in 0..rounds {
            for &kid in kids {
                self.pass(source, kid);
            }
        }
    }

    /// Two values in some of their forms: good ones, with a rest, and sometimes ones that are spoilt.
    fn compared(&mut self, t: &Table, file: &[u8], base: &Sample, other: &Sample) -> Go {
        let forms = [base, other].map(|sample| self.form(t, sample));
        let [one, mut other] = forms;
        self.with_lists(file, &one, &other)?;
        match self.rng.below(4) {
            // The other way round, a message beside itself, the same values in other bytes.
            0 => self.with_lists(file, &other, &one)?,
            1 => self.with_lists(file, &one, &one)?,
            2 => {
                let again = model::write_good(t, &base.entries, &base.pool, &mut Longer(&mut self.rng));
                self.with_lists(file, &one, &again)?;
            }
            _ if !one.is_empty() => {
                // One of them ends somewhere or has another byte, or both.
                let mut one = one.clone();
                for m in [&mut one, &mut other] {
                    match self.rng.below(4) {
                        0 => m.truncate(self.rng.below(m.len() + 1)),
                        1 if !m.is_empty() => {
                            let p = self.rng.below(m.len());
                            m[p] = self.odd_byte();
                        }
                        _ => {}
                    }
                }
                self.with_lists(file, &one, &other)?;
            }
            _ => {}
        }
        Ok(())
    }

    /// A value's message: the shortest forms or longer ones, now and then odd ones, with a rest behind it or not.
    fn form(&mut self, t: &Table, Sample { entries, pool, message }: &Sample) -> Vec<u8> {
        let mut m = match self.rng.below(8) {
            0 => model::write_good(t, entries, pool, &mut Odd { rng: &mut self.rng, past: false }),
            1..=3 => model::write_good(t, entries, pool, &mut Longer(&mut self.rng)),
            _ => message.clone(),
        };
        if self.rng.chance(4) {
            let len = self.rng.from_to(1, 4);
            m.extend(self.odd_bytes(len));
        }
        m
    }

    /// With a list that is just long enough for the pairs, and with another one.
    fn with_lists(&mut self, file: &[u8], one: &[u8], other: &[u8]) -> Go {
        let Ok(pairs) = model::compare(file, one, other, usize::MAX) else {
            let words = *self.rng.pick(&[0, 1, 4, 9]);
            return self.compare(file, one, other, words);
        };
        let just = 2 * pairs.len();
        self.compare(file, one, other, just)?;
        let more = just + self.rng.from_to(1, 7);
        let words =
            *self.rng.pick(&[0, just / 2, just.saturating_sub(2), just.saturating_sub(1), just + 1, more, more]);
        self.compare(file, one, other, words)
    }

    /// The same value on both sides behind items without bytes, so many that there is just room for all entries, or just
    /// none; not always as many on both sides.
    fn crowded_pair(&mut self, t: &Table, Sample { entries, message, .. }: &Sample) -> Go {
        let (crowd, each) = self.crowd(t);
        let file = self.file(&crowd);
        // Beside them there are the root's entry and the crowd's own.
        let just = (ENTRIES - entries.len() - 2) / each;
        for _ in 0..2 {
            let counts = [0; 2].map(|_| match self.rng.below(8) {
                0 => *self.rng.pick(&[0, 1, 20_000, 1 << 32, 1 << 63, u64::MAX]),
                1..=3 => just as u64,
                _ => (just + self.rng.below(3) - 1) as u64,
            });
            let [one, other] = counts.map(|count| [&shortest(count), &message[..]].concat());
            self.compare(&file, &one, &other, 2)?;
        }
        Ok(())
    }

    pub fn pairs_at_the_edge(&mut self) -> Go {
        self.values_at_the_edge()?;
        self.insides_at_the_edge()?;
        self.lists_at_the_edge()?;
        self.sizes_at_the_edge()
    }

    /// Each of some messages beside each of them.
    fn beside(&mut self, file: &[u8], messages: &[Vec<u8>], words: &[usize]) -> Go {
        for one in messages {
            for other in messages {
                for &words in words {
                    self.compare(file, one, other, words)?;
                }
            }
        }
        Ok(())
    }

    /// For each kind of leaf, alone and in the middle of a struct, forms of equal and of unequal values beside each other.
    fn values_at_the_edge(&mut self) -> Go {
        for kind in (BOOL..=UNIT).chain(FIX_FIRST..=FIX_LAST) {
            let forms: Vec<Vec<u8>> = match kind {
                STR | BYTES | CHAR => [
                    &[0][..],
                    &[0x80, 0],
                    &[1, 0x61],
                    &[0x81, 0, 0x61],
                    &[1, 0x62],
                    &[2, 0x61, 0x62],
                    &[0x82, 0x80, 0, 0x61, 0x62],
                    &[2, 0x61, 0x63],
                    &[2, 0x63, 0x62],
                    &[2, 0xC3, 0xA9],
                    &[2, 0xC3, 0xAA],
                    &[3, 0x61, 0x62, 0x63],
                    &[2, 0xFF, 0],
                    &[5, 0x61],
                ]
                .map(<[u8]>::to_vec)
                .to_vec(),
                F32 => FLOATS_32.map(|bits| (bits as u32).to_le_bytes().to_vec()).to_vec(),
                F64 => FLOATS.map(|bits| bits.to_le_bytes().to_vec()).to_vec(),
                FIX_FIRST..=FIX_LAST => {
                    let zero = [0; 8];
                    let ones = (0..8).map(|i| [&zero[..i], &[1], &zero[i + 1..]].concat());
                    ones.chain([zero.to_vec(), vec![0xFF; 8], vec![0; 3]]).collect()
                }
                _ => [
                    &[0][..],
                    &[1],
                    &[2],
                    &[0x7F],
                    &[0x80, 0],
                    &[0x81, 0],
                    &[0x80, 1],
                    &[0x80, 0x81, 0],
                    &[0x81, 0x80, 0],
                    &[0xFF; 11],
                ]
                .map(<[u8]>::to_vec)
                .to_vec(),
            };
            let with_none: Vec<Vec<u8>> = forms.iter().cloned().chain([vec![]]).collect();
            self.beside(&Table::leaf(kind).file(), &with_none, &[0, 2])?;
            // In other places on both sides, and with a number behind it that differs too, or doesn't.
            let t = rooted(vec![leaf(U16), leaf(kind), with(STRUCT, &[0, 1, 0])]).file();
            let behind = |front: &[u8], back: &[u8]| forms.iter().map(|m| [front, m, back].concat()).collect();
            let (short, long): (Vec<Vec<u8>>, Vec<Vec<u8>>) = (behind(&[7], &[5]), behind(&[0x87, 0], &[5, 9]));
            for one in &short {
                for other in &long {
                    self.compare(&t, one, other, 4)?;
                }
            }
            self.beside(&t, &behind(&[8], &[4]).into_iter().chain(short).collect::<Vec<_>>(), &[5])?;
        }
        Ok(())
    }

    /// Options, variants, elements and pairs, with a number behind them: every short message of small bytes beside each.
    fn insides_at_the_edge(&mut self) -> Go {
        let number = || leaf(U8);
        for (limit, most, t) in [
            (3, 3, rooted(vec![number(), with(OPTION, &[0]), with(STRUCT, &[1, 0])])),
            (2, 5, rooted(vec![number(), with(OPTION, &[0]), with(OPTION, &[1]), with(STRUCT, &[2, 0])])),
            (3, 4, rooted(vec![number(), with(SEQ, &[0]), with(STRUCT, &[1, 0])])),
            (2, 5, rooted(vec![number(), with(MAP, &[0, 0]), with(STRUCT, &[1, 0])])),
            (2, 5, rooted(vec![number(), with(SEQ, &[0]), with(SEQ, &[1]), with(STRUCT, &[2, 0])])),
            (2, 5, rooted(vec![number(), with(OPTION, &[0]), with(SEQ, &[1]), with(STRUCT, &[2, 0])])),
            (
                3,
                3,
                rooted(vec![
                    number(),
                    leaf(UNIT),
                    with(STRUCT, &[0, 0]),
                    with(ENUM, &[1, 0, 2]),
                    with(STRUCT, &[3, 0]),
                ]),
            ),
            (3, 3, rooted(vec![leaf(UNIT), number(), with(SEQ, &[0]), with(STRUCT, &[2, 1])])),
            (2, 4, rooted(vec![leaf(BOOL), with(SEQ, &[0]), with(ENUM, &[0, 1]), with(MAP, &[0, 2])])),
        ] {
            self.beside(&t.file(), &all_below(limit, most), &[6])?;
        }
        Ok(())
    }

    /// 01's table T, a sequence of it and lists of every length; then what comes first of a bad table, a message that is
    /// refused and a list that is too short.
    fn lists_at_the_edge(&mut self) -> Go {
        let t = rooted(vec![leaf(U32), leaf(U64), leaf(I32), with(STRUCT, &[0, 1, 2]), with(SEQ, &[3])]);
        let one = Table { root: 3, ..t.clone() };
        let counts: Vec<Vec<u8>> = [
            &[0xAC, 2, 5, 3][..],
            &[0xAC, 2, 5, 5],
            &[0xAD, 2, 5, 3],
            &[0xAC, 2, 6, 3, 9],
            &[1, 1, 1],
            &[0xAC, 0x82, 0, 0x85, 0, 3],
            &[0xAC, 2, 5],
            &[0xAC, 2, 5, 0xFF, 0xFF, 0xFF, 0xFF, 0xFF],
            &[],
        ]
        .map(<[u8]>::to_vec)
        .to_vec();
        let lists = [0, 1, 2, 3, 4, 5, 6, 7, 8, 40];
        for form in [FIRST, SECOND] {
            let file = one.file_in(form);
            self.beside(&file, &counts, &lists)?;
            let bad_record = [&[99], &file[1..]].concat();
            for table in [&file[..file.len() - 1], &file[1..], &bad_record, &[]] {
                self.beside(table, &counts[6..], &[0, 4])?;
                self.beside(table, &counts[..2], &[0, 4])?;
            }
        }
        let file = t.file();
        let many: Vec<Vec<u8>> = (0..5)
            .flat_map(|changed| [3, 4].map(|count| (changed, count)))
            .map(|(changed, count)| {
                let items = (0..count).flat_map(|i| [1, 2 + u8::from(i < changed), 3 * u8::from(i == 1)]);
                [count].into_iter().chain(items).collect()
            })
            .collect();
        self.beside(&file, &many, &lists)
    }

    /// Differences at each depth of the longest chains; as many entries as there is room for, and one more; and as many
    /// differences as there can be.
    fn sizes_at_the_edge(&mut self) -> Go {
        let mut deep = rooted(vec![leaf(U8)]);
        (0..255).for_each(|i| deep.nodes.push(with(OPTION, &[i])));
        deep.root = 255;
        let file = deep.file_in(SECOND);
        let messages: Vec<Vec<u8>> =
            [0, 1, 2, 128, 254, 255].map(|present| [vec![1; present], vec![0; 2]].concat()).to_vec();
        self.beside(&file, &messages, &[0, 2])?;

        let units = rooted(vec![leaf(UNIT), leaf(U8), with(SEQ, &[0]), with(STRUCT, &[2, 1])]).file();
        let crowds: Vec<Vec<u8>> = [0, 1, ENTRIES as u64 - 4, ENTRIES as u64 - 3, ENTRIES as u64 - 2, u64::MAX]
            .iter()
            .flat_map(|&count| [7, 8].map(|number| [shortest(count), vec![number]].concat()))
            .collect();
        self.beside(&units, &crowds, &[0, 2, 4])?;

        let numbers = rooted(vec![leaf(U8), with(SEQ, &[0])]).file();
        for count in [ENTRIES - 1, ENTRIES] {
            let message = |byte: u8| [shortest(count as u64), vec![byte; count]].concat();
            let mut last = message(1);
            last[count] = 2;
            self.compare(&numbers, &message(1), &message(2), 2 * ENTRIES)?;
            self.compare(&numbers, &message(1), &message(2), 2 * count)?;
            self.compare(&numbers, &message(1), &message(2), 2 * count - 1)?;
            self.compare(&numbers, &message(1), &last, 2)?;
        }
        Ok(())
    }
}
