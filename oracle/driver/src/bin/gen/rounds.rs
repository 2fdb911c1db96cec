//! The part of the stream that the seed decides: rounds of a random table each.

use crate::forms::Odd;
use crate::tables::{fewest, leaf, LEAVES};
use crate::{Enough, Gen, Go};
use oracle_driver::feed::ROOM;
use oracle_driver::model::{self, encode_char, shortest};
use oracle_driver::table::*;
use oracle_driver::{write, Entry, WORDS};

/// A value of a table, and its wire form.
pub struct Sample {
    pub entries: Vec<Entry>,
    pub pool: Vec<u8>,
    pub message: Vec<u8>,
}

impl Gen {
    pub fn round(&mut self) -> Go {
        if self.rng.chance(40) {
            self.large_round()?;
        }
        let t = self.table();
        let file = self.file(&t);
        if let Some(Sample { entries, pool, message }) = self.reads(&t, &file)? {
            self.writes(&file, &entries, &pool, message.len())?;
        }
        self.bad_tables(&file, 8)?;
        for _ in 0..6 {
            self.appends(&t, &file)?;
        }
        for _ in 0..4 {
            self.feeds()?;
        }
        for _ in 0..6 {
            let len = self.rng.below(14);
            let m = self.odd_bytes(len);
            let place = if self.rng.chance(12) { self.rng.word() } else { self.rng.below(len + 2) as u64 };
            let kind = if self.rng.chance(10) { self.rng.below(36) as u8 } else { *self.rng.pick(&LEAVES) };
            self.take(kind, &m, place)?;
        }
        Ok(())
    }

    /// A table of any size, with chains as long as they may be, and too long.
    pub fn large_table(&mut self) -> Table {
        let most = *self.rng.pick(&[300, 600, 1_200, 2_400, SECOND.nodes]);
        let n = self.rng.from_to(most / 2, most);
        let chain = *self.rng.pick(&[2, 5, 40, CHAIN - 1, CHAIN, CHAIN, CHAIN + 1, CHAIN + 40]);
        let mut t = self.table_of(n, SECOND.places - 10, chain);
        // A root whose values aren't too large, if one is met.
        let min = fewest(&t);
        t.root = (0..40).map(|_| self.rng.below(n)).find(|&i| (3..300).contains(&min[i])).unwrap_or(n - 1);
        t
    }

    /// Few requests, since each is long.
    fn large_round(&mut self) -> Go {
        let t = self.large_table();
        let file = self.file(&t);
        for len in [0, 3, 30] {
            let m = self.odd_bytes(len);
            self.read(&file, &m, 40)?;
        }
        if let Some(Sample { entries, pool, message }) = self.sample(&t) {
            let count = entries.len() as u64;
            self.read(&file, &message, count)?;
            self.read(&file, &message[..message.len() / 2], count)?;
            self.write(&file, &entries.concat(), &pool, message.len())?;
        }
        self.bad_tables(&file, 2)?;
        for _ in 0..3 {
            self.appends(&t, &file)?;
        }
        Ok(())
    }

    pub fn table(&mut self) -> Table {
        let most = *self.rng.pick(&[1, 2, 3, 4, 6, 8, 12, 20, 60, 256]);
        let n = self.rng.from_to(1, most);
        self.table_of(n, 1_000, CHAIN)
    }

    /// So many nodes, at most so many places in the child list, and chains up to so long.
    fn table_of(&mut self, n: usize, most_places: usize, most_chain: usize) -> Table {
        let mut nodes: Vec<Node> = vec![];
        let mut chains: Vec<usize> = vec![];
        let mut places = 0;
        for i in 0..n {
            let last = i + 1 == n;
            let node = if i == 0 || (!last && self.rng.chance(2)) {
                if self.rng.chance(25) {
                    leaf(STRUCT)
                } else {
                    leaf(*self.rng.pick(&LEAVES))
                }
            } else {
                let kind = *self.rng.pick(&[OPTION, SEQ, MAP, STRUCT, STRUCT, STRUCT, ENUM, ENUM]);
                let kids = match kind {
                    OPTION | SEQ => 1,
                    MAP => 2,
                    STRUCT => self.rng.below(6),
                    _ => self.rng.from_to(1, 5),
                };
                let kids = if self.rng.chance(40) && kind >= STRUCT { most_places.min(1_300) / 10 } else { kids };
                if kind >= STRUCT {
                    places += kids;
                }
                if places > most_places {
                    leaf(U8)
                } else {
                    let kids = (0..kids).map(|_| self.earlier(i));
                    // Node 0 is always a leaf.
                    let kids = kids.map(|k| if chains[k] < most_chain { k } else { 0 }).collect();
                    Node { kind, kids }
                }
            };
            chains.push(1 + node.kids.iter().map(|&k| chains[k]).max().unwrap_or(0));
            nodes.push(node);
        }
        let root = if self.rng.chance(6) { self.rng.below(n) } else { n - 1 };
        Table { nodes, root }
    }

    /// A node before `i`, more often a near one.
    fn earlier(&mut self, i: usize) -> usize {
        if self.rng.chance(2) {
            self.rng.from_to(i.saturating_sub(3), i - 1)
        } else {
            self.rng.below(i)
        }
    }

    /// A file of the table with a note and junk in the list, at random, and of either form if the first has room.
    pub fn file(&mut self, t: &Table) -> Vec<u8> {
        let mut list = vec![];
        if self.rng.chance(4) {
            list = (0..self.rng.below(5)).map(|_| self.rng.word() as u16 % 300).collect();
        }
        let note = if self.rng.chance(4) { self.rng.below(20) } else { 0 };
        let note = self.rng.bytes(note);
        let named = t.nodes.iter().filter(|node| node.kind >= STRUCT).map(|node| node.kids.len());
        let fits = t.nodes.len() <= FIRST.nodes && list.len() + named.sum::<usize>() <= FIRST.places;
        let form = if fits && self.rng.chance(2) { FIRST } else { SECOND };
        t.file_with(form, &list, &note)
    }

    pub fn odd_byte(&mut self) -> u8 {
        if self.rng.chance(3) {
            self.rng.byte()
        } else {
            *self.rng.pick(&[0, 0, 1, 1, 2, 3, 4, 5, 0x0F, 0x10, 0x61, 0x7F, 0x80, 0x80, 0xC3, 0xFF])
        }
    }

    pub fn odd_bytes(&mut self, len: usize) -> Vec<u8> {
        (0..len).map(|_| self.odd_byte()).collect()
    }

    fn integer(&mut self, bits: u32) -> u64 {
        let mask = u64::MAX >> (64 - bits);
        let x = match self.rng.below(4) {
            0 => self.rng.below(4) as u64,
            1 => (1u64 << self.rng.below(bits as usize)).wrapping_sub(self.rng.below(2) as u64),
            2 => mask - self.rng.below(2) as u64,
            _ => self.rng.word() >> self.rng.below(64),
        };
        x & mask
    }

    /// A random value of a node, put behind `entries`.
    pub fn value(&mut self, t: &Table, min: &[u64], node: usize, entries: &mut Vec<Entry>, pool: &mut Vec<u8>) {
        let full = entries.len() > 60;
        let n = &t.nodes[node];
        let at = entries.len();
        entries.push([0, 0, self.any_place()]);
        let signed = |x: u64, bits: u32| ((x << (64 - bits)) as i64 >> (64 - bits)) as u64;
        let small = |k: usize| min[k] < 40;
        let [w0, w1] = match n.kind {
            BOOL => [self.rng.below(2) as u64, 0],
            I8 => [signed(self.integer(8), 8), 0],
            I16 | 20 | 26 => [signed(self.integer(16), 16), 0],
            I32 | 21 | 27 => [signed(self.integer(32), 32), 0],
            U8 => [self.integer(8), 0],
            U16 | 23 | 29 => [self.integer(16), 0],
            U32 | F32 | 24 | 30 => [self.integer(32), 0],
            I64 | U64 | F64 | 22 | 25 | 28 | 31 => [self.integer(64), 0],
            CHAR => [self.char().into(), 0],
            STR | BYTES => {
                let bytes = if n.kind == BYTES && self.rng.chance(2) {
                    let len = self.rng.below(9);
                    self.rng.bytes(len)
                } else {
                    (0..self.rng.below(5)).flat_map(|_| encode_char(self.char())).collect()
                };
                // Sometimes overlap with what is there already.
                let offset = match pool.windows(bytes.len().max(1)).position(|w| w == bytes) {
                    Some(p) if self.rng.chance(2) => p,
                    _ => {
                        pool.extend(&bytes);
                        pool.len() - bytes.len()
                    }
                };
                [offset as u64, bytes.len() as u64]
            }
            UNIT | STRUCT => [0, 0],
            OPTION => [u64::from(!full && small(n.kids[0]) && !self.rng.chance(3)), 0],
            SEQ | MAP => {
                let most = if full || !n.kids.iter().all(|&k| small(k)) { 0 } else { 3 };
                [self.rng.from_to(0, most) as u64, 0]
            }
            ENUM => {
                let least = (0..n.kids.len()).min_by_key(|&v| min[n.kids[v]]).unwrap();
                let v = self.rng.below(n.kids.len());
                [(if full || !small(n.kids[v]) { least } else { v }) as u64, 0]
            }
            _ => unreachable!(),
        };
        entries[at][..2].copy_from_slice(&[w0, w1]);
        match n.kind {
            OPTION if w0 == 0 => {}
            SEQ | MAP => {
                for _ in 0..w0 {
                    for &k in &n.kids {
                        self.value(t, min, k, entries, pool);
                    }
                }
            }
            ENUM => self.value(t, min, n.kids[w0 as usize], entries, pool),
            _ => {
                for &k in &n.kids {
                    self.value(t, min, k, entries, pool);
                }
            }
        }
    }

    fn char(&mut self) -> u32 {
        let edges = [0, 0x61, 0x7F, 0x80, 0x7FF, 0x800, 0xD7FF, 0xE000, 0xFFFD, 0xFFFF, 0x10000, 0x1F600, 0x10FFFF];
        if self.rng.chance(2) {
            return *self.rng.pick(&edges);
        }
        let c = self.rng.below(0x110000) as u32;
        if (0xD800..0xE000).contains(&c) {
            c - 0xD800
        } else {
            c
        }
    }

    /// A value of the table, if it has one that isn't too large.
    pub fn sample(&mut self, t: &Table) -> Option<Sample> {
        let min = fewest(t);
        if min[t.root] > 300 {
            return None;
        }
        let (mut entries, mut pool) = (vec![], self.odd_bytes(2));
        self.value(t, &min, t.root, &mut entries, &mut pool);
        if entries.len() > 700 {
            return None;
        }
        let message = write::write_good(t, &entries, &pool, 1 << 16).expect("a value of our own fits");
        Some(Sample { entries, pool, message })
    }

    /// Reads of odd bytes, and of what becomes of a value's wire form. None if the table has too large values only.
    pub fn reads(&mut self, t: &Table, file: &[u8]) -> Result<Option<Sample>, Enough> {
        for _ in 0..8 {
            let len = self.rng.below(24);
            let m = self.odd_bytes(len);
            let room = *self.rng.pick(&[0, 1, 2, 3, 8, 40, 100]);
            self.read(file, &m, room)?;
        }
        let Some(Sample { entries, pool, message }) = self.sample(t) else { return Ok(None) };
        let count = entries.len() as u64;

        for room in [count, count + 1, count.saturating_sub(1), 0, count / 2] {
            self.read(file, &message, room)?;
        }
        let tail = self.rng.from_to(1, 4);
        let tail = self.odd_bytes(tail);
        self.read(file, &[message.clone(), tail].concat(), count)?;
        let step = message.len() / 48 + 1;
        for len in (0..message.len()).step_by(step) {
            self.read(file, &message[..len], count + 2)?;
        }
        for _ in 0..message.len().min(24) {
            let mut m = message.clone();
            let p = self.rng.below(m.len());
            m[p] = match self.rng.below(3) {
                0 => m[p] ^ 1 << self.rng.below(8),
                1 => self.odd_byte(),
                _ => m[p].wrapping_add(1),
            };
            self.read(file, &m, count + 8)?;
        }
        for past in [false, false, true] {
            let m = model::write_good(t, &entries, &pool, &mut Odd { rng: &mut self.rng, past });
            self.read(file, &m, count + 2)?;
        }
        if !message.is_empty() {
            let p = self.rng.below(message.len());
            let huge = shortest(*self.rng.pick(&[u64::MAX, 1 << 63, 1 << 32, 1 << 31, 300]));
            self.read(file, &[&message[..p], &huge, &message[p + 1..]].concat(), count + 8)?;
            let cut = [&message[..p], &message[p + 1..]].concat();
            self.read(file, &cut, count + 2)?;
        }
        Ok(Some(Sample { entries, pool, message }))
    }

    fn writes(&mut self, file: &[u8], entries: &[Entry], pool: &[u8], size: usize) -> Go {
        let words: Vec<u64> = entries.concat();
        for out_len in [size, size.saturating_sub(1), 0, size / 2, size + 3] {
            self.write(file, &words, pool, out_len)?;
        }
        let out = size + 40;
        for _ in 0..4 {
            let keep = self.rng.below(words.len());
            self.write(file, &words[..keep], pool, out)?;
        }
        for extra in [&[0][..], &[0, 0], &[0, 0, 0], &[1, 2, 3], &[0, 0, 0, 0]] {
            self.write(file, &[&words, extra].concat(), pool, out)?;
        }
        // Two words an entry, which are too few; and other places.
        let pairs: Vec<u64> = entries.iter().flat_map(|e| [e[0], e[1]]).collect();
        self.write(file, &pairs, pool, out)?;
        let items: Vec<[u64; 2]> = entries.iter().map(|e| [e[0], e[1]]).collect();
        self.write_list(file, &items, pool, size)?;
        for _ in 0..entries.len().min(16) {
            let mut w = words.clone();
            let e = self.rng.below(entries.len());
            if self.rng.chance(3) {
                w[WORDS * e + 1] =
                    *self.rng.pick(&[0, 1, 2, 4, 1 << 32, u64::MAX, pool.len() as u64, pool.len() as u64 + 1]);
            } else {
                let x = w[WORDS * e];
                w[WORDS * e] = match self.rng.below(6) {
                    0 => x.wrapping_add(1),
                    1 => x.wrapping_sub(1),
                    2 => x ^ 1 << self.rng.below(64),
                    3 => *self.rng.pick(&[
                        0,
                        2,
                        0x80,
                        0x100,
                        0x8000,
                        0x10000,
                        1 << 31,
                        1 << 32,
                        1 << 63,
                        u64::MAX,
                        0xD800,
                        0x110000,
                    ]),
                    4 => x.wrapping_neg(),
                    _ => pool.len() as u64,
                };
            }
            self.write(file, &w, pool, out)?;
        }
        // Entries out of place, and a pool that is shorter or broken.
        if entries.len() > 1 {
            let mut w = entries.to_vec();
            let (a, b) = (self.rng.below(w.len()), self.rng.below(w.len()));
            w.swap(a, b);
            self.write(file, &w.concat(), pool, out)?;
            w.remove(a);
            self.write(file, &w.concat(), pool, out)?;
        }
        let short = &pool[..self.rng.below(pool.len() + 1)];
        self.write(file, &words, short, out)?;
        let mut broken = pool.to_vec();
        if let Some(i) = broken.len().checked_sub(1) {
            let p = self.rng.from_to(0, i);
            broken[p] = self.odd_byte();
        }
        self.write(file, &words, &broken, out)
    }

    /// The table's file with one thing changed, mostly for the worse.
    pub fn bad_table(&mut self, file: &[u8]) -> Vec<u8> {
        let mut f = file.to_vec();
        let n = f.len();
        match self.rng.below(6) {
            0 => f = f[self.rng.below(n)..].to_vec(),
            1 => f.truncate(self.rng.below(n)),
            2 => {
                let p = n - 1 - self.rng.below(14);
                f[p] = self.odd_byte();
            }
            3 => f[n - 2] = FIRST.mark[0] ^ SECOND.mark[0] ^ f[n - 2],
            4 => {
                let p = self.rng.below(n);
                f[p] = *self.rng.pick(&[0, 1, 2, 12, 15, 16, 17, 18, 19, 20, 31, 32, 255]);
            }
            _ => {
                let p = self.rng.below(n);
                f[p] ^= 1 << self.rng.below(8);
            }
        }
        f
    }

    pub fn bad_tables(&mut self, file: &[u8], times: usize) -> Go {
        for _ in 0..times {
            let f = self.bad_table(file);
            let m = self.odd_bytes(6);
            self.read(&f, &m, 6)?;
            if self.rng.chance(4) {
                let words = vec![0; self.rng.below(8)];
                self.write(&f, &words, b"ab", 4)?;
            }
            match self.rng.below(6) {
                0 => self.append(&f, file)?,
                1 => self.append(file, &f)?,
                2 => self.append(&f, &f)?,
                _ => {}
            }
        }
        Ok(())
    }

    /// A pair that differs in one chosen way, asked in both directions.
    fn appends(&mut self, t: &Table, file: &[u8]) -> Go {
        let mut new = t.clone();
        let at = if self.rng.chance(2) { t.root } else { self.rng.below(t.nodes.len()) };
        let kind = new.nodes[at].kind;
        let kids = &mut new.nodes[at].kids;
        match self.rng.below(6) {
            // One more field or variant, behind or in front or in the middle.
            0 | 1 if at > 0 && matches!(kind, STRUCT | ENUM) && kids.len() < 20 => {
                let kid = self.rng.below(at);
                let p = if self.rng.chance(3) { self.rng.from_to(0, kids.len()) } else { kids.len() };
                kids.insert(p, kid);
            }
            // One less.
            2 if kind == STRUCT || kind == ENUM && kids.len() > 2 => {
                kids.pop();
            }
            // Another kind of leaf.
            3 if kids.is_empty() => new.nodes[at] = leaf(*self.rng.pick(&LEAVES)),
            // Another child.
            4 if !kids.is_empty() => {
                let p = self.rng.below(kids.len());
                kids[p] = self.rng.below(at);
            }
            // Nothing, so that at most the numbers differ.
            _ => {}
        }
        // A node in front moves the numbers of all the others.
        if self.rng.chance(2) && new.nodes.len() < SECOND.nodes {
            new.nodes.insert(0, leaf(*self.rng.pick(&LEAVES)));
            for node in &mut new.nodes {
                node.kids.iter_mut().for_each(|k| *k += 1);
            }
            new.root += 1;
        }
        let new = self.file(&new);
        self.append(file, &new)?;
        self.append(&new, file)
    }

    fn feeds(&mut self) -> Go {
        // A frame of a random message within 01's room, maybe spoilt, cut in two at random:
        // the first part in the state, the second in the chunk.
        let len = *self.rng.pick(&[0, 1, 2, 5, 20, 120, 250, 253, 254, 255, 256]);
        let mut frame = vec![];
        for group in self.odd_bytes(len).split(|&b| b == 0) {
            // A longer one wouldn't fit its code; what it is cut to doesn't matter here.
            let group = &group[..group.len().min(253)];
            frame.push(group.len() as u8 + 1);
            frame.extend(group);
        }
        if self.rng.chance(4) {
            let p = self.rng.below(frame.len());
            frame[p] = self.odd_byte();
        }
        frame.push(0);
        let cut = self.rng.below(frame.len().min(257));
        let mut array = [0; ROOM];
        array[..256].fill_with(|| self.rng.byte());
        array[..cut].copy_from_slice(&frame[..cut]);
        let mut chunk = frame[cut..].to_vec();
        let tail = self.rng.below(6);
        chunk.extend(self.odd_bytes(tail));
        if self.rng.chance(4) {
            chunk.retain(|&b| b != 0);
        }
        let idx = match self.rng.below(8) {
            0 => self.rng.below(260) as u64,
            1 => *self.rng.pick(&[255, 256, 257, 1 << 32, u64::MAX]),
            _ => cut as u64,
        };
        self.feed(idx, &array, &chunk)
    }
}
