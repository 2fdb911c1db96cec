//! The stream of finds: paths that lead to an item and paths that don't, in messages that are good up to the item, up to
//! its end, or not so far.

use crate::forms::{all_below, odd_texts, odd_varints, Odd};
use crate::rounds::Sample;
use crate::tables::{fewest, leaf, rooted, with, LEAVES};
use crate::{Gen, Go};
use oracle_driver::find::leads;
use oracle_driver::model::{self, shortest, W64};
use oracle_driver::table::*;
use oracle_driver::{ENTRIES, WORDS};

/// Positions that are those of a small number in fewer bits, or in no struct.
const FAR: [u64; 7] = [1 << 8, 1 << 16, 1 << 32, 1 << 63, u64::MAX, u64::MAX - 1, 1 << 15];

impl Gen {
    pub fn find_round(&mut self) -> Go {
        let t = if self.rng.chance(60) { self.large_table() } else { self.way() };
        let file = self.file(&t);
        let times = if file.len() > 2_000 { 1 } else { 8 };
        for _ in 0..times / 2 {
            let (f, path, m) = (self.bad_table(&file), self.path(&t), self.odd_bytes(6));
            self.find(&f, &path, &m)?;
            let len = self.rng.below(24);
            let (path, m) = (self.path(&t), self.odd_bytes(len));
            self.find(&file, &path, &m)?;
        }
        let Some(sample) = self.sample(&t) else { return Ok(()) };
        for _ in 0..times {
            let path = self.path(&t);
            self.finds(&t, &file, &sample, &path)?;
        }
        let path = self.path(&t);
        self.crowded(&t, &sample, &path)
    }

    /// A random table under a way of structs and options, down from its root to one of its nodes or to a leaf.
    pub fn way(&mut self) -> Table {
        let mut t = self.table();
        if self.rng.chance(2) {
            t.nodes.push(leaf(*self.rng.pick(&LEAVES)));
            t.root = t.nodes.len() - 1;
        }
        for _ in 0..self.rng.below(6) {
            let on_the_way = t.root;
            t.root = t.nodes.len();
            if self.rng.chance(4) {
                t.nodes.push(with(OPTION, &[on_the_way]));
                continue;
            }
            // Nodes with large values only would make all of the table's values large.
            let min = fewest(&t);
            let beside: Vec<usize> = (0..self.rng.below(5)).map(|_| self.rng.below(t.root)).collect();
            let mut kids: Vec<usize> = beside.into_iter().filter(|&k| min[k] < 20).collect();
            kids.insert(self.rng.from_to(0, kids.len()), on_the_way);
            t.nodes.push(with(STRUCT, &kids));
        }
        t
    }

    /// A path that mostly leads to an item.
    fn path(&mut self, t: &Table) -> Vec<u64> {
        if self.rng.chance(8) {
            return self.wrong_path(t);
        }
        let path = self.steps(t, &[STRUCT, OPTION]);
        (0..8).map(|_| self.steps(t, &[STRUCT, OPTION])).find(|path| leads(t, path)).unwrap_or(path)
    }

    /// Steps down from the root, as long as there is a child and the kind may be entered.
    fn steps(&mut self, t: &Table, enters: &[u8]) -> Vec<u64> {
        let (mut node, mut path) = (t.root, vec![]);
        while enters.contains(&t.nodes[node].kind) && !t.nodes[node].kids.is_empty() {
            let kids = &t.nodes[node].kids;
            let k = self.rng.below(kids.len());
            path.push(k as u64);
            node = kids[k];
        }
        path
    }

    /// A path that mostly leads to no item: too short, too long, a position that isn't there, or through what can't be
    /// entered.
    fn wrong_path(&mut self, t: &Table) -> Vec<u64> {
        let mut path = self.steps(t, &[STRUCT, OPTION]);
        match self.rng.below(4) {
            0 => path.truncate(self.rng.below(path.len() + 1)),
            1 => {
                let more = *self.rng.pick(&[0, 0, 1, u64::MAX]);
                path.extend(vec![more; self.rng.from_to(1, 3)]);
            }
            2 if !path.is_empty() => {
                let p = self.rng.below(path.len());
                path[p] = match self.rng.below(3) {
                    0 => path[p] + self.rng.from_to(1, 3) as u64,
                    1 => path[p].wrapping_add(*self.rng.pick(&FAR)),
                    _ => self.rng.word(),
                };
            }
            _ => path = self.steps(t, &[STRUCT, OPTION, SEQ, MAP, ENUM]),
        }
        path
    }

    /// What becomes of a value's wire form, before the item, in it and behind it.
    fn finds(&mut self, t: &Table, file: &[u8], sample: &Sample, path: &[u64]) -> Go {
        let Sample { entries, pool, message } = sample;
        self.find(file, path, message)?;
        if !leads(t, path) {
            let m = self.odd_bytes(4);
            return self.find(file, path, &m);
        }
        // The item, or the option that is absent.
        let place = model::find(file, path, message).map_or_else(|refusal| refusal.place, |entry| entry[2] as usize);
        let end = (place + 1..=message.len()).find(|&end| model::find(file, path, &message[..end]).is_ok());
        let end = end.unwrap_or(place);
        let len = self.rng.below(5);
        let tail = self.odd_bytes(len);
        self.find(file, path, &[message, &tail[..]].concat())?;
        self.find(file, path, &[&message[..end], &tail].concat())?;
        for cut in [place, end, end.saturating_sub(1), self.rng.from_to(0, place), self.rng.below(message.len() + 1)] {
            self.find(file, path, &message[..cut])?;
        }
        if !message.is_empty() {
            for spot in [self.rng.below(message.len()), self.rng.from_to(0, place), place, end] {
                let mut m = message.clone();
                let p = spot.min(m.len() - 1);
                m[p] = if self.rng.chance(2) { self.odd_byte() } else { m[p] ^ 1 << self.rng.below(8) };
                self.find(file, path, &m)?;
                let huge = shortest(*self.rng.pick(&[u64::MAX, 1 << 63, 1 << 32, 1 << 31, 300]));
                self.find(file, path, &[&message[..p], &huge, &message[p + 1..]].concat())?;
            }
            let p = self.rng.below(message.len());
            self.find(file, path, &[&message[..p], &message[p + 1..]].concat())?;
        }
        for past in [false, false, true] {
            let m = model::write_good(t, entries, pool, &mut Odd { rng: &mut self.rng, past });
            self.find(file, path, &m)?;
        }
        Ok(())
    }

    /// The same value behind items without bytes, so many that there is just room for the item's entry, or just none.
    fn crowded(&mut self, t: &Table, Sample { message, .. }: &Sample, path: &[u64]) -> Go {
        let inner = self.file(t);
        let entries = model::read(&inner, message, WORDS * ENTRIES).entries;
        let Some(place) = (match model::find(&inner, path, message) {
            Ok(entry) => Some(entry[2]),
            Err(refusal) => (refusal.no == 14).then_some(refusal.place as u64),
        }) else {
            return Ok(());
        };
        // Of the entries at one place only the last one's item has bytes, as that item has.
        let before = entries.iter().rposition(|entry| entry[2] == place).expect("the item's entry");
        let (crowd, each) = self.crowd(t);
        let path: Vec<u64> = [1].into_iter().chain(path.iter().copied()).collect();
        let file = self.file(&crowd);
        // In front of them the root's entry and the crowd's own.
        let just = (ENTRIES - before - 2) / each;
        for _ in 0..3 {
            let count = match self.rng.below(8) {
                0 => *self.rng.pick(&[0, 1, 20_000, 1 << 32, 1 << 63, u64::MAX]),
                _ => (just + self.rng.below(3) - 2) as u64,
            };
            let cut = if self.rng.chance(4) { self.rng.below(message.len() + 1) } else { message.len() };
            self.find(&file, &path, &[&shortest(count), &message[..cut]].concat())?;
        }
        Ok(())
    }

    /// A struct of a crowd and of the table's value; and how many entries one of the crowd makes.
    pub fn crowd(&mut self, t: &Table) -> (Table, usize) {
        let mut t = t.clone();
        let (value, unit) = (t.root, t.nodes.len());
        t.nodes.push(leaf(if self.rng.chance(3) { STRUCT } else { UNIT }));
        let each = match self.rng.below(6) {
            0 => {
                t.nodes.push(with(MAP, &[unit, unit]));
                2
            }
            1 => {
                t.nodes.push(with(STRUCT, &[unit, unit]));
                t.nodes.push(with(SEQ, &[unit + 1]));
                3
            }
            _ => {
                t.nodes.push(with(SEQ, &[unit]));
                1
            }
        };
        t.nodes.push(with(STRUCT, &[t.nodes.len() - 1, value]));
        t.root = t.nodes.len() - 1;
        (t, each)
    }

    pub fn paths_at_the_edge(&mut self) -> Go {
        self.positions_at_the_edge()?;
        self.neighbours_at_the_edge()?;
        self.options_at_the_edge()?;
        self.depths_at_the_edge()?;
        self.rooms_at_the_edge()
    }

    /// 01's table T and a value of each kind: every short path, positions that are far too large, and each message that
    /// ends somewhere; then what comes first of a bad table, a bad path and a bad message.
    fn positions_at_the_edge(&mut self) -> Go {
        let t = rooted(vec![leaf(U32), leaf(U64), leaf(I32), with(STRUCT, &[0, 1, 2])]);
        let paths: Vec<Vec<u64>> = [vec![], vec![0, 0], vec![2, 0], vec![3], vec![4]]
            .into_iter()
            .chain((0..3).map(|p| vec![p]))
            .chain(FAR.iter().flat_map(|&far| (0..4).map(move |p| vec![far.wrapping_add(p)])))
            .collect();
        for form in [FIRST, SECOND] {
            let file = t.file_in(form);
            for path in &paths {
                for m in [&[0xAC, 2, 5, 3, 7][..], &[0xAC, 2, 0x85, 0, 3], &[0xAC, 0x82, 0, 5, 3], &[0xFF; 20]] {
                    for len in 0..=m.len() {
                        self.find(&file, path, &m[..len])?;
                    }
                }
            }
            let bad_record = [&[99], &file[1..]].concat();
            for table in [&file[..file.len() - 1], &file[1..], &bad_record, &[]] {
                for path in [&[][..], &[0], &[3]] {
                    self.find(table, path, &[])?;
                    self.find(table, path, &[0xAC, 2, 5, 3])?;
                }
            }
        }
        for kind in 0..=31 {
            let item = match kind {
                OPTION | SEQ => with(kind, &[0]),
                MAP => with(kind, &[0, 0]),
                STRUCT | ENUM => with(kind, &[0, 0]),
                _ => leaf(kind),
            };
            let alone = rooted(vec![leaf(U8), item.clone()]).file();
            let middle = rooted(vec![leaf(U8), item.clone(), with(STRUCT, &[0, 1, 0])]).file();
            let inside = rooted(vec![leaf(U8), item, with(OPTION, &[1])]).file();
            for m in
                [&[][..], &[0], &[1], &[1, 1, 1, 1], &[1, 1, 0x61, 1], &[0, 0xFF, 1], &[1; 20], &[2; 20], &[0x80; 20]]
            {
                for path in [&[][..], &[0], &[1], &[0, 0]] {
                    self.find(&alone, path, m)?;
                    self.find(&inside, path, m)?;
                }
                for path in [&[][..], &[0], &[1], &[2], &[3], &[1, 0], &[1, 1]] {
                    self.find(&middle, path, m)?;
                }
            }
        }
        Ok(())
    }

    /// An item in front of the one asked for, and one behind it, of every kind, with odd bytes.
    fn neighbours_at_the_edge(&mut self) -> Go {
        for kind in 0..=31 {
            let item = match kind {
                OPTION | SEQ => with(kind, &[0]),
                MAP => with(kind, &[0, 1]),
                STRUCT | ENUM => with(kind, &[1, 0]),
                _ => leaf(kind),
            };
            let t = rooted(vec![leaf(BOOL), leaf(U16), item, with(STRUCT, &[1, 2, 1])]).file();
            let mut messages: Vec<Vec<u8>> = [0, 1, 2, 5, 0x7F, 0x80, 0xFF].map(|b| vec![b; 12]).to_vec();
            if matches!(kind, STR | BYTES | CHAR) {
                messages.extend(odd_texts().iter().map(|text| [shortest(text.len() as u64), text.clone()].concat()));
            }
            messages.extend(odd_varints(W64).into_iter().step_by(3));
            for m in messages {
                for behind in [&[][..], &[7], &[0x80, 1, 1, 1]] {
                    let m = [&[9], &m[..], behind].concat();
                    self.find(&t, &[0], &m)?;
                    self.find(&t, &[2], &m)?;
                }
            }
        }
        Ok(())
    }

    /// Options on the path and beside it: every path of up to three steps, in every message of up to five bytes that are
    /// 0, 1 or 2.
    fn options_at_the_edge(&mut self) -> Go {
        let t = rooted(vec![
            leaf(U8),
            with(OPTION, &[0]),
            with(STRUCT, &[0, 1]),
            with(OPTION, &[2]),
            with(STRUCT, &[1, 3, 0]),
        ]);
        let file = t.file();
        for path in all_below(3, 3) {
            let path: Vec<u64> = path.iter().map(|&p| p.into()).collect();
            if leads(&t, &path) || path.len() < 3 {
                for m in all_below(3, 5) {
                    self.find(&file, &path, &m)?;
                }
            }
        }
        // An option in an option, and a struct without fields in between.
        let t = rooted(vec![
            leaf(STR),
            leaf(STRUCT),
            with(OPTION, &[0]),
            with(OPTION, &[2]),
            with(STRUCT, &[1, 3, 1]),
            with(OPTION, &[4]),
        ]);
        let file = t.file();
        for path in
            [&[0, 1, 0, 0][..], &[0, 1, 0], &[0, 1], &[0, 0], &[0, 2], &[0, 1, 0, 1], &[0, 1, 1, 0], &[1, 1, 0, 0]]
        {
            for m in [&[1, 1, 1, 2, 0x61, 0x62, 9][..], &[1, 1, 0, 9], &[1, 0, 9], &[0, 9], &[1, 1, 2], &[1, 2], &[2]] {
                for len in 0..=m.len() {
                    self.find(&file, path, &m[..len])?;
                }
            }
        }
        Ok(())
    }

    /// Paths as long as a chain may be, one step less and one more, and far more; absent at each depth of some.
    fn depths_at_the_edge(&mut self) -> Go {
        for kind in [OPTION, STRUCT] {
            for (depth, form) in [(255, FIRST), (255, SECOND), (256, SECOND), (40, FIRST)] {
                let mut t = rooted(vec![leaf(U8)]);
                (0..depth).for_each(|i| t.nodes.push(with(kind, &[i])));
                t.root = depth;
                let file = t.file_in(form);
                let lead = usize::from(kind == OPTION);
                for steps in [0, 1, depth - 1, depth, depth + 1, 2 * depth, 600] {
                    let path = vec![0; steps];
                    let m = [vec![1; lead * depth], vec![77, 1]].concat();
                    for absent in [None, Some(0), Some(1), Some(depth / 2), Some(depth - 1)] {
                        let mut m = m.clone();
                        if let Some(p) = absent {
                            m[lead * p] = 0;
                        }
                        self.find(&file, &path, &m)?;
                        self.find(&file, &path, &m[..m.len() - 2])?;
                    }
                }
            }
        }
        // A struct with the most fields a form has: the last field, and the one that isn't there.
        for form in [FIRST, SECOND] {
            let mut fields = vec![0; form.places];
            fields[form.places - 1] = 1;
            let t = rooted(vec![leaf(UNIT), leaf(U16), with(STRUCT, &fields)]);
            let file = t.file_in(form);
            for p in [0, 1, form.places - 2, form.places - 1, form.places, form.places + 1] {
                self.find(&file, &[p as u64], &[0xAC, 2])?;
            }
        }
        Ok(())
    }

    /// The last item that there is room for, and the first that there is none for.
    fn rooms_at_the_edge(&mut self) -> Go {
        // Fields: the item is the entry behind the root's and behind each field's in front of it.
        for at in [ENTRIES - 3, ENTRIES - 2, ENTRIES - 1, ENTRIES] {
            let fields: Vec<usize> = (0..ENTRIES + 2).map(|p| usize::from(p == at)).collect();
            let file = rooted(vec![leaf(UNIT), leaf(U16), with(STRUCT, &fields)]).file_in(SECOND);
            for m in [&[][..], &[0xAC], &[0xAC, 2], &[0x80, 0x80, 4]] {
                self.find(&file, &[at as u64], m)?;
            }
        }
        // Elements and pairs in front of the item or of an option around it, behind either, and in a message that ends.
        let tables = [
            (1, rooted(vec![leaf(UNIT), leaf(U16), with(SEQ, &[0]), with(OPTION, &[1]), with(STRUCT, &[2, 1, 3, 1])])),
            (
                1,
                rooted(vec![leaf(STRUCT), leaf(U16), with(SEQ, &[0]), with(OPTION, &[1]), with(STRUCT, &[2, 1, 3, 1])]),
            ),
            (
                2,
                rooted(vec![
                    leaf(UNIT),
                    leaf(U16),
                    with(MAP, &[0, 0]),
                    with(OPTION, &[1]),
                    with(STRUCT, &[2, 1, 3, 1]),
                ]),
            ),
        ];
        for (each, t) in tables {
            let file = t.file();
            let just = (ENTRIES - 2) / each;
            for count in (just - 4..=just + 1).map(|count| count as u64).chain([1 << 31, 1 << 63, u64::MAX]) {
                for tail in [&[][..], &[5], &[5, 0], &[5, 0, 6], &[5, 1], &[5, 1, 6], &[5, 1, 6, 7], &[0x80, 0, 2]] {
                    for path in [&[1][..], &[2, 0], &[3], &[2], &[0]] {
                        self.find(&file, path, &[&shortest(count), tail].concat())?;
                    }
                }
            }
        }
        Ok(())
    }
}
