//! The fixed part of the stream: what stands at the edge of a rule, and each rule's order.

use crate::forms::{odd_chars, odd_texts, odd_varints};
use crate::tables::{leaf, rooted, with, LEAVES};
use crate::{Gen, Go};
use oracle_driver::append::AREA;
use oracle_driver::feed::ROOM;
use oracle_driver::model::{shortest, W16, W32, W64};
use oracle_driver::table::*;
use oracle_driver::WORDS;

impl Gen {
    pub fn edges(&mut self) -> Go {
        self.readings_at_the_edge()?;
        self.writes_at_the_edge()?;
        self.tables_at_the_edge(FIRST)?;
        self.tables_at_the_edge(SECOND)?;
        self.chains_at_the_edge()?;
        self.appends_at_the_edge()?;
        self.feeds_at_the_edge()
    }

    pub fn readings_at_the_edge(&mut self) -> Go {
        self.leaves_at_the_edge()?;
        self.nests_at_the_edge()
    }

    fn leaves_at_the_edge(&mut self) -> Go {
        let t = rooted(vec![leaf(U32), leaf(U64), leaf(I32), with(STRUCT, &[0, 1, 2])]).file();
        for m in [&[0xAC, 2, 5, 3][..], &[0xAC, 2, 5, 3, 7], &[0xAC, 2, 5]] {
            self.read(&t, m, 16)?;
        }
        for (kind, width) in [
            (I16, W16),
            (U16, W16),
            (I32, W32),
            (U32, W32),
            (I64, W64),
            (U64, W64),
            (STR, W64),
            (BYTES, W64),
            (CHAR, W64),
        ] {
            let file = Table::leaf(kind).file();
            for m in odd_varints(width) {
                self.read(&file, &m, 4)?;
                self.read(&file, &[m.clone(), vec![0x61, 0xC3]].concat(), 4)?;
                self.take(kind, &[vec![9, 9], m].concat(), 2)?;
            }
        }
        for kind in LEAVES {
            let file = Table::leaf(kind).file();
            for len in 0..=9 {
                for fill in [0x00, 0x01, 0x02, 0x7F, 0x80, 0xFF] {
                    self.read(&file, &vec![fill; len], 1)?;
                }
                let ramp: Vec<u8> = (1..=len as u8).collect();
                self.read(&file, &ramp, 1)?;
                self.read(&file, &ramp, 0)?;
                let falling: Vec<u8> = (0..len as u8).map(|b| 0x80 - b).collect();
                self.read(&file, &falling, 1)?;
            }
        }
        for kind in [BOOL, I8, U8] {
            let file = Table::leaf(kind).file();
            for b in 0..=255 {
                self.read(&file, &[b], 1)?;
            }
        }
        for bits in [0x7F80_0001u32, 0x7FA0_0000, 0xFFC0_0000, 0x7F80_0000, 0x8000_0000, 0xFFFF_FFFF, 1] {
            self.read(&Table::leaf(F32).file(), &bits.to_le_bytes(), 1)?;
            self.write_list(&Table::leaf(F32).file(), &[[bits.into(), 0]], &[], 4)?;
        }
        for bits in [0x7FF0_0000_0000_0001u64, 0x7FF4_0000_0000_0000, 0xFFF8_0000_0000_0000, 1 << 63, u64::MAX] {
            self.read(&Table::leaf(F64).file(), &bits.to_le_bytes(), 1)?;
            self.write_list(&Table::leaf(F64).file(), &[[bits, 0]], &[], 8)?;
        }
        let file = Table::leaf(CHAR).file();
        for m in odd_chars() {
            for len in 0..=m.len() {
                self.read(&file, &m[..len], 1)?;
            }
            self.read(&file, &[m.clone(), vec![0x80, 0x61]].concat(), 1)?;
        }
        for kind in [STR, BYTES] {
            let file = Table::leaf(kind).file();
            for text in odd_texts() {
                let whole = [shortest(text.len() as u64), text.clone()].concat();
                self.read(&file, &whole, 1)?;
                self.read(&file, &[whole.clone(), vec![0x80]].concat(), 1)?;
                self.read(&file, &whole[..whole.len() - 1], 1)?;
                for len in [text.len() as u64 + 1, 1 << 63, u64::MAX, u64::MAX - text.len() as u64] {
                    self.read(&file, &[shortest(len), text.clone()].concat(), 1)?;
                }
                self.take(kind, &[vec![7, 7, 7], whole].concat(), 3)?;
            }
        }
        for kind in 0..=40 {
            for place in [0, 1, 2, 3, 4, u64::MAX] {
                self.take(kind, &[1, 1, 0x61], place)?;
            }
        }
        Ok(())
    }

    fn nests_at_the_edge(&mut self) -> Go {
        let rooms = [0, 1, 2, 3, 6, 7, 16];
        // Counts over items that have no bytes: only the room stops them.
        let no_bytes = [
            rooted(vec![leaf(UNIT), with(SEQ, &[0])]),
            rooted(vec![leaf(STRUCT), with(SEQ, &[0])]),
            rooted(vec![leaf(UNIT), with(STRUCT, &[0, 0]), with(SEQ, &[1])]),
            rooted(vec![leaf(UNIT), with(MAP, &[0, 0])]),
            rooted(vec![leaf(UNIT), with(SEQ, &[0]), with(SEQ, &[1])]),
        ];
        for t in &no_bytes {
            let file = t.file();
            for m in odd_varints(W64) {
                self.read(&file, &m, 5)?;
            }
            for room in rooms {
                for m in [
                    &[0][..],
                    &[1],
                    &[2],
                    &[5],
                    &[6],
                    &[7, 9],
                    &[2, 3, 4],
                    &[0xFF, 0xFF, 0xFF, 0xFF, 0xFF, 0xFF, 0xFF, 0xFF, 0xFF, 1],
                ] {
                    self.read(&file, m, room)?;
                }
            }
        }
        // Pairs: cut short, twice the same key, odd keys and values.
        let file = rooted(vec![leaf(U8), leaf(U16), with(MAP, &[0, 1])]).file();
        for m in [
            &[0][..],
            &[1],
            &[1, 4],
            &[1, 4, 5],
            &[2, 4, 5, 4],
            &[2, 4, 5, 4, 6],
            &[2, 4, 5, 4, 6, 7],
            &[2, 4, 0x80],
            &[2, 4, 0x80, 0x80, 4],
            &[3, 1, 1, 0, 0],
            &[0x80, 0],
        ] {
            for room in rooms {
                self.read(&file, m, room)?;
            }
        }
        for kind in LEAVES {
            for (outer, lead) in [(OPTION, vec![0u8, 1, 2, 0xFF]), (SEQ, vec![0, 1, 2, 0x80, 0xFF])] {
                let file = rooted(vec![leaf(kind), with(outer, &[0])]).file();
                self.read(&file, &[], 4)?;
                for b in lead {
                    for tail in [
                        &[][..],
                        &[0],
                        &[1],
                        &[1, 0x61],
                        &[0x80],
                        &[0xFF; 11],
                        &[1, 2, 3, 4, 5, 6, 7, 8, 9, 10, 11, 12, 13, 14, 15, 16, 17],
                    ] {
                        for room in [0, 1, 2, 4] {
                            self.read(&file, &[&[b], tail].concat(), room)?;
                        }
                    }
                }
            }
        }
        for variants in [1, 2, 127, 128, 129, 300, 1024] {
            let t = rooted(vec![leaf(UNIT), leaf(BOOL), with(ENUM, &(0..variants).map(|v| v % 2).collect::<Vec<_>>())]);
            let file = t.file();
            for number in [0, 1, variants as u64 - 1, variants as u64, 1 << 31, u32::MAX.into(), 1 << 32] {
                self.read(&file, &shortest(number), 4)?;
                self.read(&file, &[shortest(number), vec![1, 7]].concat(), 4)?;
                self.read(&file, &[shortest(number), vec![1, 7]].concat(), 1)?;
                for second in [&[][..], &[[0, 0]], &[[1, 0]]] {
                    self.write_list(&file, &[&[[number, 0]], second].concat(), &[], 9)?;
                }
                self.write_list(&file, &[[number, 1], [0, 0]], &[], 9)?;
            }
            for m in odd_varints(W32) {
                self.read(&file, &m, 4)?;
            }
        }
        // Deep: 255 options; 255 levels of doubling, which only the room (or memory) stops.
        let mut deep = vec![leaf(U8)];
        let mut double = vec![leaf(UNIT)];
        for i in 0..255 {
            deep.push(with(OPTION, &[i]));
            double.push(with(STRUCT, &[i, i]));
        }
        let (deep, double) = (rooted(deep).file(), rooted(double).file());
        let ones = vec![1; 256];
        self.read(&deep, &ones, 256)?;
        self.read(&deep, &ones, 255)?;
        self.read(&deep, &ones[..255], 256)?;
        self.read(&deep, &[&ones[..254], &[2]].concat(), 256)?;
        self.write_list(&deep, &[[1, 0]; 256], &[], 256)?;
        self.write_list(&deep, &[[1, 0]; 256], &[], 255)?;
        self.write_list(&deep, &[[1, 0]; 255], &[], 256)?;
        self.read(&double, &[], 300)?;
        self.read(&double, &[1, 2], 0)?;
        self.write_list(&double, &[[0, 0]; 300], &[], 0)?;
        self.append(&double, &double)?;
        self.append(&deep, &deep)?;
        self.append(&double, &deep)
    }

    fn writes_at_the_edge(&mut self) -> Go {
        let edges: Vec<u64> = [7u32, 8, 15, 16, 31, 32, 63]
            .iter()
            .flat_map(|&b| [(1u64 << b) - 1, 1 << b, (1 << b) + 1])
            .flat_map(|x| [x, x.wrapping_neg()])
            .chain([0, 1, 2, 3, u64::MAX, 0xD7FF, 0xD800, 0xDFFF, 0xE000, 0xFFFF, 0x10FFFF, 0x110000, 0x7FF, 0x800])
            .collect();
        for kind in LEAVES {
            let file = Table::leaf(kind).file();
            for &w0 in &edges {
                self.write_list(&file, &[[w0, 0]], b"pool", 10)?;
                self.write_list(&file, &[[w0, 1]], b"pool", 10)?;
            }
            // An entry that fits and one that doesn't, with up to four words behind them.
            for first in [&[][..], &[0, 0, 0], &[9, 9, 9]] {
                for behind in [&[][..], &[0], &[9], &[0, 0], &[9, 9], &[0, 0, 0], &[9, 9, 9], &[0, 0, 0, 0]] {
                    self.write(&file, &[first, behind].concat(), b"pool", 10)?;
                }
            }
            let second = u64::from(kind == STR || kind == BYTES);
            for place in [0, 1, 1 << 32, u64::MAX] {
                self.write(&file, &[1, second, place], b"pool", 10)?;
            }
            for out_len in 0..=11 {
                self.write_list(&file, &[[1, second]], b"pool", out_len)?;
            }
        }
        for kind in [STR, BYTES] {
            let file = Table::leaf(kind).file();
            for (o, l) in [
                (0, 0),
                (0, 4),
                (0, 5),
                (4, 0),
                (4, 1),
                (5, 0),
                (u64::MAX, 0),
                (u64::MAX, 1),
                (1, u64::MAX),
                (2, u64::MAX),
                (u64::MAX, u64::MAX),
                (1 << 63, 1 << 63),
                (3, 1),
            ] {
                for pool in [&b"pool"[..], b"", b"p\xC3\xA9l", b"po\xFFl"] {
                    self.write_list(&file, &[[o, l]], pool, 6)?;
                }
            }
            for text in odd_texts() {
                self.write_list(&file, &[[1, text.len() as u64]], &[&b"\x80"[..], &text, b"\xFF"].concat(), 64)?;
            }
            let long: Vec<u8> = (0..300).map(|i| b'a' + (i % 26) as u8).collect();
            for len in [127u64, 128, 129, 255, 256, 300] {
                for out_len in [len, len + 1, len + 2] {
                    self.write_list(&file, &[[0, len]], &long, out_len as usize)?;
                }
            }
        }
        for (t, lists) in [
            (
                rooted(vec![leaf(UNIT), with(SEQ, &[0])]),
                [vec![u64::MAX], vec![u64::MAX, 0], vec![2, 0, 0], vec![1, 0, 0]],
            ),
            (
                rooted(vec![leaf(UNIT), with(MAP, &[0, 0])]),
                [vec![u64::MAX], vec![1, 0], vec![1, 0, 0], vec![1, 0, 0, 0]],
            ),
            (rooted(vec![leaf(BOOL), with(OPTION, &[0])]), [vec![0], vec![1], vec![0, 1], vec![1, 2]]),
            (rooted(vec![leaf(STRUCT)]), [vec![0], vec![1], vec![0, 0], vec![0, 0, 0]]),
        ] {
            let file = t.file();
            for list in lists {
                let items: Vec<[u64; 2]> = list.iter().map(|&w0| [w0, 0]).collect();
                for out_len in [0, 1, 2, 9] {
                    self.write_list(&file, &items, &[], out_len)?;
                }
                let words = self.placed(&items);
                for fewer in 1..WORDS {
                    self.write(&file, &words[..words.len() - fewer], &[], 9)?;
                    self.write(&file, &[&words[..], &vec![0; fewer]].concat(), &[], 9)?;
                }
            }
        }
        self.write_list(&Table::leaf(STRUCT).file(), &[[0, 1]], &[], 9)
    }

    /// Tables at the edge of good, each way to be bad, and what comes first.
    fn tables_at_the_edge(&mut self, form: Form) -> Go {
        let t = rooted(vec![
            leaf(U8),
            leaf(UNIT),
            with(OPTION, &[0]),
            with(SEQ, &[2]),
            with(MAP, &[0, 3]),
            with(STRUCT, &[0, 2, 4]),
            with(ENUM, &[1, 5]),
            leaf(STRUCT),
        ]);
        let t = Table { root: 6, ..t };
        let file = t.file_in(form);
        let ask = |g: &mut Gen, f: &[u8]| -> Go {
            g.read(f, &[1, 0, 0, 0], 8)?;
            g.write_list(f, &[[0, 0], [0, 0]], &[], 4)?;
            g.write(f, &[0, 0, 0, 0], &[], 4)?;
            g.append(f, &file)?;
            g.append(&file, f)?;
            g.append(f, f)
        };
        ask(self, &file)?;
        for len in 0..file.len() {
            ask(self, &file[len..])?;
        }
        for note in [1, 2, 6, 30] {
            ask(self, &[vec![0xEE; note], file.clone()].concat())?;
        }
        for p in 0..file.len() {
            for x in [0x01, 0x02, 0x04, 0x80, 0xFF] {
                let mut f = file.clone();
                f[p] ^= x;
                ask(self, &f)?;
            }
            for v in [0x00, 0x01, 0x05, 0x12, 0x13, 0x1F, 0x20, 0xFF] {
                let mut f = file.clone();
                f[p] = v;
                ask(self, &f)?;
            }
        }
        // Most nodes and one more; most places and one more, the list full, a + b exactly C/2 and one over.
        for n in [form.nodes, form.nodes + 1] {
            let nodes = vec![leaf(U8); n];
            for root in [0, 255, n - 1, n] {
                ask(self, &Table { nodes: nodes.clone(), root }.file_in(form))?;
            }
        }
        for len in [form.places, form.places + 1] {
            let t = rooted(vec![leaf(UNIT), with(STRUCT, &vec![0; len])]);
            let file = t.file_in(form);
            self.read(&file, &[], 2000)?;
            self.read(&file, &[], 3)?;
            for b in [len as u16 - 1, len as u16, len as u16 + 1, u16::MAX] {
                for a in [0u16, 1, 2, u16::MAX] {
                    let mut f = file.clone();
                    f[8..10].copy_from_slice(&a.to_le_bytes());
                    f[10..12].copy_from_slice(&b.to_le_bytes());
                    self.read(&f, &[], 3)?;
                }
            }
        }
        // Two bad things at once: the first node counts; the trailer before any record;
        // an unreachable bad node counts too; junk in the list that no node names does not.
        let mut f = Table { nodes: vec![leaf(32), leaf(U8), leaf(33)], root: 1 }.file_in(form);
        ask(self, &f)?;
        f[0] = U8;
        ask(self, &f)?;
        f[12] = U8;
        ask(self, &f)?;
        ask(self, &t.file_with(form, &[0xFFFF, 300], &[]))?;
        for (first, second) in [(OPTION, 1u16), (OPTION, 0), (SEQ, 1), (MAP, 1), (STRUCT, 0), (ENUM, 0)] {
            // A first node can have no children.
            for b in [0u16, 1] {
                let mut f = Table { nodes: vec![leaf(first.min(UNIT)), leaf(U8)], root: 1 }.file_in(form);
                f[0] = first;
                f[2..4].copy_from_slice(&second.to_le_bytes());
                f[4..6].copy_from_slice(&b.to_le_bytes());
                ask(self, &f)?;
            }
        }
        Ok(())
    }

    /// Chains as long as they may be and longer, through every kind that has children; the place of a longer one; and
    /// what a record that is bad besides does to it.
    fn chains_at_the_edge(&mut self) -> Go {
        let below = |kind: u8, i: usize| match kind {
            OPTION | SEQ => with(kind, &[i]),
            MAP => with(MAP, &[0, i]),
            _ => with(kind, &[0, i, 0]),
        };
        for kinds in [&[OPTION][..], &[SEQ], &[MAP], &[STRUCT], &[ENUM], &[STRUCT, MAP, ENUM, OPTION, SEQ]] {
            for first in [leaf(BOOL), leaf(STRUCT)] {
                let mut t = rooted(vec![first]);
                for i in 0..=CHAIN {
                    t.nodes.push(below(kinds[i % kinds.len()], i));
                    t.root = i + 1;
                    if t.nodes.len() < CHAIN - 1 {
                        continue;
                    }
                    let file = t.file_in(SECOND);
                    for room in [CHAIN, CHAIN - 1, 3] {
                        self.read(&file, &[1; CHAIN + 1], room as u64)?;
                    }
                    self.write_list(&file, &[[1, 0]; 4], &[], 4)?;
                    self.append(&file, &file)?;
                    // The root isn't in the chain.
                    let apart = Table { root: 0, ..t.clone() }.file_in(SECOND);
                    self.read(&apart, &[1], 2)?;
                    self.append(&apart, &file)?;
                    self.append(&file, &apart)?;
                    self.append(&Table::leaf(BOOL).file(), &apart)?;
                }
                let file = t.file_in(SECOND);
                for bad in [CHAIN - 1, CHAIN, CHAIN + 1] {
                    let mut f = file.clone();
                    f[6 * bad] = 99;
                    self.read(&f, &[1], 2)?;
                    self.append(&f, &file)?;
                }
            }
        }
        Ok(())
    }

    fn appends_at_the_edge(&mut self) -> Go {
        let small: Vec<Table> = vec![
            rooted(vec![leaf(U8)]),
            rooted(vec![leaf(U16)]),
            rooted(vec![leaf(STRUCT)]),
            rooted(vec![leaf(U8), with(STRUCT, &[0])]),
            rooted(vec![leaf(U8), with(STRUCT, &[0, 0])]),
            rooted(vec![leaf(U8), leaf(U8), with(STRUCT, &[0, 1])]),
            rooted(vec![leaf(U8), leaf(U16), with(STRUCT, &[0, 1])]),
            rooted(vec![leaf(U8), leaf(U16), with(STRUCT, &[1, 0])]),
            rooted(vec![leaf(U8), with(STRUCT, &[0]), with(STRUCT, &[1])]),
            rooted(vec![leaf(U8), with(STRUCT, &[0, 0]), with(STRUCT, &[1])]),
            rooted(vec![leaf(U8), with(STRUCT, &[0]), with(STRUCT, &[1, 0])]),
            rooted(vec![leaf(U8), with(ENUM, &[0])]),
            rooted(vec![leaf(U8), with(ENUM, &[0, 0])]),
            rooted(vec![leaf(U8), leaf(UNIT), with(ENUM, &[0, 1])]),
            rooted(vec![leaf(U8), leaf(UNIT), with(ENUM, &[0, 1]), with(SEQ, &[2])]),
            rooted(vec![leaf(U8), with(ENUM, &[0]), with(SEQ, &[1])]),
            rooted(vec![leaf(U8), with(ENUM, &[0]), with(STRUCT, &[1])]),
            rooted(vec![leaf(U8), with(ENUM, &[0, 0]), with(STRUCT, &[1, 0])]),
            rooted(vec![leaf(U8), with(STRUCT, &[0]), with(ENUM, &[1])]),
            rooted(vec![leaf(U8), with(STRUCT, &[0, 0]), with(ENUM, &[1])]),
            rooted(vec![leaf(U8), with(OPTION, &[0])]),
            rooted(vec![leaf(U8), with(SEQ, &[0])]),
            rooted(vec![leaf(U8), leaf(U16), with(MAP, &[0, 1])]),
            rooted(vec![leaf(U8), leaf(U16), with(MAP, &[1, 0])]),
            rooted(vec![leaf(U8), with(STRUCT, &[0]), with(OPTION, &[1])]),
            rooted(vec![leaf(U8), with(STRUCT, &[0, 0]), with(OPTION, &[1])]),
            rooted(vec![leaf(20)]),
            rooted(vec![leaf(26)]),
        ];
        for old in &small {
            for new in &small {
                for (one, other) in [(FIRST, FIRST), (FIRST, SECOND), (SECOND, FIRST), (SECOND, SECOND)] {
                    self.append(&old.file_in(one), &new.file_in(other))?;
                }
            }
        }
        // Answer order over both tables and the area: bad trailer and bad record on either side, an area too short.
        let mut all = vec![];
        for form in [FIRST, SECOND] {
            let good = small[3].file_in(form);
            all.push(good[..good.len() - 1].to_vec());
            all.push([&[99], &good[1..]].concat());
            all.push(good);
        }
        for old in &all {
            for new in &all {
                for area in [0, AREA - 1, AREA, AREA + 1, AREA + 4_096] {
                    self.append_with(old, new, area)?;
                }
            }
        }
        Ok(())
    }

    /// At the edges of 01's room, which T-03 raised; the stream of frames has the new room's.
    fn feeds_at_the_edge(&mut self) -> Go {
        let zeros = [0; ROOM];
        let ones = [1; ROOM];
        for idx in [0u64, 1, 2, 250, 253, 254, 255, 256, 257, 300, u64::MAX] {
            for array in [zeros, ones, std::array::from_fn(|i| i as u8)] {
                for chunk in [
                    &[][..],
                    &[0],
                    &[1, 0],
                    &[2, 0],
                    &[2, 7, 0, 0, 9],
                    &[3, 0x11, 0x22, 2, 0x33, 0],
                    &[1; 10],
                    &[1, 2, 3, 4, 5, 0, 7],
                    &[0, 0],
                    &[0, 1, 2],
                ] {
                    self.feed(idx, &array, chunk)?;
                }
                for len in [254, 255, 256, 257] {
                    let mut chunk = vec![0x55; len];
                    self.feed(idx, &array, &chunk)?;
                    chunk[0] = 0xFF;
                    chunk[len - 1] = 0;
                    self.feed(idx, &array, &chunk)?;
                    chunk.push(4);
                    self.feed(idx, &array, &chunk)?;
                    chunk[0] = (len - 1) as u8;
                    self.feed(idx, &array, &chunk)?;
                }
            }
        }
        Ok(())
    }
}
