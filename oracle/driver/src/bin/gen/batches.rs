//! The stream of night batches: messages laid end to end whose keys come again, good ones and spoilt ones; batches with
//! one rule broken at a time; and every key of a batch asked for, with keys beside it that it hasn't.

use crate::forms::{all_below, Odd};
use crate::pairs::Longer;
use crate::tables::{fewest, leaf, rooted, with, LEAVES};
use crate::{Gen, Go};
use oracle_driver::batch::{spots, Key, Row, Trailer};
use oracle_driver::model::{self, shortest, Plain};
use oracle_driver::rng::Rng;
use oracle_driver::table::*;
use oracle_driver::ENTRIES;

/// Stores and products whose order is another one by bytes, by fewer bits or with a sign.
const STORES: [u32; 12] = [0, 1, 2, 127, 128, 255, 256, 300, 0x0100_0000, 0x7FFF_FFFF, 0x8000_0000, u32::MAX];
const PRODUCTS: [u64; 14] =
    [0, 1, 2, 5, 127, 128, 256, 1 << 31, u32::MAX as u64, 1 << 32, (1 << 32) + 1, 1 << 56, 1 << 63, u64::MAX];

/// A table whose root has key fields, and the places that were chosen for them.
pub struct Keyed {
    t: Table,
    fields: [u16; 2],
}

/// A batch in its parts, of which one may be broken.
#[derive(Clone)]
pub struct Night {
    messages: Vec<Vec<u8>>,
    rows: Vec<Row>,
    trailer: Trailer,
}

impl Night {
    /// A good batch.
    pub fn of(messages: Vec<(Key, Vec<u8>)>, fields: [u16; 2]) -> Night {
        let mut offset = 0;
        let row = |(key, message): &(Key, Vec<u8>)| {
            offset += message.len() as u32;
            Row { key: *key, offset: offset - message.len() as u32 }
        };
        let mut rows: Vec<Row> = messages.iter().map(row).collect();
        rows.sort();
        let messages = messages.into_iter().map(|(_, message)| message).collect();
        let mut night = Night { messages, rows, trailer: Trailer { count: 0, distance: 0, fields } };
        night.count();
        night
    }

    /// Makes the trailer count the rows that are there.
    fn count(&mut self) {
        self.trailer.count = self.rows.len() as u32;
        self.trailer.distance = (Row::LEN * self.rows.len()) as u32;
    }

    fn laid(&self) -> Vec<u8> {
        self.messages.concat()
    }

    pub fn bytes(&self) -> Vec<u8> {
        let rows: Vec<u8> = self.rows.iter().flat_map(Row::bytes).collect();
        [self.laid(), rows, self.trailer.bytes().to_vec()].concat()
    }

    /// Where the rows begin.
    fn start(&self) -> usize {
        self.messages.iter().map(Vec::len).sum()
    }

    fn size(&self) -> usize {
        self.start() + Row::LEN * self.rows.len() + Trailer::LEN
    }
}

impl Gen {
    pub fn batch_round(&mut self) -> Go {
        let keyed = self.keyed();
        let file = self.file(&keyed.t);
        let night = self.night(&keyed);
        self.batch_writes(&keyed, &file, &night)?;
        self.batch_checks(&keyed, &file, &night)?;
        self.batch_lasts(&file, &night)?;
        if self.rng.chance(6) {
            self.crowded_batch(&keyed, &night)?;
        }
        Ok(())
    }

    /// A batch and the one that becomes of it, with outputs that are just long enough and others, and broken ones.
    pub fn compact_round(&mut self) -> Go {
        let keyed = self.keyed();
        let file = self.file(&keyed.t);
        let night = self.night(&keyed);
        let batch = night.bytes();
        let again = model::batch_compact(&file, &batch, usize::MAX).expect("a good batch");
        let just = again.len();
        for of in [&batch, &again] {
            self.batch_compact(&file, of, just)?;
            for _ in 0..3 {
                let more = just + self.rng.from_to(1, 40);
                let out_len =
                    *self.rng.pick(&[0, just / 2, just - 1, just - 1, just - Trailer::LEN, more, batch.len()]);
                self.batch_compact(&file, of, out_len)?;
            }
        }
        self.batch_checks(&keyed, &file, &night)?;
        if self.rng.chance(6) {
            self.crowded_batch(&keyed, &night)?;
        }
        Ok(())
    }

    /// A struct with one to three fields of each key's kind, and others whose values aren't large.
    pub fn keyed(&mut self) -> Keyed {
        let mut t = if self.rng.chance(3) { self.table() } else { rooted(vec![leaf(*self.rng.pick(&LEAVES))]) };
        let min = fewest(&t);
        let small: Vec<usize> = (0..t.nodes.len()).filter(|&node| min[node] < 12).collect();
        let others = if small.is_empty() { 0 } else { *self.rng.pick(&[0, 0, 1, 1, 2, 3, 5]) };
        let mut kids: Vec<usize> = (0..others).map(|_| *self.rng.pick(&small)).collect();
        for kind in [U32, U64] {
            let key = t.nodes.len();
            t.nodes.push(leaf(kind));
            for _ in 0..*self.rng.pick(&[1, 1, 1, 2, 3]) {
                kids.insert(self.rng.from_to(0, kids.len()), key);
            }
        }
        t.nodes.push(with(STRUCT, &kids));
        t.root = t.nodes.len() - 1;
        let fields = [U32, U64].map(|kind| self.field_of(&t, kind));
        Keyed { t, fields }
    }

    /// One of the root's fields of a kind.
    fn field_of(&mut self, t: &Table, kind: u8) -> u16 {
        let kids = &t.nodes[t.root].kids;
        let places: Vec<usize> = (0..kids.len()).filter(|&k| t.nodes[kids[k]].kind == kind).collect();
        *self.rng.pick(&places) as u16
    }

    /// A good batch of up to some 60 messages with few keys, now and then of more.
    pub fn night(&mut self, keyed: &Keyed) -> Night {
        let count = match self.rng.below(40) {
            0 => self.rng.from_to(60, 400),
            _ => *self.rng.pick(&[0, 1, 1, 2, 2, 3, 4, 5, 7, 10, 16, 30, 60]),
        };
        let stores: Vec<u32> = (0..self.rng.from_to(1, 4)).map(|_| self.store()).collect();
        let products: Vec<u64> = (0..self.rng.from_to(1, 4)).map(|_| self.product()).collect();
        let most = if self.rng.chance(20) { 8_000 } else { 1_200 };
        let (mut messages, mut size) = (vec![], 0);
        let min = fewest(&keyed.t);
        while messages.len() < count && size < most {
            let key = (*self.rng.pick(&stores), *self.rng.pick(&products));
            let message = self.message(keyed, &min, key);
            size += message.len();
            messages.push((key, message));
        }
        Night::of(messages, keyed.fields)
    }

    fn store(&mut self) -> u32 {
        if self.rng.chance(4) {
            self.rng.word() as u32
        } else {
            *self.rng.pick(&STORES)
        }
    }

    fn product(&mut self) -> u64 {
        if self.rng.chance(4) {
            self.rng.word()
        } else {
            *self.rng.pick(&PRODUCTS)
        }
    }

    /// A message with such a key, in the shortest forms or in longer ones.
    fn message(&mut self, Keyed { t, fields }: &Keyed, min: &[u64], key: Key) -> Vec<u8> {
        let (mut entries, mut pool) = (vec![], vec![]);
        self.value(t, min, t.root, &mut entries, &mut pool);
        let spots = spots(t, &entries);
        let [store, product] = fields.map(|field| spots[usize::from(field)]);
        entries[store][0] = key.0.into();
        entries[product][0] = key.1;
        if self.rng.chance(4) {
            model::write_good(t, &entries, &pool, &mut Longer(&mut self.rng))
        } else {
            model::write_good(t, &entries, &pool, &mut Plain)
        }
    }

    /// Outputs that are just long enough and others, messages that are spoilt, and fields that don't fit.
    fn batch_writes(&mut self, keyed: &Keyed, file: &[u8], night: &Night) -> Go {
        let (laid, size) = (night.laid(), night.size());
        let fields = keyed.fields.map(u64::from);
        self.batch_write(file, &laid, fields, size)?;
        let more = size + self.rng.from_to(1, 40);
        for _ in 0..2 {
            let out_len =
                *self.rng.pick(&[0, laid.len(), size / 2, size - 1, size - 1, size - Trailer::LEN, more, more]);
            self.batch_write(file, &laid, fields, out_len)?;
        }
        for _ in 0..4 {
            let spoilt = self.spoilt(keyed, night);
            let out_len = if self.rng.chance(4) { 0 } else { 2 * spoilt.len() + 9 * Row::LEN + size };
            self.batch_write(file, &spoilt, fields, out_len)?;
        }
        for _ in 0..3 {
            let others = self.other_fields(&keyed.t, fields);
            let out_len = if self.rng.chance(3) { 0 } else { size };
            self.batch_write(file, &laid, others, out_len)?;
        }
        let bad = self.bad_table(file);
        let fields = if self.rng.chance(2) { fields } else { self.other_fields(&keyed.t, fields) };
        self.batch_write(&bad, &laid, fields, size)
    }

    /// Messages of which one ends early, has another byte, is left out or comes twice, with bytes behind them or not.
    fn spoilt(&mut self, Keyed { t, .. }: &Keyed, night: &Night) -> Vec<u8> {
        let mut messages = night.messages.clone();
        let m = self.rng.below(messages.len().max(1));
        match self.rng.below(7) {
            0 if !messages.is_empty() => {
                let keep = self.rng.below(messages[m].len());
                messages[m].truncate(keep);
            }
            1 if !messages.is_empty() => messages[m].push(0xFF),
            2 if !messages.is_empty() => {
                let m = messages.len() - 1;
                let keep = self.rng.below(messages[m].len());
                messages[m].truncate(keep);
            }
            3 => {
                let len = self.rng.from_to(1, 6);
                messages.push(self.odd_bytes(len));
            }
            4 => {
                // Odd forms, of which some are past their width.
                let min = fewest(t);
                let (mut entries, mut pool) = (vec![], vec![]);
                self.value(t, &min, t.root, &mut entries, &mut pool);
                messages.insert(m, model::write_good(t, &entries, &pool, &mut Odd { rng: &mut self.rng, past: true }));
            }
            5 if !messages.is_empty() => messages.push(messages[m].clone()),
            _ if !messages.is_empty() => {
                let p = self.rng.below(messages[m].len());
                messages[m][p] = self.odd_byte();
            }
            _ => {}
        }
        messages.concat()
    }

    /// Fields that mostly don't fit: swapped, of another kind, not there, or there in fewer bits.
    fn other_fields(&mut self, t: &Table, [store, product]: [u64; 2]) -> [u64; 2] {
        let count = t.nodes[t.root].kids.len();
        let far = match self.rng.below(4) {
            0 => self.rng.below(count) as u64,
            1 => (count + self.rng.below(3)) as u64,
            2 => *self.rng.pick(&[1 << 8, 1 << 15, 1 << 16, 1 << 32, 1 << 63]) + *self.rng.pick(&[store, product]),
            _ => *self.rng.pick(&[u64::MAX, 65_535, 65_536, u32::MAX.into()]),
        };
        match self.rng.below(5) {
            0 => [product, store],
            1 => [store, self.rng.below(count) as u64],
            2 => [far, far],
            3 => [store, far],
            _ => [far, product],
        }
    }

    /// The batch, then others with one thing broken each.
    fn batch_checks(&mut self, keyed: &Keyed, file: &[u8], night: &Night) -> Go {
        self.batch_check(file, &night.bytes())?;
        for _ in 0..14 {
            let batch = self.broken(keyed, night);
            self.batch_check(file, &batch)?;
            if self.rng.chance(3) {
                let (store, product) = self.asked(night);
                self.batch_last(file, &batch, store, product)?;
            }
        }
        let bad = self.bad_table(file);
        self.batch_check(&bad, &night.bytes())?;
        let (store, product) = self.asked(night);
        self.batch_last(&bad, &night.bytes(), store, product)
    }

    /// A batch that mostly isn't good.
    pub fn broken(&mut self, keyed: &Keyed, night: &Night) -> Vec<u8> {
        let good = night.bytes();
        let len = good.len();
        match self.rng.below(12) {
            0..=4 => self.with_other_rows(night),
            5 | 6 => self.with_other_trailer(keyed, night),
            // Bytes that are left out or too many, anywhere.
            7 => {
                let p = self.rng.below(len + 1);
                let extra = self.rng.from_to(1, 17);
                [&good[..p], &self.odd_bytes(extra), &good[p..]].concat()
            }
            8 => {
                let (start, anywhere) = (night.start(), self.rng.below(len));
                let p = *self.rng.pick(&[0, start.saturating_sub(1), start, anywhere]);
                let cut = self.rng.from_to(1, 17).min(len - p);
                [&good[..p], &good[p + cut..]].concat()
            }
            9 => match self.rng.below(3) {
                0 => good[len - self.rng.below(len.min(14))..].to_vec(),
                1 => good[..self.rng.below(len)].to_vec(),
                _ => self.odd_bytes(len.min(60)),
            },
            // Messages that are spoilt in front of the old rows, or of as many fewer.
            10 => {
                let spoilt = self.spoilt(keyed, night);
                [&spoilt, &good[night.start()..]].concat()
            }
            _ => {
                let mut noisy = good;
                let p = self.rng.below(len);
                noisy[p] = if self.rng.chance(2) { self.odd_byte() } else { noisy[p] ^ 1 << self.rng.below(8) };
                noisy
            }
        }
    }

    /// Rows in another order, too few or too many, or with another word in one of them.
    fn with_other_rows(&mut self, night: &Night) -> Vec<u8> {
        let mut night = night.clone();
        let (start, count) = (night.start(), night.rows.len());
        let (i, j) = (self.rng.below(count.max(1)), self.rng.below(count.max(1)));
        let rows = &mut night.rows;
        match self.rng.below(14) {
            _ if count == 0 => rows.push(Row { key: (self.store(), self.product()), offset: start as u32 }),
            0 => rows.swap(i, j),
            1 if i + 1 < count => rows.swap(i, i + 1),
            2 => {
                rows.remove(i);
            }
            3 => rows.insert(i, rows[j]),
            4 => {
                // As many as before, one of them twice.
                rows[i] = rows[j];
                rows.sort();
            }
            5 => {
                let (offset, inside) = (rows[i].offset, self.rng.below(start) as u32);
                rows[i].offset = *self.rng.pick(&[
                    offset.wrapping_add(1),
                    offset.wrapping_sub(1),
                    rows[j].offset,
                    start as u32,
                    start as u32 + 1,
                    u32::MAX,
                    inside,
                ]);
                if self.rng.chance(2) {
                    rows.sort();
                }
            }
            6 => {
                let (store, product) = rows[i].key;
                rows[i].key = *self.rng.pick(&[
                    (store.wrapping_add(1), product),
                    (store, product.wrapping_add(1)),
                    (store, product ^ 1 << 32),
                    (store ^ 1 << 31, product),
                    rows[j].key,
                    (product as u32, store.into()),
                ]);
                if self.rng.chance(2) {
                    rows.sort();
                }
            }
            // Two rows' offsets or keys exchanged, in order or not.
            7 => {
                (rows[i].offset, rows[j].offset) = (rows[j].offset, rows[i].offset);
                if self.rng.chance(2) {
                    rows.sort();
                }
            }
            8 => rows.sort_by_key(|row| (row.key.1, row.key.0, row.offset)),
            9 => rows.sort_by_key(|row| row.offset),
            10 => rows.sort_by_key(|row| (row.key, std::cmp::Reverse(row.offset))),
            11 => rows.sort_by_key(|row| (row.key.0 as i32, row.key.1 as i64, row.offset)),
            12 => rows.sort_by_key(Row::bytes),
            _ => rows.reverse(),
        }
        // Mostly counted as they are.
        if !self.rng.chance(6) {
            night.count();
        }
        night.bytes()
    }

    /// Another count, another distance, both, or other fields.
    fn with_other_trailer(&mut self, Keyed { t, .. }: &Keyed, night: &Night) -> Vec<u8> {
        let (mut night, most) = (night.clone(), night.size() / Row::LEN + 2);
        let trailer = &mut night.trailer;
        let (count, distance) = (trailer.count, trailer.distance);
        let other = |rng: &mut Rng, x: u32| match rng.below(6) {
            0 => x.wrapping_add(1),
            1 => x.wrapping_sub(1),
            2 => x ^ 1 << rng.below(32),
            3 => x.wrapping_add(16),
            4 => x.wrapping_sub(16),
            _ => *rng.pick(&[0, u32::MAX, 1 << 28, 1 << 31]),
        };
        match self.rng.below(8) {
            0 => trailer.count = other(&mut self.rng, count),
            1 => trailer.distance = other(&mut self.rng, distance),
            // A count whose sixteenfold is the distance in 32 bits.
            2 => trailer.count += (self.rng.from_to(1, 15) as u32) << 28,
            // Both, so that the rows begin elsewhere: among the messages, among the rows, in front of the file.
            3 | 4 => {
                let rows = self.rng.below(most) as u32;
                (trailer.count, trailer.distance) = (rows, Row::LEN as u32 * rows);
            }
            5 => (trailer.count, trailer.distance) = ((1 << 28) - 1, u32::MAX - 15),
            // Now and then a field that holds the same number in some messages.
            _ => {
                let others = self.other_fields(t, trailer.fields.map(u64::from));
                trailer.fields = others.map(|field| field as u16);
                if self.rng.chance(2) {
                    trailer.fields = [U32, U64].map(|kind| self.field_of(t, kind));
                }
            }
        }
        night.bytes()
    }

    /// A key of a batch, or one beside it.
    fn asked(&mut self, night: &Night) -> (u64, u64) {
        if night.rows.is_empty() || self.rng.chance(6) {
            return (self.store().into(), self.product());
        }
        let (store, product) = self.rng.pick(&night.rows).key;
        let store = u64::from(store);
        match self.rng.below(8) {
            0 => (store + 1, product),
            1 => (store, product.wrapping_add(1)),
            2 => (store, product.wrapping_sub(1)),
            3 => (store + (1 << *self.rng.pick(&[32, 33, 63])), product),
            _ => (store, product),
        }
    }

    /// Every key of the batch, up to some twenty, and those that are made of a store and a product of two of them; then
    /// others.
    fn batch_lasts(&mut self, file: &[u8], night: &Night) -> Go {
        let batch = night.bytes();
        let mut keys: Vec<Key> = night.rows.iter().map(|row| row.key).collect();
        keys.dedup();
        let crossed: Vec<Key> = keys.iter().flat_map(|a| keys.iter().map(|b| (a.0, b.1))).collect();
        let mut absent: Vec<Key> = crossed.into_iter().filter(|key| !keys.contains(key)).collect();
        absent.dedup();
        for (store, product) in keys.into_iter().take(20).chain(absent.into_iter().take(6)) {
            self.batch_last(file, &batch, store.into(), product)?;
        }
        for _ in 0..4 {
            let (store, product) = self.asked(night);
            self.batch_last(file, &batch, store, product)?;
        }
        Ok(())
    }

    /// Messages with so many items without bytes that there is just room for all entries, or just none.
    fn crowded_batch(&mut self, Keyed { t, fields }: &Keyed, night: &Night) -> Go {
        let mut crowd = t.clone();
        let unit = crowd.nodes.len();
        crowd.nodes.push(leaf(if self.rng.chance(3) { STRUCT } else { UNIT }));
        crowd.nodes.push(with(SEQ, &[unit]));
        let kids = [&t.nodes[t.root].kids[..], &[unit + 1]].concat();
        crowd.nodes.push(with(STRUCT, &kids));
        crowd.root = unit + 2;
        let file = self.file(&crowd);
        let entries = |message: &Vec<u8>| model::read(&t.file_in(SECOND), message, 3 * ENTRIES).entries.len();
        let keys: Vec<Key> = {
            let mut by_offset = night.rows.clone();
            by_offset.sort_by_key(|row| row.offset);
            by_offset.iter().map(|row| row.key).collect()
        };
        let messages = night.messages.iter().zip(keys).take(4).map(|(message, key)| {
            let just = (ENTRIES - 1 - entries(message)) as u64;
            let count = match self.rng.below(8) {
                0 => *self.rng.pick(&[0, 1, 20_000, 1 << 32, u64::MAX]),
                1 => just + 1,
                2 => just - 1,
                _ => just,
            };
            (key, [&message[..], &shortest(count)].concat())
        });
        let night = Night::of(messages.collect(), *fields);
        self.batch_write(&file, &night.laid(), fields.map(u64::from), night.size())?;
        self.batch_check(&file, &night.bytes())?;
        let (store, product) = self.asked(&night);
        self.batch_last(&file, &night.bytes(), store, product)
    }

    pub fn batches_at_the_edge(&mut self) -> Go {
        self.small_batches()?;
        self.bytes_of_a_batch()?;
        self.fields_at_the_edge()?;
        self.orders_of_rows()?;
        self.crowds_at_the_edge()
    }

    /// A store and a product of one byte each: every batch of up to four messages with stores and products 0 and 1, its
    /// rows in every order, and every key asked for.
    fn small_batches(&mut self) -> Go {
        let file = rooted(vec![leaf(U32), leaf(U64), with(STRUCT, &[0, 1])]).file();
        for keys in all_below(4, 4) {
            let messages = keys.iter().map(|key| ((u32::from(key / 2), u64::from(key % 2)), vec![key / 2, key % 2]));
            let night = Night::of(messages.collect(), [0, 1]);
            let (laid, size) = (night.laid(), night.size());
            for out_len in [0, laid.len(), size - 1, size, size + 1] {
                self.batch_write(&file, &laid, [0, 1], out_len)?;
            }
            for order in orders(night.rows.len()) {
                let rows = order.iter().map(|&i| night.rows[i]).collect();
                let batch = Night { rows, ..night.clone() }.bytes();
                self.batch_check(&file, &batch)?;
                self.batch_last(&file, &batch, 1, 0)?;
            }
            let just = model::batch_compact(&file, &night.bytes(), size).expect("a good batch").len();
            for out_len in [just - 1, just] {
                self.batch_compact(&file, &night.bytes(), out_len)?;
            }
            for asked in 0..9 {
                self.batch_last(&file, &night.bytes(), asked / 3, asked % 3)?;
            }
        }
        Ok(())
    }

    /// 01's table T in both forms: batches of which each byte is changed, left out or doubled, that begin later or end
    /// sooner; what comes first of a bad table, fields that don't fit, a message that is refused and a short output.
    fn bytes_of_a_batch(&mut self) -> Go {
        let t = rooted(vec![leaf(U32), leaf(U64), leaf(I32), with(STRUCT, &[0, 1, 2])]);
        let counts: Vec<(Key, Vec<u8>)> = vec![
            ((300, 5), vec![0xAC, 2, 5, 3]),
            ((7, 5), vec![7, 5, 0]),
            ((300, 5), vec![0xAC, 0x82, 0, 0x85, 0, 9]),
            ((300, 4), vec![0xAC, 2, 4, 1]),
        ];
        for form in [FIRST, SECOND] {
            let file = t.file_in(form);
            for count in [0, 1, 4] {
                let night = Night::of(counts[..count].to_vec(), [0, 1]);
                let good = night.bytes();
                let ask = |g: &mut Gen, batch: &[u8]| -> Go {
                    g.batch_check(&file, batch)?;
                    g.batch_last(&file, batch, 300, 5)?;
                    g.batch_last(&file, batch, 7, 6)
                };
                ask(self, &good)?;
                for p in 0..good.len() {
                    ask(self, &good[p..])?;
                    ask(self, &good[..p])?;
                    ask(self, &[&good[..p], &good[p + 1..]].concat())?;
                    ask(self, &[&good[..p], &[good[p]], &good[p..]].concat())?;
                    for x in [1, 2, 0x10, 0x80, 0xFF] {
                        let mut batch = good.clone();
                        batch[p] ^= x;
                        ask(self, &batch)?;
                    }
                }
                // The sixteenfold of a count in 32 bits; distances up to the file's start and beyond.
                let end = good.len() - Trailer::LEN;
                for (more, distance) in [(1 << 28, 0), (1 << 31, 0), (15 << 28, 0), (0, 1), (0, 16), (1, 16), (2, 32)] {
                    let Trailer { count, distance: old, fields } = night.trailer;
                    let trailer = Trailer { count: count + more, distance: old + distance, fields };
                    ask(self, &[&good[..end], &trailer.bytes()].concat())?;
                }
                for extra in [1, 2, 12, 16, 32] {
                    ask(self, &[&good[..end], &vec![0; extra], &good[end..]].concat())?;
                    ask(self, &[&good[..night.start()], &vec![0; extra], &good[night.start()..]].concat())?;
                }
            }
            let laid = [0xAC, 2, 5, 3, 7, 5, 0xFF, 0xFF, 0xFF, 0xFF, 0x1F];
            let bad_record = [&[99], &file[1..]].concat();
            for table in [&file[..], &file[..file.len() - 1], &file[1..], &bad_record, &[]] {
                for fields in [[0, 1], [1, 0], [0, 2], [3, 1], [0, 1 << 16 | 1]] {
                    for len in 0..=laid.len() {
                        for out_len in [0, 31, 32, 200] {
                            self.batch_write(table, &laid[..len], fields, out_len)?;
                        }
                    }
                    let trailer = Trailer { count: 1, distance: 0, fields: fields.map(|field| field as u16) }.bytes();
                    for batch in [&trailer[..], &trailer[1..], &[]] {
                        self.batch_check(table, batch)?;
                        self.batch_last(table, batch, 1 << 32, 5)?;
                    }
                }
            }
        }
        Ok(())
    }

    /// Roots of every kind, fields of every kind, and fields that aren't there, in the struct with the most of them too.
    fn fields_at_the_edge(&mut self) -> Go {
        let ask = |g: &mut Gen, file: &[u8], fields: [u64; 2], message: &[u8]| -> Go {
            g.batch_write(file, message, fields, 100)?;
            let row = Row { key: (1, 1), offset: 0 };
            let trailer = Trailer { count: 1, distance: 16, fields: fields.map(|field| field as u16) };
            let batch = [message, &row.bytes(), &trailer.bytes()].concat();
            g.batch_check(file, &batch)?;
            g.batch_last(file, &batch, 1, 1)
        };
        for kind in (BOOL..=UNIT).chain(FIX_FIRST..=FIX_LAST) {
            let item = if matches!(kind, STR | BYTES | CHAR) { vec![1, b'a'] } else { vec![1; 10] };
            for len in 0..=item.len() {
                let message = [&[1, 1], &item[..len]].concat();
                let file = rooted(vec![leaf(U32), leaf(U64), leaf(kind), with(STRUCT, &[0, 1, 2])]).file();
                for fields in [[0, 1], [2, 1], [0, 2]] {
                    ask(self, &file, fields, &message)?;
                }
            }
        }
        let (store, product, both) = (leaf(U32), leaf(U64), with(STRUCT, &[0, 1]));
        for root in [
            with(STRUCT, &[]),
            with(STRUCT, &[0, 1, 2]),
            with(STRUCT, &[2, 2]),
            with(ENUM, &[0, 1]),
            with(OPTION, &[2]),
            with(SEQ, &[2]),
            with(MAP, &[0, 1]),
            leaf(U32),
            leaf(U64),
        ] {
            let file = rooted(vec![store.clone(), product.clone(), both.clone(), root]).file();
            for fields in [[0, 1], [1, 0], [0, 0], [1, 1]] {
                ask(self, &file, fields, &[1, 1])?;
                ask(self, &file, fields, &[1, 1, 1, 1])?;
            }
        }
        // Fields beyond 8 bits, the last that there is room for, one more, and the last that a table has.
        for count in [2, 300, FIRST.places, ENTRIES - 1, ENTRIES, SECOND.places] {
            let mut kids = vec![0; count];
            kids[count - 2..].copy_from_slice(&[1, 2]);
            let t = rooted(vec![leaf(UNIT), leaf(U32), leaf(U64), with(STRUCT, &kids)]);
            let file = t.file_in(if count <= FIRST.places { FIRST } else { SECOND });
            let n = count as u64;
            let near = [[n - 2, n - 1], [n - 1, n - 2], [n - 2, n], [n - 1, n], [0, n - 1], [n - 2, n - 1 + (1 << 16)]];
            for &fields in &near[..if count <= FIRST.places { 6 } else { 2 }] {
                ask(self, &file, fields, &[1, 1])?;
            }
        }
        Ok(())
    }

    /// Rows that a sorting meets in the best order, in the worst, and in others between, in batches of many sizes.
    fn orders_of_rows(&mut self) -> Go {
        let file = rooted(vec![leaf(U32), leaf(U64), with(STRUCT, &[0, 1])]).file();
        for count in [2, 3, 5, 8, 12, 16, 17, 20, 21, 32, 33, 50, 64, 65, 100, 128, 129, 257, 600, 2_000] {
            let n = count as u64;
            let order: [&dyn Fn(u64) -> u64; 9] = [
                &|_| 0,
                &|i| i,
                &|i| n - i,
                &|i| i.min(n - i),
                &|i| (n / 2).abs_diff(i),
                &|i| i % 2,
                &|i| i % 7,
                &|i| i * 0x9E37_79B9 % n,
                // What defeats the median of the first, the middle and the last.
                &|i| if i % 2 == 0 { i / 2 } else { n / 2 + i / 2 },
            ];
            for rank in order {
                for of_store in [true, false] {
                    let key = |i: u64| if of_store { (rank(i) as u32, 0) } else { (7, rank(i)) };
                    let message = |key: Key| (key, [shortest(key.0.into()), shortest(key.1)].concat());
                    let night = Night::of((0..n).map(|i| message(key(i))).collect(), [0, 1]);
                    self.batch_write(&file, &night.laid(), [0, 1], night.size())?;
                    self.batch_check(&file, &night.bytes())?;
                    let asked = [key(0), key(n / 2), key(n - 1)];
                    for (store, product) in &asked[..if count > 200 { 1 } else { 3 }] {
                        self.batch_last(&file, &night.bytes(), u64::from(*store), *product)?;
                    }
                    let i = self.rng.below(count - 1);
                    let mut swapped = night.clone();
                    swapped.rows.swap(i, i + 1);
                    self.batch_check(&file, &swapped.bytes())?;
                }
            }
        }
        Ok(())
    }

    /// As many entries in a message as there is room for, and one more, with the keys in front and behind; two messages of
    /// which only one has too many.
    fn crowds_at_the_edge(&mut self) -> Go {
        for (kids, fields) in [([3, 0, 1], [1, 2]), ([0, 3, 1], [0, 2]), ([0, 1, 3], [0, 1])] {
            let file = rooted(vec![leaf(U32), leaf(U64), leaf(UNIT), with(SEQ, &[2]), with(STRUCT, &kids)]).file();
            let just = ENTRIES as u64 - 4;
            for counts in [[just, just], [just, just + 1], [just + 1, just], [0, just + 1], [u64::MAX, 1], [1, 1 << 32]]
            {
                let messages = counts.map(|count| {
                    let part = |kid: usize| [vec![5], vec![6], vec![], shortest(count)][kid].clone();
                    ((5, 6), kids.map(part).concat())
                });
                let night = Night::of(messages.to_vec(), fields);
                for out_len in [0, night.size()] {
                    self.batch_write(&file, &night.laid(), fields.map(u64::from), out_len)?;
                }
                self.batch_check(&file, &night.bytes())?;
                self.batch_last(&file, &night.bytes(), 5, 6)?;
                self.batch_last(&file, &night.bytes(), 5, 7)?;
            }
        }
        Ok(())
    }
}

/// Every order of so many things.
fn orders(count: usize) -> Vec<Vec<usize>> {
    (0..count).fold(vec![vec![]], |orders, next| {
        orders
            .iter()
            .flat_map(|order| (0..=order.len()).map(move |p| [&order[..p], &[next], &order[p..]].concat()))
            .collect()
    })
}
