//! Reading: the real `postcard::Deserializer` under a table-driven seed and visitor.

use crate::table::{self, Table};
use crate::{room, Entry, ReadAnswer, Refusal};
use core::cell::Cell;
use core::fmt;
use postcard::de_flavors::{Flavor, Slice};
use postcard::{fixint, Deserializer, Error};
use serde::de::{self, Deserialize, DeserializeSeed, EnumAccess, MapAccess, SeqAccess, VariantAccess, Visitor};

/// The crate's own `Slice`, with the place of its cursor told to the outside.
///
/// `size_hint` is left at the trait's default (`None`): the crate uses it only to hide a
/// sequence's count from the visitor when it exceeds the bytes left, and the count is wanted.
pub struct Tracked<'de> {
    inner: Slice<'de>,
    len: usize,
    at: &'de Cell<usize>,
}

impl<'de> Tracked<'de> {
    pub fn new(message: &'de [u8], at: &'de Cell<usize>) -> Self {
        at.set(0);
        Tracked { inner: Slice::new(message), len: message.len(), at }
    }
    #[inline]
    fn note(&self) {
        self.at.set(self.len - self.inner.size_hint().unwrap_or(0));
    }
}

impl<'de> Flavor<'de> for Tracked<'de> {
    type Remainder = &'de [u8];
    type Source = &'de [u8];

    #[inline]
    fn pop(&mut self) -> postcard::Result<u8> {
        let got = self.inner.pop();
        self.note();
        got
    }
    #[inline]
    fn try_take_n(&mut self, ct: usize) -> postcard::Result<&'de [u8]> {
        let got = self.inner.try_take_n(ct);
        self.note();
        got
    }
    fn finalize(self) -> postcard::Result<&'de [u8]> {
        self.inner.finalize()
    }
}

/// What a whole read shares.
struct Walk<'w> {
    table: &'w Table,
    base: *const u8,
    room: usize,
    at: &'w Cell<usize>,
    /// Where the cursor stood when the item being read began. An item's own bytes are all read, and
    /// its entry put, before its first child starts, so this is the place of the item whose entry is
    /// put, and when the crate errs that of the refusing item.
    item: usize,
    /// Set when the refusal is one of those 01 adds (9, 10).
    added: Option<u8>,
    entries: Vec<Entry>,
}

impl Walk<'_> {
    #[inline]
    fn put(&mut self, w0: u64, w1: u64) {
        self.entries.push([w0, w1, self.item as u64]);
    }
    fn put_part(&mut self, bytes: &[u8]) {
        self.put((bytes.as_ptr() as usize - self.base as usize) as u64, bytes.len() as u64);
    }
}

struct Item<'a, 'w> {
    walk: &'a mut Walk<'w>,
    node: usize,
}

impl<'w> Item<'_, 'w> {
    fn kid(&mut self, k: usize) -> Item<'_, 'w> {
        let node = self.walk.table.nodes[self.node].kids[k];
        Item { walk: self.walk, node }
    }
}

impl<'de> DeserializeSeed<'de> for Item<'_, '_> {
    type Value = ();

    fn deserialize<D: de::Deserializer<'de>>(self, d: D) -> Result<(), D::Error> {
        let walk = &mut *self.walk;
        walk.item = walk.at.get();
        if walk.entries.len() >= walk.room {
            walk.added = Some(10);
            return Err(de::Error::custom("no room"));
        }
        let node = &walk.table.nodes[self.node];
        macro_rules! fixed {
            ($end:ident, $int:ty) => {{
                let x: $int = fixint::$end::deserialize(d)?;
                walk.put(x as i64 as u64, 0);
                Ok(())
            }};
        }
        match node.kind {
            table::BOOL => d.deserialize_bool(self),
            table::I8 => d.deserialize_i8(self),
            table::I16 => d.deserialize_i16(self),
            table::I32 => d.deserialize_i32(self),
            table::I64 => d.deserialize_i64(self),
            table::U8 => d.deserialize_u8(self),
            table::U16 => d.deserialize_u16(self),
            table::U32 => d.deserialize_u32(self),
            table::U64 => d.deserialize_u64(self),
            table::F32 => d.deserialize_f32(self),
            table::F64 => d.deserialize_f64(self),
            table::CHAR => d.deserialize_char(self),
            table::STR => d.deserialize_str(self),
            table::BYTES => d.deserialize_bytes(self),
            table::UNIT => d.deserialize_unit(self),
            table::OPTION => d.deserialize_option(self),
            table::SEQ => d.deserialize_seq(self),
            table::MAP => d.deserialize_map(self),
            table::STRUCT => {
                let fields = node.kids.len();
                d.deserialize_tuple(fields, self)
            }
            table::ENUM => d.deserialize_enum("", &[], self),
            20 => fixed!(le, i16),
            21 => fixed!(le, i32),
            22 => fixed!(le, i64),
            23 => fixed!(le, u16),
            24 => fixed!(le, u32),
            25 => fixed!(le, u64),
            26 => fixed!(be, i16),
            27 => fixed!(be, i32),
            28 => fixed!(be, i64),
            29 => fixed!(be, u16),
            30 => fixed!(be, u32),
            31 => fixed!(be, u64),
            _ => unreachable!("checked table"),
        }
    }
}

/// Only the visits that postcard owes for the kind asked are here; any other is a serde
/// custom error, which `number_of` turns into a panic.
impl<'de> Visitor<'de> for Item<'_, '_> {
    type Value = ();

    fn expecting(&self, f: &mut fmt::Formatter) -> fmt::Result {
        write!(f, "kind {}", self.walk.table.nodes[self.node].kind)
    }
    fn visit_bool<E>(self, v: bool) -> Result<(), E> {
        self.walk.put(v.into(), 0);
        Ok(())
    }
    fn visit_i8<E>(self, v: i8) -> Result<(), E> {
        self.walk.put(v as u64, 0);
        Ok(())
    }
    fn visit_i16<E>(self, v: i16) -> Result<(), E> {
        self.walk.put(v as u64, 0);
        Ok(())
    }
    fn visit_i32<E>(self, v: i32) -> Result<(), E> {
        self.walk.put(v as u64, 0);
        Ok(())
    }
    fn visit_i64<E>(self, v: i64) -> Result<(), E> {
        self.walk.put(v as u64, 0);
        Ok(())
    }
    fn visit_u8<E>(self, v: u8) -> Result<(), E> {
        self.walk.put(v.into(), 0);
        Ok(())
    }
    fn visit_u16<E>(self, v: u16) -> Result<(), E> {
        self.walk.put(v.into(), 0);
        Ok(())
    }
    fn visit_u32<E>(self, v: u32) -> Result<(), E> {
        self.walk.put(v.into(), 0);
        Ok(())
    }
    fn visit_u64<E>(self, v: u64) -> Result<(), E> {
        self.walk.put(v, 0);
        Ok(())
    }
    fn visit_f32<E>(self, v: f32) -> Result<(), E> {
        self.walk.put(v.to_bits().into(), 0);
        Ok(())
    }
    fn visit_f64<E>(self, v: f64) -> Result<(), E> {
        self.walk.put(v.to_bits(), 0);
        Ok(())
    }
    fn visit_char<E>(self, v: char) -> Result<(), E> {
        self.walk.put(u32::from(v).into(), 0);
        Ok(())
    }
    fn visit_borrowed_str<E>(self, v: &'de str) -> Result<(), E> {
        self.walk.put_part(v.as_bytes());
        Ok(())
    }
    fn visit_borrowed_bytes<E>(self, v: &'de [u8]) -> Result<(), E> {
        self.walk.put_part(v);
        Ok(())
    }
    fn visit_unit<E>(self) -> Result<(), E> {
        self.walk.put(0, 0);
        Ok(())
    }
    fn visit_none<E>(self) -> Result<(), E> {
        self.walk.put(0, 0);
        Ok(())
    }
    fn visit_some<D: de::Deserializer<'de>>(mut self, d: D) -> Result<(), D::Error> {
        self.walk.put(1, 0);
        self.kid(0).deserialize(d)
    }
    fn visit_seq<A: SeqAccess<'de>>(mut self, mut seq: A) -> Result<(), A::Error> {
        let node = &self.walk.table.nodes[self.node];
        if node.kind == table::STRUCT {
            let fields = node.kids.len();
            self.walk.put(0, 0);
            for k in 0..fields {
                seq.next_element_seed(self.kid(k))?.expect("a field for each child");
            }
        } else {
            self.walk.put(seq.size_hint().expect("count") as u64, 0);
            while seq.next_element_seed(self.kid(0))?.is_some() {}
        }
        Ok(())
    }
    fn visit_map<A: MapAccess<'de>>(mut self, mut map: A) -> Result<(), A::Error> {
        self.walk.put(map.size_hint().expect("count") as u64, 0);
        while map.next_key_seed(self.kid(0))?.is_some() {
            map.next_value_seed(self.kid(1))?;
        }
        Ok(())
    }
    fn visit_enum<A: EnumAccess<'de>>(mut self, data: A) -> Result<(), A::Error> {
        let (number, inner) = data.variant_seed(Number)?;
        let number = number as usize;
        if number >= self.walk.table.nodes[self.node].kids.len() {
            self.walk.added = Some(9);
            return Err(de::Error::custom("variant not in table"));
        }
        self.walk.put(number as u64, 0);
        inner.newtype_variant_seed(self.kid(number))
    }
}

/// The variant number, as serde hands it on.
struct Number;

impl<'de> DeserializeSeed<'de> for Number {
    type Value = u32;
    fn deserialize<D: de::Deserializer<'de>>(self, d: D) -> Result<u32, D::Error> {
        u32::deserialize(d)
    }
}

fn number_of(error: &Error) -> u8 {
    match error {
        Error::DeserializeUnexpectedEnd => 3,
        Error::DeserializeBadVarint => 4,
        Error::DeserializeBadBool => 5,
        Error::DeserializeBadChar => 6,
        Error::DeserializeBadUtf8 => 7,
        Error::DeserializeBadOption => 8,
        other => panic!("the crate gave an error that 01 has no number for: {other:?}"),
    }
}

/// Reads one value of a good table.
pub fn read_good<'m>(table: &Table, message: &'m [u8], room: usize, store: Vec<Entry>) -> ReadAnswer<'m> {
    let at = Cell::new(0);
    let mut walk = Walk { table, base: message.as_ptr(), room, at: &at, item: 0, added: None, entries: store };
    let mut d = Deserializer::from_flavor(Tracked::new(message, &at));
    let done = Item { walk: &mut walk, node: table.root }.deserialize(&mut d);
    let Walk { item, added, entries, .. } = walk;
    match done {
        Ok(()) => {
            let rest_len = d.finalize().expect("slice finalize cannot fail").len();
            ReadAnswer { no: 0, place: at.get(), entries, rest: &message[message.len() - rest_len..] }
        }
        Err(error) => {
            let no = added.unwrap_or_else(|| number_of(&error));
            ReadAnswer { no, place: item, entries, rest: &[] }
        }
    }
}

/// The reader's public call, with a store of so many words.
pub fn read<'m>(file: &[u8], message: &'m [u8], store_words: usize) -> ReadAnswer<'m> {
    match Table::parse(file) {
        Ok(table) => read_good(&table, message, room(store_words), Vec::new()),
        Err(Refusal { no, place }) => ReadAnswer { no, place, entries: vec![], rest: &[] },
    }
}

/// The thin reader record: take one item of a kind at a place.
/// Gives the entry, its places counted from the message's start, and the place behind the item.
pub fn take(kind: u8, message: &[u8], place: usize) -> Result<(Entry, usize), Refusal> {
    if !matches!(kind, 0..=13 | 20..=31) {
        return Err(Refusal { no: 2, place: 0 });
    }
    if place > message.len() {
        return Err(Refusal { no: 3, place });
    }
    let got = read_good(&Table::leaf(kind), &message[place..], 1, Vec::new());
    if got.no != 0 {
        return Err(Refusal { no: got.no, place: place + got.place });
    }
    let [mut w0, w1, at] = got.entries[0];
    if matches!(kind, table::STR | table::BYTES) {
        w0 += place as u64;
    }
    Ok(([w0, w1, place as u64 + at], place + got.place))
}
