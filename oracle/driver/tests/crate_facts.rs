//! Facts about the real crate where the port's document (01) goes another way or is silent.
//! Run: cargo test --offline --release -p oracle-driver

use core::cell::Cell;
use core::fmt;
use postcard::accumulator::{CobsAccumulator, FeedResult};
use postcard::{Deserializer, Error};
use serde::de::{SeqAccess, Visitor};
use serde::{Deserialize, Deserializer as _};

/// What is left in the crate's deserializer after a refusal.
fn left_after<'m, T: Deserialize<'m>>(m: &'m [u8]) -> (Error, &'m [u8]) {
    let mut d = Deserializer::from_bytes(m);
    let error = T::deserialize(&mut d).err().expect("a refusal");
    (error, d.finalize().unwrap())
}

#[derive(Deserialize, Debug)]
#[allow(dead_code)] // only its refusal is looked at
struct Fixed(#[serde(with = "postcard::fixint::le")] u32);

/// 01: a refusal keeps the place. The crate has moved its cursor past what it read.
#[test]
fn cursor_moves_on_refusal() {
    assert_eq!(left_after::<u16>(&[0x80]), (Error::DeserializeUnexpectedEnd, &[][..]));
    assert_eq!(left_after::<u16>(&[0x80, 0x80, 0x04, 9]), (Error::DeserializeBadVarint, &[9][..]));
    assert_eq!(left_after::<bool>(&[2, 7]), (Error::DeserializeBadBool, &[7][..]));
    assert_eq!(left_after::<&str>(&[5, 0x61]), (Error::DeserializeUnexpectedEnd, &[0x61][..]));
    assert_eq!(left_after::<char>(&[5, 0x61]), (Error::DeserializeBadChar, &[0x61][..]));
    assert_eq!(left_after::<Fixed>(&[1, 2]), (Error::DeserializeUnexpectedEnd, &[][..]));
    // Floats are the exception: taken whole or not at all.
    assert_eq!(left_after::<f32>(&[1, 2]), (Error::DeserializeUnexpectedEnd, &[1, 2][..]));
}

/// The count of a sequence is hidden from a visitor when it exceeds the bytes left.
#[test]
fn count_is_hidden() {
    struct Hint<'a>(&'a Cell<Option<usize>>);
    impl<'de> Visitor<'de> for Hint<'_> {
        type Value = ();
        fn expecting(&self, _: &mut fmt::Formatter) -> fmt::Result {
            Ok(())
        }
        fn visit_seq<A: SeqAccess<'de>>(self, mut seq: A) -> Result<(), A::Error> {
            self.0.set(seq.size_hint());
            while seq.next_element::<()>()?.is_some() {}
            Ok(())
        }
    }
    for (m, hint) in [(&[1][..], None), (&[1, 9], Some(1)), (&[2, 9], None)] {
        let got = Cell::new(Some(99));
        Deserializer::from_bytes(m).deserialize_seq(Hint(&got)).unwrap();
        assert_eq!(got.get(), hint);
    }
}

/// 01's answer 9. The crate's users see serde's custom error, after the varint's own errors.
#[test]
fn unknown_variant() {
    #[derive(Deserialize, Debug)]
    enum Two {
        A,
        B,
    }
    let read = |m: &[u8]| postcard::from_bytes::<Two>(m).map(|t| matches!(t, Two::B) as u8 + matches!(t, Two::A) as u8);
    assert_eq!(read(&[1]), Ok(1));
    assert_eq!(read(&[2]), Err(Error::SerdeDeCustom));
    assert_eq!(read(&[0x80, 0x80, 0x80, 0x80, 0x10]), Err(Error::DeserializeBadVarint));
}

/// 01: on 12 the output is unchanged. The crate leaves the part that fitted.
#[test]
fn full_output_is_touched() {
    let mut out = [0xA5; 2];
    assert_eq!(postcard::to_slice(&(1u8, 300u16), &mut out).err(), Some(Error::SerializeBufferFull));
    assert_eq!(out, [1, 0xA5]);
}

/// Floats keep their bits, signalling NaN too.
#[test]
fn nan_bits() {
    for bits in [0x7F80_0001u32, 0x7FA0_0000, 0xFFC0_0000] {
        assert_eq!(postcard::from_bytes::<f32>(&bits.to_le_bytes()).unwrap().to_bits(), bits);
    }
    for bits in [0x7FF0_0000_0000_0001u64, 0x7FF4_0000_0000_0000] {
        assert_eq!(postcard::from_bytes::<f64>(&bits.to_le_bytes()).unwrap().to_bits(), bits);
    }
}

/// T-06: longer forms, which the crate reads and doesn't write.
#[test]
fn longer_forms_are_read_but_not_written() {
    use oracle_driver::{strict, table::*};
    let strictly = |kind, m: &[u8]| {
        let got = strict::read_good(&Table::leaf(kind), m, 1);
        (got.no, got.place, got.entries.len())
    };
    assert_eq!(postcard::from_bytes::<u16>(&[0x80, 0]), Ok(0));
    assert_eq!(postcard::to_slice(&0u16, &mut [0; 3]).map(|out| out.len()), Ok(1));
    assert_eq!((strictly(U16, &[0x80, 0]), strictly(U16, &[0])), ((16, 0, 0), (0, 1, 1)));
    assert_eq!(postcard::from_bytes::<char>(&[2, 0x61, 0x62]), Ok('a'));
    assert_eq!(postcard::to_slice(&'a', &mut [0; 5]).map(|out| out.len()), Ok(2));
    assert_eq!((strictly(CHAR, &[2, 0x61, 0x62]), strictly(CHAR, &[1, 0x61])), ((16, 0, 0), (0, 2, 1)));
    assert_eq!((strictly(STR, &[0x81, 0, 0x61]), strictly(STR, &[1, 0x61])), ((16, 0, 0), (0, 2, 1)));
    // The item's own refusals come first.
    assert_eq!((strictly(STR, &[0x81, 0]), strictly(STR, &[0x81, 0, 0xFF])), ((3, 0, 0), (7, 0, 0)));
}

/// T-06: an item is its own bytes. A padded count is 16 whatever its elements are, and a padded element is 16 at its own
/// place, with the entries before it.
#[test]
fn a_count_is_an_item_of_its_own() {
    use oracle_driver::{strict, table::*};
    let nodes = vec![Node { kind: U16, kids: vec![] }, Node { kind: SEQ, kids: vec![0] }];
    let table = Table { nodes, root: 1 };
    for elements in [&[][..], &[5], &[5, 6], &[0x80], &[0x85, 0, 0x86, 0]] {
        let message = [&[0x82, 0], elements].concat();
        let got = strict::read_good(&table, &message, 3);
        assert_eq!((got.no, got.place, got.entries.len()), (16, 0, 0));
    }
    let got = strict::read_good(&table, &[2, 5, 0x86, 0], 3);
    assert_eq!((got.no, got.place, &got.entries[..]), (16, 2, &[[2, 0, 0], [5, 0, 1]][..]));
}

/// A text of no bytes has its offset behind the length byte.
#[test]
fn empty_text() {
    let got = oracle_driver::read::read_good(&oracle_driver::table::Table::leaf(12), &[0], 1, vec![]);
    assert_eq!((got.no, got.place, &got.entries[..]), (0, 1, &[[1, 0, 0]][..]));
}

/// T-01: an entry's third word is where the crate's cursor stood when the item began. Items without
/// bytes stand where the cursor is, also at the message's end.
#[test]
fn where_items_stand() {
    use oracle_driver::table::*;
    let node = |kind, kids: &[usize]| Node { kind, kids: kids.to_vec() };
    let nodes = vec![
        node(U16, &[]),
        node(UNIT, &[]),
        node(STR, &[]),
        node(OPTION, &[0]),
        node(SEQ, &[3]),
        node(ENUM, &[1, 0]),
        node(STRUCT, &[]),
        node(STRUCT, &[0, 1, 2, 4, 5, 6]),
    ];
    let table = Table { nodes, root: 7 };
    // u16 1 (overlong), unit, "ab", a sequence of an absent and a present option, variant 0, a struct of nothing.
    let message = [0x81, 0x80, 0x00, 2, 0x61, 0x62, 2, 0, 1, 9, 0];
    let got = oracle_driver::read::read_good(&table, &message, 11, vec![]);
    assert_eq!((got.no, got.place), (0, 11));
    assert_eq!(got.entries.iter().map(|e| e[2]).collect::<Vec<_>>(), [0, 0, 3, 3, 6, 7, 8, 9, 10, 11, 11]);
}

/// What doesn't fit of an over-full chunk comes back, and is the front of the next frame when it is fed again.
#[test]
fn nothing_waits_behind_an_over_full_chunk() {
    let mut accumulator = CobsAccumulator::<4>::new();
    let FeedResult::OverFull(rest) = accumulator.feed::<u8>(&[1; 5]) else { panic!("not over-full") };
    assert_eq!(rest, [1]);
    assert!(matches!(accumulator.feed::<u8>(&[1]), FeedResult::Consumed));
    let FeedResult::OverFull(rest) = accumulator.feed::<u8>(&[2, 7, 9, 8]) else { panic!("the byte before isn't kept") };
    assert_eq!(rest, [8]);
}
