//! T-08's sentences about the night batch and T-13's about its compaction, one by one, as the oracle and the model have
//! them.
//! Run: cargo test --offline --release -p oracle-driver

use core::ops::Range;
use oracle_driver::table::*;
use oracle_driver::{batch, model, Refusal, ENTRIES};

fn node(kind: u8, kids: &[usize]) -> Node {
    Node { kind, kids: kids.to_vec() }
}

/// A table whose root is the last node.
fn rooted(nodes: Vec<Node>) -> Table {
    Table { root: nodes.len() - 1, nodes }
}

/// Store, product and count, 01's table T.
fn count() -> Table {
    rooted(vec![node(U32, &[]), node(U64, &[]), node(I32, &[]), node(STRUCT, &[0, 1, 2])])
}

fn numbered(Refusal { no, place }: Refusal) -> (u8, usize) {
    (no, place)
}

fn written(table: &Table, messages: &[u8], fields: [u64; 2], out_len: usize) -> Result<Vec<u8>, (u8, usize)> {
    let file = table.file();
    let both = [batch::write, model::batch_write].map(|write| write(&file, messages, fields, out_len));
    assert_eq!(both[0], both[1]);
    both[0].clone().map_err(numbered)
}

fn checked(table: &Table, bytes: &[u8]) -> Result<(), (u8, usize)> {
    let file = table.file();
    let both = [batch::check, model::batch_check].map(|check| check(&file, bytes));
    assert_eq!(both[0], both[1]);
    both[0].map_err(numbered)
}

/// None where the documents don't fix the answer.
fn last(table: &Table, bytes: &[u8], store: u64, product: u64) -> Option<Result<Range<usize>, (u8, usize)>> {
    let file = table.file();
    let both = [batch::last, model::batch_last].map(|last| last(&file, bytes, store, product));
    assert_eq!(both[0], both[1]);
    both[0].clone().map(|answer| answer.map_err(numbered))
}

fn compacted(table: &Table, bytes: &[u8], out_len: usize) -> Result<Vec<u8>, (u8, usize)> {
    let file = table.file();
    let both = [batch::compact, model::batch_compact].map(|compact| compact(&file, bytes, out_len));
    assert_eq!(both[0], both[1]);
    both[0].clone().map_err(numbered)
}

/// Of stores 300, 7, 300 and 300: messages of 4, 3, 4 and 4 bytes.
const MESSAGES: [u8; 15] = [0xAC, 2, 5, 3, 7, 5, 0, 0xAC, 2, 4, 1, 0xAC, 2, 5, 9];

fn night() -> Vec<u8> {
    written(&count(), &MESSAGES, [0, 1], 200).expect("good messages")
}

#[test]
fn messages_then_rows_sorted_by_store_product_and_offset_then_the_trailer() {
    let rows = [[7, 5, 4], [300, 4, 7], [300, 5, 0], [300, 5, 11_u32]];
    let mut expected = MESSAGES.to_vec();
    for [store, product, offset] in rows {
        expected.extend(store.to_le_bytes());
        expected.extend(u64::from(product).to_le_bytes());
        expected.extend(offset.to_le_bytes());
    }
    expected.extend([4, 0, 0, 0, 64, 0, 0, 0, 0, 0, 1, 0]);
    assert_eq!(night(), expected);
    assert_eq!(checked(&count(), &expected), Ok(()));
}

#[test]
fn an_empty_batch_is_twelve_bytes() {
    let empty = written(&count(), &[], [0, 1], 12).expect("room enough");
    assert_eq!(empty, [0, 0, 0, 0, 0, 0, 0, 0, 0, 0, 1, 0]);
    assert_eq!(checked(&count(), &empty), Ok(()));
    assert_eq!(last(&count(), &empty, 0, 0), Some(Err((19, 0))));
}

#[test]
fn the_two_fields_are_places_in_the_root_struct_of_kinds_7_and_8() {
    for fields in [[1, 0], [0, 0], [1, 1], [2, 1], [0, 2], [3, 1], [0, 3], [65_536, 1], [0, 65_537], [u64::MAX, 1]] {
        assert_eq!(written(&count(), &MESSAGES, fields, 200), Err((17, 0)), "{fields:?}");
    }
    // The same kinds of a fixed size, and a root that isn't a struct but has such a child.
    for (store, product) in [(24, U64), (U32, 25), (30, 31)] {
        let table = rooted(vec![node(store, &[]), node(product, &[]), node(STRUCT, &[0, 1])]);
        assert_eq!(written(&table, &[], [0, 1], 12), Err((17, 0)));
    }
    for root in [node(MAP, &[0, 1]), node(ENUM, &[0, 1])] {
        assert_eq!(written(&rooted(vec![node(U32, &[]), node(U64, &[]), root]), &[], [0, 1], 12), Err((17, 0)));
    }
    // Keys in any of the root's fields.
    let table = rooted(vec![node(STR, &[]), node(U64, &[]), node(U32, &[]), node(STRUCT, &[0, 1, 2, 1, 2])]);
    let message = [2, b'a', b'b', 9, 8, 7, 6];
    let batch = written(&table, &message, [4, 3], 35).expect("a good message");
    assert_eq!(batch[7..23], [6, 0, 0, 0, 7, 0, 0, 0, 0, 0, 0, 0, 0, 0, 0, 0]);
    assert_eq!(last(&table, &batch, 6, 7), Some(Ok(0..7)));
    assert_eq!(last(&table, &batch, 8, 9), Some(Err((19, 0))));
}

#[test]
fn one_row_for_each_message_its_own_key_and_offset_in_it() {
    let good = night();
    let row = |i: usize| 15 + 16 * i..31 + 16 * i;
    let swapped = [&good[..15], &good[row(1)], &good[row(0)], &good[row(2).start..]].concat();
    let same_key_swapped = [&good[..47], &good[row(3)], &good[row(2)], &good[79..]].concat();
    let twice = [&good[..63], &good[row(2)], &good[79..]].concat();
    let mut few = [&good[..63], &good[79..]].concat();
    few[63..71].copy_from_slice(&[3, 0, 0, 0, 48, 0, 0, 0]);
    let mut many = [&good[..79], &good[row(3)], &good[79..]].concat();
    many[95..103].copy_from_slice(&[5, 0, 0, 0, 80, 0, 0, 0]);
    for bad in [swapped, same_key_swapped, twice, few, many] {
        assert_eq!(checked(&count(), &bad), Err((18, 0)));
    }
    for byte in 15..good.len() - 4 {
        let mut changed = good.clone();
        changed[byte] ^= 1;
        assert_eq!(checked(&count(), &changed), Err((18, 0)), "{byte}");
    }
}

#[test]
fn it_reads_fully_from_its_first_byte_to_the_rows() {
    let good = night();
    for bad in [
        [&good[..14], &good[15..]].concat(),
        [&good[..15], &[0][..], &good[15..]].concat(),
        [&[0][..], &good[..]].concat(),
        [&good[..79], &[0][..], &good[79..]].concat(),
    ] {
        assert_eq!(checked(&count(), &bad), Err((18, 0)));
    }
    // A message doesn't go on into the rows.
    let text = rooted(vec![node(U32, &[]), node(U64, &[]), node(STR, &[]), node(STRUCT, &[0, 1, 2])]);
    let mut batch = written(&text, &[7, 5, 1, b'a'], [0, 1], 32).expect("a good message");
    assert_eq!(checked(&text, &batch), Ok(()));
    batch[2] = 3;
    assert_eq!(checked(&text, &batch), Err((18, 0)));
}

#[test]
fn overlong_keys_are_the_same_keys() {
    let batch = written(&count(), &[0xAC, 0x82, 0, 0x85, 0, 3], [0, 1], 34).expect("a good message");
    assert_eq!(batch[6..22], [0x2C, 1, 0, 0, 5, 0, 0, 0, 0, 0, 0, 0, 0, 0, 0, 0]);
    assert_eq!(last(&count(), &batch, 300, 5), Some(Ok(0..6)));
}

#[test]
fn the_last_message_of_a_store_and_product() {
    let good = night();
    for (store, product, part) in [(300, 5, 11..15), (300, 4, 7..11), (7, 5, 4..7)] {
        assert_eq!(last(&count(), &good, store, product), Some(Ok(part)));
    }
    for (store, product) in [(7, 4), (300, 6), (0, 0), (301, 5), (300 + (1 << 32), 5), (u64::MAX, u64::MAX)] {
        assert_eq!(last(&count(), &good, store, product), Some(Err((19, 0))));
    }
}

#[test]
fn the_search_alone() {
    let good = night();
    let mut distance = good.clone();
    distance[83] += 1;
    assert_eq!(last(&count(), &distance, 300, 5), Some(Err((18, 0))));
    // The last row of (300, 5) says an offset that isn't before the rows; in a row of another key it isn't found.
    let mut beyond = good.clone();
    beyond[75] = 15;
    assert_eq!(last(&count(), &beyond, 300, 5), Some(Err((18, 0))));
    assert_eq!(last(&count(), &beyond, 300, 4), None);
    assert_eq!(last(&count(), &beyond, 1 << 32 | 300, 5), Some(Err((19, 0))));
    beyond[75] = 14;
    assert_eq!(last(&count(), &beyond, 300, 5), None);
}

#[test]
fn the_table_then_the_fields_then_the_batch_but_twelve_bytes_first() {
    let (good, bad_table) = (night(), Table { root: 9, ..count() });
    let mut unfit = good.clone();
    unfit[87] = 1;
    let mut unfit_and_bad = unfit.clone();
    unfit_and_bad[79] = 9;
    for (bytes, no) in [(&unfit[..], 17), (&unfit_and_bad, 17), (&good[80..], 18), (&unfit[80..], 18), (&[], 18)] {
        assert_eq!(checked(&count(), bytes), Err((no, 0)));
        assert_eq!(last(&count(), bytes, 1 << 32, 5), Some(Err((no, 0))));
        assert_eq!(checked(&bad_table, bytes), Err((1, 0)));
        assert_eq!(last(&Table::leaf(32), bytes, 300, 5), Some(Err((2, 0))));
    }
    // The count's sixteenfold isn't the distance, though it is in 32 bits; and a distance beyond the file's start.
    let trailer = |count: u32, distance: u32| batch::Trailer { count, distance, fields: [0, 1] }.bytes();
    assert_eq!(checked(&count(), &trailer(1 << 28, 0)), Err((18, 0)));
    assert_eq!(checked(&count(), &trailer(1, 16)), Err((18, 0)));
}

#[test]
fn writing_judges_the_table_the_fields_every_message_and_then_the_output() {
    let cut = &MESSAGES[..14];
    assert_eq!(written(&Table { root: 9, ..count() }, cut, [1, 0], 0), Err((1, 0)));
    assert_eq!(written(&Table::leaf(32), cut, [1, 0], 0), Err((2, 0)));
    assert_eq!(written(&count(), cut, [1, 0], 0), Err((17, 0)));
    // The reader's own, at its place in the whole input.
    assert_eq!(written(&count(), cut, [0, 1], 0), Err((3, 14)));
    assert_eq!(written(&count(), &[7, 5, 0, 7, 0xFF, 0xFF], [0, 1], 0), Err((3, 4)));
    assert_eq!(written(&count(), &[7, 5, 0, 0xFF, 0xFF, 0xFF, 0xFF, 0x1F], [0, 1], 0), Err((4, 3)));
    assert_eq!(written(&count(), &MESSAGES, [0, 1], 90), Err((12, 0)));
    assert_eq!(written(&count(), &MESSAGES, [0, 1], 91).map(|batch| batch.len()), Ok(91));
}

#[test]
fn each_message_is_read_as_with_a_store_of_16384_entries() {
    let crowd = [node(U32, &[]), node(U64, &[]), node(UNIT, &[]), node(SEQ, &[2]), node(STRUCT, &[0, 1, 3])];
    let crowd = rooted(crowd.to_vec());
    let message = |count: usize| [vec![7, 5], model::shortest(count as u64)].concat();
    let (most, more) = (message(ENTRIES - 4), message(ENTRIES - 3));
    let twice = written(&crowd, &[&most[..], &most].concat(), [0, 1], 100).expect("room for each message's entries");
    assert_eq!(checked(&crowd, &twice), Ok(()));
    assert_eq!(last(&crowd, &twice, 7, 5), Some(Ok(4..8)));
    assert_eq!(written(&crowd, &[&most[..], &more].concat(), [0, 1], 100), Err((10, 8)));
    let mut bad = twice;
    bad[4..8].copy_from_slice(&more);
    assert_eq!(checked(&crowd, &bad), Err((18, 0)));
}

#[test]
fn compacted_it_holds_the_last_message_of_each_pair_in_the_old_order_with_rows_made_afresh() {
    // Of the two messages of (300, 5), which the first and the last are, the first goes.
    let kept = &MESSAGES[4..];
    assert_eq!(compacted(&count(), &night(), 71), written(&count(), kept, [0, 1], 71));
    // The last one in the middle: the order is that of the messages that are kept, not of the keys.
    let messages = [[7, 5, 0], [9, 5, 1], [7, 5, 2], [8, 5, 3], [9, 5, 4], [1, 1, 5]];
    let batch = written(&count(), messages.as_flattened(), [0, 1], 200).expect("good messages");
    let kept = [[7, 5, 2], [8, 5, 3], [9, 5, 4], [1, 1, 5]];
    assert_eq!(compacted(&count(), &batch, 200), written(&count(), kept.as_flattened(), [0, 1], 200));
    // Its bytes as they were, padded or not.
    let padded = written(&count(), &[7, 5, 0, 0x87, 0, 0x85, 0x80, 0, 0x80, 0], [0, 1], 200).expect("good messages");
    let kept = written(&count(), &[0x87, 0, 0x85, 0x80, 0, 0x80, 0], [0, 1], 200);
    assert_eq!(compacted(&count(), &padded, 200), kept);
    let empty = written(&count(), &[], [0, 1], 12).expect("room enough");
    assert_eq!(compacted(&count(), &empty, 12), Ok(empty));
}

#[test]
fn every_question_has_the_same_answer_before_and_after_and_again_changes_nothing() {
    let before = night();
    let after = compacted(&count(), &before, 91).expect("a good batch");
    for (store, product) in [(300, 5), (300, 4), (7, 5), (7, 4), (0, 0), (1 << 32 | 300, 5)] {
        let [one, other] = [&before, &after].map(|bytes| {
            let part = last(&count(), bytes, store, product).expect("a good batch");
            part.map(|part| bytes[part].to_vec())
        });
        assert_eq!(one, other);
    }
    assert_eq!(compacted(&count(), &after, after.len()), Ok(after));
}

#[test]
fn refusals_as_the_check_and_then_the_output() {
    let (good, bad_table) = (night(), Table { root: 9, ..count() });
    let mut unfit = good.clone();
    unfit[87] = 1;
    let mut swapped = good.clone();
    swapped[15..47].rotate_left(16);
    assert_eq!(compacted(&bad_table, &unfit, 0), Err((1, 0)));
    assert_eq!(compacted(&Table::leaf(32), &unfit, 0), Err((2, 0)));
    assert_eq!(compacted(&count(), &unfit, 0), Err((17, 0)));
    assert_eq!(compacted(&count(), &unfit[81..], 0), Err((18, 0)));
    assert_eq!(compacted(&count(), &swapped, 0), Err((18, 0)));
    assert_eq!(compacted(&count(), &good, 70), Err((12, 0)));
    assert_eq!(compacted(&count(), &good, 71).map(|batch| batch.len()), Ok(71));
}
