//! Night batches, through the static library: written, checked, searched for a last message, and compacted.
use reystavem::samples::TABLE_T;
use reystavem::*;

/// Four messages of T, of stores 300, 7, 300 and 300, laid end to end; the third one's keys are padded.
const MESSAGES: [u8; 17] = [
    0xac, 0x02, 0x05, 0x03, // 300, 5
    0x07, 0x05, 0x00, // 7, 5
    0xac, 0x82, 0x00, 0x84, 0x00, 0x01, // 300, 4
    0xac, 0x02, 0x05, 0x09, // 300, 5
];

/// Their rows and the trailer.
const INDEX: [u8; 76] = [
    7, 0, 0, 0, 5, 0, 0, 0, 0, 0, 0, 0, 4, 0, 0, 0, // 7, 5, at 4
    0x2c, 1, 0, 0, 4, 0, 0, 0, 0, 0, 0, 0, 7, 0, 0, 0, // 300, 4, at 7
    0x2c, 1, 0, 0, 5, 0, 0, 0, 0, 0, 0, 0, 0, 0, 0, 0, // 300, 5, at 0
    0x2c, 1, 0, 0, 5, 0, 0, 0, 0, 0, 0, 0, 13, 0, 0, 0, // 300, 5, at 13
    4, 0, 0, 0, 64, 0, 0, 0, 0, 0, 1, 0, // four rows, 64 bytes back, fields 0 and 1
];

const LEN: usize = MESSAGES.len() + INDEX.len();

fn night() -> Vec<u8> {
    [&MESSAGES[..], &INDEX].concat()
}

fn at_the_front(why: Why) -> Refused {
    Refused { why, place: 0 }
}

#[test]
fn a_batch_is_its_messages_its_rows_and_its_trailer() {
    let mut out = [7; LEN + 3];
    assert_eq!(batch_write(TABLE_T, &MESSAGES, 0, 1, &mut out), Ok(LEN));
    assert_eq!(out[..LEN], night());
    assert_eq!(out[LEN..], [7; 3]);
    assert_eq!(batch_check(TABLE_T, &night()), Ok(()));
    let mut empty = [7; 13];
    assert_eq!(batch_write(TABLE_T, &[], 0, 1, &mut empty), Ok(12));
    assert_eq!(empty, [0, 0, 0, 0, 0, 0, 0, 0, 0, 0, 1, 0, 7]);
    assert_eq!(batch_check(TABLE_T, &empty[..12]), Ok(()));
}

#[test]
fn a_refused_writing_leaves_the_output() {
    let written = |table: &[u8], messages: &[u8], store_field: u64, product_field: u64, len: usize| {
        let mut out = [7; LEN];
        let answer = batch_write(table, messages, store_field, product_field, &mut out[..len]);
        assert_eq!(out, [7; LEN]);
        answer
    };
    assert_eq!(written(TABLE_T, &MESSAGES, 0, 1, LEN - 1), Err(at_the_front(Why::Full)));
    // What is refused before the output is looked at: a message, at its place in the input; the fields; the table.
    let ends = Refused { why: Why::End, place: 16 };
    assert_eq!(written(TABLE_T, &MESSAGES[..16], 0, 1, 0), Err(ends));
    let too_large = [0x07, 0x05, 0x00, 0xff, 0xff, 0xff, 0xff, 0x1f];
    assert_eq!(written(TABLE_T, &too_large, 0, 1, LEN), Err(Refused { why: Why::Varint, place: 3 }));
    for (store_field, product_field) in [(1, 0), (0, 0), (2, 1), (0, 3), (1 << 16, 1), (0, u64::MAX)] {
        let answer = written(TABLE_T, &MESSAGES[..16], store_field, product_field, 0);
        assert_eq!(answer, Err(at_the_front(Why::Fields)));
    }
    assert_eq!(written(&[], &MESSAGES[..16], 1, 0, 0), Err(at_the_front(Why::Trailer)));
    let record = [&[0x63], &TABLE_T[1..]].concat();
    assert_eq!(written(&record, &MESSAGES[..16], 1, 0, 0), Err(at_the_front(Why::Record)));
}

#[test]
fn every_byte_of_the_rows_and_of_the_trailer_counts() {
    let bad = Err(at_the_front(Why::Batch));
    for byte in MESSAGES.len()..LEN - 4 {
        let mut batch = night();
        batch[byte] ^= 0x10;
        assert_eq!(batch_check(TABLE_T, &batch), bad, "byte {byte}");
    }
    for byte in LEN - 4..LEN {
        let mut batch = night();
        batch[byte] ^= 0x10;
        assert_eq!(batch_check(TABLE_T, &batch), Err(at_the_front(Why::Fields)), "byte {byte}");
    }
    // Rows out of order, a byte in front of them, a message that ends inside them.
    let mut swapped = night();
    swapped[17..49].rotate_left(16);
    let between = [&MESSAGES[..], &[0], &INDEX].concat();
    let cut = [&MESSAGES[..16], &INDEX].concat();
    for batch in [swapped, between, cut] {
        assert_eq!(batch_check(TABLE_T, &batch), bad);
    }
}

#[test]
fn fewer_than_twelve_bytes_come_before_the_fields() {
    let unfit = [0, 0, 0, 0, 0, 0, 0, 0, 1, 0, 0, 0];
    assert_eq!(batch_check(TABLE_T, &unfit), Err(at_the_front(Why::Fields)));
    assert_eq!(batch_last(TABLE_T, &unfit, 300, 5), Err(at_the_front(Why::Fields)));
    for from in 1..=12 {
        assert_eq!(batch_check(TABLE_T, &unfit[from..]), Err(at_the_front(Why::Batch)));
        assert_eq!(batch_last(TABLE_T, &unfit[from..], 300, 5), Err(at_the_front(Why::Batch)));
    }
    assert_eq!(batch_check(&[], &unfit[1..]), Err(at_the_front(Why::Trailer)));
}

#[test]
fn the_last_message_of_a_store_and_product() {
    let batch = night();
    for (store, product, part) in [(300, 5, 13..17), (300, 4, 7..13), (7, 5, 4..7)] {
        let message = batch_last(TABLE_T, &batch, store, product).unwrap();
        // The very bytes of the batch, not others like them.
        assert_eq!(message.as_ptr_range(), batch[part].as_ptr_range());
    }
    for (store, product) in [(7, 4), (300, 6), (8, 0), (300 + (1 << 32), 5), (u64::MAX, u64::MAX)] {
        assert_eq!(batch_last(TABLE_T, &batch, store, product), Err(at_the_front(Why::Key)));
    }
}

#[test]
fn a_search_refuses_a_bad_trailer_and_an_offset_that_is_not_before_the_rows() {
    let mut distance = night();
    distance[85] += 1;
    assert_eq!(batch_last(TABLE_T, &distance, 300, 5), Err(at_the_front(Why::Batch)));
    let mut count = night();
    count[84] |= 0x10;
    assert_eq!(batch_last(TABLE_T, &count, 300, 5), Err(at_the_front(Why::Batch)));
    let mut offset = night();
    offset[77] = 17;
    assert_eq!(batch_last(TABLE_T, &offset, 300, 5), Err(at_the_front(Why::Batch)));
}

#[test]
fn compacted_it_has_the_last_messages_only() {
    // Of the two messages of (300, 5) the first goes.
    let mut right = [7; LEN];
    let len = batch_write(TABLE_T, &MESSAGES[4..], 0, 1, &mut right).unwrap();
    let (before, mut after) = (night(), [7; LEN]);
    assert_eq!(batch_compact(TABLE_T, &before, &mut after), Ok(len));
    assert_eq!(after, right);
    let after = &after[..len];
    for (store, product) in [(300, 5), (300, 4), (7, 5), (7, 4), (300 + (1 << 32), 5)] {
        let [one, other] = [&before, after].map(|batch| batch_last(TABLE_T, batch, store, product));
        assert_eq!(one, other);
    }
    let mut again = vec![7; len];
    assert_eq!(batch_compact(TABLE_T, after, &mut again), Ok(len));
    assert_eq!(again, after);
}

#[test]
fn a_refused_compaction_leaves_the_output() {
    let mut swapped = night();
    swapped[17..49].rotate_left(16);
    let compacted = |batch: &[u8], len: usize| {
        let mut out = [7; LEN];
        let answer = batch_compact(TABLE_T, batch, &mut out[..len]);
        assert_eq!(out, [7; LEN]);
        answer
    };
    assert_eq!(compacted(&night(), LEN - 21), Err(at_the_front(Why::Full)));
    assert_eq!(compacted(&swapped, 0), Err(at_the_front(Why::Batch)));
    assert_eq!(compacted(&night()[LEN - 11..], 0), Err(at_the_front(Why::Batch)));
    let mut unfit = night();
    unfit[LEN - 4] = 1;
    assert_eq!(compacted(&unfit, 0), Err(at_the_front(Why::Fields)));
}
