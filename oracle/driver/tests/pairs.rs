//! T-05's sentences about two messages side by side, one by one, as the oracle and the model have them.
//! Run: cargo test --offline --release -p oracle-driver

use oracle_driver::compare::{self, Of};
use oracle_driver::table::*;
use oracle_driver::{model, Refusal, ENTRIES};

fn node(kind: u8, kids: &[usize]) -> Node {
    Node { kind, kids: kids.to_vec() }
}

/// A table whose root is the last node.
fn rooted(nodes: Vec<Node>) -> Table {
    Table { root: nodes.len() - 1, nodes }
}

/// The pairs, or the refusal's number and place and what it is of.
fn compared(table: &Table, one: &[u8], other: &[u8], list_words: usize) -> Result<Vec<[u64; 2]>, (u8, usize, Of)> {
    let file = table.file();
    let both = [compare::compare, model::compare].map(|compare| compare(&file, one, other, list_words));
    assert_eq!(both[0], both[1]);
    both[0].clone().map_err(|(Refusal { no, place }, of)| (no, place, of))
}

/// With a list that is long enough.
fn pairs(table: &Table, one: &[u8], other: &[u8]) -> Vec<[u64; 2]> {
    compared(table, one, other, 2 * ENTRIES).expect("good messages")
}

/// Store, product and count, 01's table T.
fn count() -> Table {
    rooted(vec![node(U32, &[]), node(U64, &[]), node(I32, &[]), node(STRUCT, &[0, 1, 2])])
}

#[test]
fn differing_items_in_reading_order_as_pairs_of_places() {
    assert_eq!(pairs(&count(), &[0xAC, 2, 5, 3], &[0xAC, 2, 5, 5]), [[3, 3]]);
    assert_eq!(pairs(&count(), &[0xAC, 2, 5, 3], &[7, 5, 4]), [[0, 0], [3, 2]]);
    assert_eq!(pairs(&count(), &[0xAC, 2, 5, 3], &[7, 6, 4]), [[0, 0], [2, 1], [3, 2]]);
}

#[test]
fn the_inside_of_a_difference_is_not_compared_and_the_walk_goes_on_behind_it() {
    let with_number = |inner: Node| rooted(vec![node(U8, &[]), node(UNIT, &[]), inner, node(STRUCT, &[2, 0])]);
    let option = with_number(node(OPTION, &[0]));
    assert_eq!(pairs(&option, &[0, 5], &[1, 9, 5]), [[0, 0]]);
    assert_eq!(pairs(&option, &[0, 5], &[1, 9, 6]), [[0, 0], [1, 2]]);
    assert_eq!(pairs(&option, &[1, 8, 5], &[1, 9, 5]), [[1, 1]]);
    let sequence = with_number(node(SEQ, &[0]));
    assert_eq!(pairs(&sequence, &[2, 7, 8, 5], &[3, 9, 9, 9, 6]), [[0, 0], [3, 4]]);
    assert_eq!(pairs(&sequence, &[2, 7, 8, 5], &[2, 7, 9, 5]), [[2, 2]]);
    let map = with_number(node(MAP, &[0, 0]));
    assert_eq!(pairs(&map, &[1, 7, 8, 5], &[2, 7, 8, 9, 9, 6]), [[0, 0], [3, 5]]);
    assert_eq!(pairs(&map, &[1, 7, 8, 5], &[1, 6, 9, 5]), [[1, 1], [2, 2]]);
    let variants = with_number(node(ENUM, &[1, 0, 0]));
    assert_eq!(pairs(&variants, &[0, 5], &[1, 9, 6]), [[0, 0], [1, 2]]);
    assert_eq!(pairs(&variants, &[1, 9, 5], &[2, 9, 5]), [[0, 0]]);
    assert_eq!(pairs(&variants, &[1, 9, 5], &[1, 8, 5]), [[1, 1]]);
}

#[test]
fn text_by_content_floats_by_bits_and_no_varint_by_its_length() {
    for kind in [STR, BYTES] {
        let text = rooted(vec![node(U16, &[]), node(kind, &[]), node(STRUCT, &[0, 1])]);
        assert_eq!(pairs(&text, &[7, 2, 0x61, 0x62], &[0x87, 0, 0x82, 0, 0x61, 0x62]), [[0; 2]; 0]);
        assert_eq!(pairs(&text, &[7, 2, 0x61, 0x62], &[7, 2, 0x61, 0x63]), [[1, 1]]);
        assert_eq!(pairs(&text, &[7, 2, 0x61, 0x62], &[7, 1, 0x61]), [[1, 1]]);
    }
    let (nan, other_nan) = (0x7FC0_0000_u32.to_le_bytes(), 0x7FC0_0001_u32.to_le_bytes());
    assert_eq!(pairs(&Table::leaf(F32), &nan, &nan), [[0; 2]; 0]);
    assert_eq!(pairs(&Table::leaf(F32), &nan, &other_nan), [[0, 0]]);
    assert_eq!(pairs(&Table::leaf(F32), &[0; 4], &[0, 0, 0, 0x80]), [[0, 0]]);
    assert_eq!(pairs(&Table::leaf(CHAR), &[1, 0x61], &[2, 0x61, 0x62]), [[0; 2]; 0]);
}

#[test]
fn unread_rest_is_ignored() {
    assert_eq!(pairs(&count(), &[0xAC, 2, 5, 3], &[0xAC, 2, 5, 3, 9]), [[0; 2]; 0]);
    assert_eq!(pairs(&Table::leaf(UNIT), &[1, 2], &[3]), [[0; 2]; 0]);
}

#[test]
fn the_first_message_then_the_second_then_the_list() {
    let (good, cut, bad) = ([0xAC, 2, 5, 3], [0xAC, 2, 5], [0xFF; 12]);
    assert_eq!(compared(&count(), &cut, &bad, 0), Err((3, 3, Of::One)));
    assert_eq!(compared(&count(), &bad, &cut, 0), Err((4, 0, Of::One)));
    assert_eq!(compared(&count(), &good, &bad, 0), Err((4, 0, Of::Other)));
    assert_eq!(compared(&Table { root: 9, ..count() }, &cut, &bad, 0), Err((1, 0, Of::Neither)));
    assert_eq!(compared(&Table::leaf(32), &cut, &bad, 0), Err((2, 0, Of::Neither)));
    // Half of the list's words, rounded down, are its pairs.
    let three = [[0, 0], [2, 1], [3, 2]];
    for (words, fits) in [(0, false), (4, false), (5, false), (6, true), (7, true)] {
        let answer = if fits { Ok(three.to_vec()) } else { Err((15, 0, Of::Neither)) };
        assert_eq!(compared(&count(), &good, &[7, 6, 4], words), answer);
    }
    assert_eq!(compared(&count(), &good, &good, 0), Ok(vec![]));
}

#[test]
fn each_message_is_read_as_with_a_store_of_16384_entries() {
    let units = rooted(vec![node(UNIT, &[]), node(SEQ, &[0])]);
    let message = |count: usize| model::shortest(count as u64);
    let (most, more) = (message(ENTRIES - 1), message(ENTRIES));
    assert_eq!(pairs(&units, &most, &message(0)), [[0, 0]]);
    assert_eq!(compared(&units, &more, &more, 2), Err((10, 3, Of::One)));
    assert_eq!(compared(&units, &most, &more, 2), Err((10, 3, Of::Other)));
    // So many differences are the most.
    let numbers = rooted(vec![node(U8, &[]), node(SEQ, &[0])]);
    let filled = |byte: u8| [message(ENTRIES - 1), vec![byte; ENTRIES - 1]].concat();
    assert_eq!(pairs(&numbers, &filled(1), &filled(2)).len(), ENTRIES - 1);
}
