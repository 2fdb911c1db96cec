//! T-02's sentences about one item by its path, one by one, as the oracle and the model have them.
//! Run: cargo test --offline --release -p oracle-driver

use oracle_driver::table::*;
use oracle_driver::{find, model, read, Entry, Refusal, ENTRIES, WORDS};

fn node(kind: u8, kids: &[usize]) -> Node {
    Node { kind, kids: kids.to_vec() }
}

/// A table whose root is the last node.
fn rooted(nodes: Vec<Node>) -> Table {
    Table { root: nodes.len() - 1, nodes }
}

/// The entry, or the refusal's number and place.
fn found(table: &Table, path: &[u64], message: &[u8]) -> Result<Entry, (u8, usize)> {
    let file = table.file();
    let both = [find::find, model::find].map(|find| find(&file, path, message));
    assert_eq!(both[0], both[1]);
    both[0].map_err(|Refusal { no, place }| (no, place))
}

/// Store, product and count, 01's table T.
fn count() -> Table {
    rooted(vec![node(U32, &[]), node(U64, &[]), node(I32, &[]), node(STRUCT, &[0, 1, 2])])
}

#[test]
fn the_answer_is_what_a_full_read_has_put_there() {
    let message = [0xAC, 2, 5, 3];
    let entries = read::read(&count().file(), &message, WORDS * ENTRIES).entries;
    for (field, entry) in entries[1..].iter().enumerate() {
        assert_eq!(found(&count(), &[field as u64], &message), Ok(*entry));
    }
}

#[test]
fn also_when_that_full_read_refuses_later() {
    for behind in [&[][..], &[0xFF; 12], &[5], &[5, 3, 9]] {
        assert_eq!(found(&count(), &[0], &[&[0xAC, 2], behind].concat()), Ok([300, 0, 0]));
    }
}

#[test]
fn a_refusal_before_it_or_at_it_is_the_same() {
    let bad_product = [&[7][..], &[0xFF; 10]].concat();
    for path in [[1], [2]] {
        assert_eq!(found(&count(), &path, &bad_product), Err((4, 1)));
        assert_eq!(found(&count(), &path, &[7]), Err((3, 1)));
    }
    // The room among them: a struct, a sequence and its units come before the number.
    let crowd = rooted(vec![node(UNIT, &[]), node(SEQ, &[0]), node(U8, &[]), node(STRUCT, &[1, 2])]);
    let message = |units: usize| [model::shortest(units as u64), vec![9]].concat();
    assert_eq!(found(&crowd, &[1], &message(ENTRIES - 3)), Ok([9, 0, 2]));
    assert_eq!(found(&crowd, &[1], &message(ENTRIES - 2)), Err((10, 2)));
    assert_eq!(found(&crowd, &[1], &message(usize::MAX)), Err((10, 10)));
}

#[test]
fn a_path_that_leads_to_no_item() {
    let wrong: [&[u64]; 6] = [&[], &[3], &[0, 0], &[1 << 32], &[u64::MAX], &[0; 600]];
    for path in wrong {
        for message in [&[][..], &[0xAC, 2, 5, 3], &[0xFF; 12]] {
            assert_eq!(found(&count(), path, message), Err((13, 0)));
        }
    }
    // Into a sequence, a map or an enum, or to one of them, to a unit, a struct or an option.
    for kind in [UNIT, OPTION, SEQ, MAP, STRUCT, ENUM] {
        let kids = [&[][..], &[0], &[0], &[0, 0], &[0], &[0]][usize::from(kind - UNIT)];
        let table = rooted(vec![node(U8, &[]), node(kind, kids)]);
        assert_eq!(found(&table, &[], &[1, 1, 1]), Err((13, 0)));
        let enters = kind == OPTION || kind == STRUCT;
        assert_eq!(found(&table, &[0], &[1, 1, 1]).is_ok(), enters);
        assert_eq!(found(&table, &[1], &[1, 1, 1]), Err((13, 0)));
    }
    // 1 and 2 come before it.
    assert_eq!(find::find(&[], &[], &[]), Err(Refusal { no: 1, place: 0 }));
    assert_eq!(find::find(&Table::leaf(32).file(), &[7], &[]), Err(Refusal { no: 2, place: 0 }));
}

#[test]
fn the_first_option_on_the_path_read_as_absent() {
    // An option beside the path, and on it one in a struct in another.
    let table =
        rooted(vec![node(U8, &[]), node(OPTION, &[0]), node(STRUCT, &[1]), node(OPTION, &[2]), node(STRUCT, &[1, 3])]);
    let path = [1, 0, 0, 0];
    assert_eq!(found(&table, &path, &[0, 1, 1, 9]), Ok([9, 0, 3]));
    assert_eq!(found(&table, &path, &[1, 7, 0]), Err((14, 2)));
    for behind in [&[][..], &[0], &[0xFF; 3]] {
        assert_eq!(found(&table, &path, &[&[0, 0], behind].concat()), Err((14, 1)));
        assert_eq!(found(&table, &path, &[&[0, 1, 0], behind].concat()), Err((14, 2)));
    }
    assert_eq!(found(&table, &path, &[0, 1, 2]), Err((8, 2)));
    assert_eq!(found(&table, &path, &[0, 1]), Err((3, 2)));
}
