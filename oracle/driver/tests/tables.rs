//! T-10's sentences about tables of the second form and the append question's area, one by one.
//! Run: cargo test --offline --release -p oracle-driver

use oracle_driver::append::{appends, Which, AREA};
use oracle_driver::table::*;
use oracle_driver::Refusal;

fn node(kind: u8, kids: &[usize]) -> Node {
    Node { kind, kids: kids.to_vec() }
}

fn checked(file: &[u8]) -> Result<(), (u8, usize)> {
    Table::parse(file).map(|_| ()).map_err(|Refusal { no, place }| (no, place))
}

/// So many nodes of one byte, and a struct of so many of them as root.
fn wide(nodes: usize, fields: usize) -> Table {
    let mut table = Table { nodes: vec![node(U8, &[]); nodes - 1], root: nodes - 1 };
    table.nodes.push(node(STRUCT, &vec![0; fields]));
    table
}

/// A chain of so many options over a unit, the unit among them.
fn chain(length: usize) -> Table {
    let mut table = Table { nodes: vec![node(UNIT, &[])], root: length - 1 };
    (1..length).for_each(|i| table.nodes.push(node(OPTION, &[i - 1])));
    table
}

#[test]
fn a_trailer_of_fourteen_bytes() {
    let file = wide(2, 1).file_in(SECOND);
    let trailer = [2, 0, 0, 0, 14, 0, 0, 0, 2, 0, 1, 0, 0x57, 0x50];
    assert_eq!(file[file.len() - 14..], trailer);
    assert_eq!(checked(&file), Ok(()));
    assert_eq!(checked(&file[1..]), Err((1, 0)));
    assert_eq!(checked(&trailer[1..]), Err((1, 0)));
    assert_eq!(checked(&[0x57, 0x50]), Err((1, 0)));
}

#[test]
fn each_form_has_its_own_limits() {
    for form in [FIRST, SECOND] {
        assert_eq!(checked(&wide(form.nodes, form.places).file_in(form)), Ok(()));
        assert_eq!(checked(&wide(form.nodes + 1, 1).file_in(form)), Err((1, 0)));
        assert_eq!(checked(&wide(2, form.places + 1).file_in(form)), Err((1, 0)));
    }
    assert_eq!((FIRST.nodes, FIRST.places, SECOND.nodes, SECOND.places), (256, 1_024, 4_096, 32_768));
}

#[test]
fn the_last_two_bytes_choose_the_form() {
    for (form, other) in [(FIRST, SECOND), (SECOND, FIRST)] {
        let mut file = wide(3, 2).file_in(form);
        let mark = file.len() - 2;
        file[mark..].copy_from_slice(&other.mark);
        assert_eq!(checked(&file), Err((1, 0)));
    }
}

#[test]
fn a_chain_of_256_and_no_longer() {
    for length in [255, 256] {
        assert_eq!(checked(&chain(length).file_in(SECOND)), Ok(()));
    }
    assert_eq!(checked(&chain(257).file_in(SECOND)), Err((2, 256)));
    // Reached from the root or not, and the first such node even if a later record is bad besides.
    let mut file = Table { root: 0, ..chain(300) }.file_in(SECOND);
    assert_eq!(checked(&file), Err((2, 256)));
    file[6 * 257] = 99;
    assert_eq!(checked(&file), Err((2, 256)));
    file[6 * 256] = 99;
    assert_eq!(checked(&file), Err((2, 256)));
    file[6 * 255] = 99;
    assert_eq!(checked(&file), Err((2, 255)));
    // A struct without fields counts 1, and the longest of a node's chains is its own.
    let mut table = chain(255);
    table.nodes.push(node(STRUCT, &[]));
    table.nodes.push(node(STRUCT, &[255, 254, 255]));
    assert_eq!(checked(&table.file_in(SECOND)), Ok(()));
    table.nodes.push(node(MAP, &[256, 0]));
    assert_eq!(checked(&table.file_in(SECOND)), Err((2, 257)));
}

#[test]
fn the_area_comes_before_the_tables() {
    let (good, bad) = (wide(2, 1).file_in(SECOND), [0; 20]);
    let short = Err((Refusal { no: 25, place: 0 }, Which::Neither));
    for area in [0, AREA - 1] {
        assert_eq!(appends(&good, &good, area), short);
        assert_eq!(appends(&bad, &good, area), short);
    }
    let trailer = Refusal { no: 1, place: 0 };
    assert_eq!(appends(&good, &good, AREA), Ok(true));
    assert_eq!(appends(&bad, &bad, AREA), Err((trailer, Which::Old)));
    assert_eq!(appends(&good, &bad, AREA), Err((trailer, Which::New)));
}

#[test]
fn either_form_on_either_side() {
    let (old, new) = (wide(2, 3), wide(300, 4));
    for form in [FIRST, SECOND] {
        assert_eq!(appends(&old.file_in(form), &new.file_in(SECOND), AREA), Ok(true));
        assert_eq!(appends(&new.file_in(SECOND), &old.file_in(form), AREA), Ok(false));
    }
}
