//! T-11's sentences about CSV rows, one by one, as the oracle and the model have them.
//! Run: cargo test --offline --release -p oracle-driver

use oracle_driver::table::*;
use oracle_driver::{csv, model, Refusal};

type Answer = Result<Vec<u8>, Refusal>;

/// The file of a struct of fields of these kinds.
fn file(kinds: &[u8]) -> Vec<u8> {
    let mut nodes: Vec<Node> = kinds.iter().map(|&kind| Node { kind, kids: vec![] }).collect();
    nodes.push(Node { kind: STRUCT, kids: (0..kinds.len()).collect() });
    Table { root: kinds.len(), nodes }.file()
}

fn export_by(file: &[u8], message: &[u8]) -> Answer {
    let got = csv::export(file, message, 1_000);
    assert_eq!(got, model::csv_export(file, message, 1_000));
    got
}

fn import_by(file: &[u8], row: &[u8]) -> Answer {
    let got = csv::import(file, row, 1_000);
    assert_eq!(got, model::csv_import(file, row, 1_000));
    got
}

/// A message's row, from which the shortest message comes back.
fn row(kinds: &[u8], message: &[u8]) -> String {
    let row = export_by(&file(kinds), message).expect("a good message");
    let back = import_by(&file(kinds), &row).expect("an exported row");
    assert_eq!(export_by(&file(kinds), &back).as_ref(), Ok(&row));
    String::from_utf8(row).expect("a row of texts is a text")
}

/// The place of 21.
fn stops(kinds: &[u8], row: &[u8]) -> usize {
    let refusal = import_by(&file(kinds), row).expect_err("no row");
    assert_eq!(refusal.no, 21);
    refusal.place
}

#[test]
fn one_row_a_message() {
    let t = [U32, U64, I32];
    assert_eq!(row(&t, b"\xAC\x02\x05\x03"), "300,5,-2\r\n");
    assert_eq!(row(&t, b"\xAC\x02\x05\x03\x07"), "300,5,-2\r\n");
    assert_eq!(row(&[], b""), "\r\n");
    assert_eq!(row(&[], b"\x07"), "\r\n");
}

#[test]
fn every_kind_has_one_spelling() {
    assert_eq!(row(&[BOOL, BOOL], &[0, 1]), "0,1\r\n");
    assert_eq!(row(&[I8, I8, U8], &[0x80, 0x7F, 0xFF]), "-128,127,255\r\n");
    assert_eq!(row(&[U64], &[&[0xFF; 9][..], &[1]].concat()), "18446744073709551615\r\n");
    assert_eq!(row(&[I64], &[&[0xFF; 9][..], &[1]].concat()), "-9223372036854775808\r\n");
    assert_eq!(row(&[F32], &0xFFC0_0001u32.to_le_bytes()), "4290772993\r\n");
    assert_eq!(row(&[F64], &(-0.0f64).to_le_bytes()), "9223372036854775808\r\n");
    assert_eq!(row(&[20, 26], &[0, 0x80, 0x80, 0]), "-32768,-32768\r\n");
    assert_eq!(row(&[23, 29], &[0xFF, 0, 0, 0xFF]), "255,255\r\n");
    assert_eq!(row(&[CHAR, CHAR], b"\x01\"\x01,"), "\"\"\"\",\",\"\r\n");
    assert_eq!(row(&[STR], b"\x05a\"\r\n\0"), "\"a\"\"\r\n\0\"\r\n");
    assert_eq!(row(&[BYTES, BYTES], b"\x00\x02\x0A\xFF"), "\"\",\"0aff\"\r\n");
}

#[test]
fn twenty_for_tables_of_another_shape() {
    let shape = Err(Refusal { no: 20, place: 0 });
    let leaf = |kind: u8| Node { kind, kids: vec![] };
    let with = |kind: u8, kids: &[usize]| Node { kind, kids: kids.to_vec() };
    for nodes in [
        vec![leaf(U8)],
        vec![leaf(U8), with(ENUM, &[0])],
        vec![leaf(UNIT), with(STRUCT, &[0])],
        vec![leaf(STRUCT), with(STRUCT, &[0])],
        vec![leaf(U8), with(OPTION, &[0]), with(STRUCT, &[0, 1])],
        vec![leaf(U8), with(STRUCT, &[0; 1_025])],
    ] {
        let file = Table { root: nodes.len() - 1, nodes }.file_in(SECOND);
        assert_eq!(export_by(&file, &[]), shape);
        assert_eq!(import_by(&file, b""), shape);
    }
    let most = Table { root: 1, nodes: vec![leaf(BOOL), with(STRUCT, &[0; 1_024])] }.file();
    let message = [1; 1_024];
    let row = csv::export(&most, &message, 2_049).expect("1,024 fields are a row");
    assert_eq!(csv::import(&most, &row, 1_024), Ok(message.to_vec()));
    assert_eq!(csv::export(&most, &message, 2_048), Err(Refusal { no: 12, place: 0 }));
    assert_eq!(csv::import(&most, &row, 1_023), Err(Refusal { no: 12, place: 0 }));
}

#[test]
fn twenty_one_at_the_first_byte_where_no_row_goes_on() {
    // A number that leaves its range, a leading zero's next digit, a minus zero, a sign that isn't written.
    assert_eq!(stops(&[U8], b"256\r\n"), 2);
    assert_eq!(stops(&[U8], b"1000\r\n"), 3);
    assert_eq!(stops(&[I8], b"-129\r\n"), 3);
    assert_eq!(stops(&[U64], b"18446744073709551616\r\n"), 19);
    assert_eq!(stops(&[U8], b"01\r\n"), 1);
    assert_eq!(stops(&[I8], b"-0\r\n"), 1);
    assert_eq!(stops(&[U8], b"-1\r\n"), 0);
    assert_eq!(stops(&[U8], b"+1\r\n"), 0);
    assert_eq!(stops(&[BOOL], b"2\r\n"), 0);
    // A byte that UTF-8 can't have there, an odd hex digit's closing quote, upper case, a second char, none.
    assert_eq!(stops(&[STR], b"\"\xED\xA0\x80\"\r\n"), 2);
    assert_eq!(stops(&[STR], b"\"\xC3\"\r\n"), 2);
    assert_eq!(stops(&[BYTES], b"\"0\"\r\n"), 2);
    assert_eq!(stops(&[BYTES], b"\"0A\"\r\n"), 2);
    assert_eq!(stops(&[CHAR], b"\"ab\"\r\n"), 2);
    assert_eq!(stops(&[CHAR], b"\"\"\"a\"\r\n"), 3);
    assert_eq!(stops(&[CHAR], b"\"\"\r\n"), 2);
    assert_eq!(stops(&[STR], b"\"a\"b\"\r\n"), 3);
    // LF alone, what isn't LF behind CR, a space behind a comma, a field too many and too few.
    assert_eq!(stops(&[U8], b"1\n"), 1);
    assert_eq!(stops(&[U8], b"1\r\r"), 2);
    assert_eq!(stops(&[U8, U8], b"1, 2\r\n"), 2);
    assert_eq!(stops(&[U8], b"1,2\r\n"), 1);
    assert_eq!(stops(&[U8, U8], b"1\r\n"), 1);
}

#[test]
fn twenty_one_at_the_length_if_it_ends_early_and_behind_the_row_if_more_follows() {
    let row = b"1,\"\"\"\",\"0a\"\r\n";
    for len in 0..row.len() {
        assert_eq!(stops(&[U8, CHAR, BYTES], &row[..len]), len);
    }
    assert_eq!(stops(&[U8, CHAR, BYTES], &[&row[..], b"\r\n"].concat()), row.len());
    assert_eq!(stops(&[], b""), 0);
    assert_eq!(stops(&[], b"\r\n\0"), 2);
}

#[test]
fn the_readers_own_refusals() {
    assert_eq!(export_by(&file(&[U32, U64]), b"\xAC\x02"), Err(Refusal { no: 3, place: 2 }));
    assert_eq!(export_by(&file(&[U8, CHAR]), b"\x00\x05"), Err(Refusal { no: 6, place: 1 }));
    // A char that is longer than its first, and a padded number, are read and written in their shortest forms.
    assert_eq!(row(&[CHAR, U16], b"\x02ab\x81\x00"), "\"a\",1\r\n");
}
