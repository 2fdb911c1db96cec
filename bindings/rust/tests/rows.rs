//! CSV rows, through the static library: messages exported, and rows imported.
use reystavem::samples::TABLE_T;
use reystavem::*;

/// A struct of fields of these kinds, each a node of its own.
fn struct_of(kinds: &[u8]) -> Vec<u8> {
    let fields = kinds.len() as u8;
    let mut file: Vec<u8> = kinds.iter().flat_map(|kind| [*kind, 0, 0, 0, 0, 0]).collect();
    file.extend([18, 0, 0, 0, fields, 0]);
    file.extend((0..fields).flat_map(|field| [field, 0]));
    let (nodes, list) = (fields + 1, 2 * fields);
    file.extend([list, 0, 6 * nodes + list, 0, nodes, 0, fields, 0, 0x53, 0x50]);
    file
}

/// The row of a message, from which the message comes back.
fn row(kinds: &[u8], message: &[u8]) -> String {
    let (table, mut out, mut back) = (struct_of(kinds), [7; 100], [7; 100]);
    let len = csv_export(&table, message, &mut out).unwrap();
    assert_eq!(csv_import(&table, &out[..len], &mut back), Ok(message.len()));
    assert_eq!(back[..message.len()], *message);
    assert_eq!((&out[len..], &back[message.len()..]), (&[7; 100][len..], &[7; 100][message.len()..]));
    String::from_utf8(out[..len].to_vec()).unwrap()
}

/// The place of 21, with the output unchanged.
fn stops(kinds: &[u8], row: &[u8]) -> usize {
    let mut out = [7; 100];
    let refused = csv_import(&struct_of(kinds), row, &mut out).unwrap_err();
    assert_eq!((refused.why, out), (Why::Row, [7; 100]));
    refused.place
}

#[test]
fn every_kind_has_one_spelling() {
    assert_eq!(row(&[7, 8, 3], &[0xac, 0x02, 0x05, 0x03]), "300,5,-2\r\n");
    assert_eq!(row(&[0, 0, 1, 5], &[0, 1, 0x80, 0xff]), "0,1,-128,255\r\n");
    assert_eq!(row(&[4], &[0xff, 0xff, 0xff, 0xff, 0xff, 0xff, 0xff, 0xff, 0xff, 1]), "-9223372036854775808\r\n");
    assert_eq!(row(&[9], &(-1.5f32).to_le_bytes()), "3217031168\r\n");
    assert_eq!(row(&[10], &f64::NAN.to_le_bytes()), "9221120237041090560\r\n");
    assert_eq!(row(&[20, 26, 23, 29], &[0xfe, 0xff, 0xff, 0xfe, 1, 0, 0, 1]), "-2,-2,1,1\r\n");
    assert_eq!(row(&[11, 12, 12], b"\x01\"\x05a\"\r\n,\x00"), "\"\"\"\",\"a\"\"\r\n,\",\"\"\r\n");
    assert_eq!(row(&[13, 13], &[2, 0x0a, 0xff, 0]), "\"0aff\",\"\"\r\n");
    assert_eq!(row(&[], &[]), "\r\n");
}

#[test]
fn a_rest_is_left_out_and_the_shortest_form_comes_back() {
    let (mut out, mut back) = ([7; 10], [7; 10]);
    assert_eq!(csv_export(TABLE_T, &[0xac, 0x82, 0x00, 0x05, 0x03, 0x07], &mut out), Ok(10));
    assert_eq!(out, *b"300,5,-2\r\n");
    assert_eq!(csv_import(TABLE_T, &out, &mut back), Ok(4));
    assert_eq!(back, [0xac, 0x02, 0x05, 0x03, 7, 7, 7, 7, 7, 7]);
}

#[test]
fn no_other_spelling_is_taken() {
    for (field, place) in [("256", 2), ("00", 1), ("-1", 0), ("+1", 0), (" 1", 0), ("\"1\"", 0), ("1.0", 1), ("", 0)] {
        assert_eq!(stops(&[5], format!("{field}\r\n").as_bytes()), place, "{field}");
    }
    for (field, place) in [("-0", 1), ("-129", 3), ("128", 2), ("--1", 1)] {
        assert_eq!(stops(&[1], format!("{field}\r\n").as_bytes()), place, "{field}");
    }
    for (field, place) in [("\"\"", 2), ("\"ab\"", 2), ("a", 0), ("\"\"\"", 3)] {
        assert_eq!(stops(&[11], format!("{field}\r\n").as_bytes()), place, "{field}");
    }
    for (field, place) in [("\"0A\"", 2), ("\"0\"", 2), ("\"0g\"", 2), ("0a", 0)] {
        assert_eq!(stops(&[13], format!("{field}\r\n").as_bytes()), place, "{field}");
    }
    assert_eq!(stops(&[12], b"\"a\xed\xa0\x80\"\r\n"), 3);
    assert_eq!(stops(&[12], b"\"\xc3\"\r\n"), 2);
}

#[test]
fn a_row_ends_where_it_ends() {
    for (row, place) in [("5", 1), ("5\n", 1), ("5\r", 2), ("5\r\r\n", 2), ("5\r\n\r\n", 3), ("5,5\r\n", 1), ("", 0)] {
        assert_eq!(stops(&[5], row.as_bytes()), place, "{row:?}");
    }
    assert_eq!(stops(&[5, 5], b"5\r\n"), 1);
    assert_eq!(stops(&[], b"0\r\n"), 0);
}

#[test]
fn a_refusal_leaves_the_output() {
    let exported = |table: &[u8], message: &[u8], len: usize| {
        let mut out = [7; 10];
        let answer = csv_export(table, message, &mut out[..len]);
        assert_eq!(out, [7; 10]);
        answer.unwrap_err()
    };
    let imported = |table: &[u8], row: &[u8], len: usize| {
        let mut out = [7; 10];
        let answer = csv_import(table, row, &mut out[..len]);
        assert_eq!(out, [7; 10]);
        answer.unwrap_err()
    };
    let at_the_front = |why: Why| Refused { why, place: 0 };
    let message = [0xac, 0x02, 0x05, 0x03];
    assert_eq!(exported(TABLE_T, &message, 9), at_the_front(Why::Full));
    assert_eq!(imported(TABLE_T, b"300,5,-2\r\n", 3), at_the_front(Why::Full));
    // What comes before that: the message or the row, a table that has no rows, a bad table.
    assert_eq!(exported(TABLE_T, &message[..3], 0), Refused { why: Why::End, place: 3 });
    assert_eq!(imported(TABLE_T, b"300,5,-2\n", 0), Refused { why: Why::Row, place: 8 });
    for table in [struct_of(&[5, 14]), struct_of(&[18]), vec![5, 0, 0, 0, 0, 0, 0, 0, 6, 0, 1, 0, 0, 0, 0x53, 0x50]] {
        assert_eq!(exported(&table, &[], 0), at_the_front(Why::Shape));
        assert_eq!(imported(&table, &[], 0), at_the_front(Why::Shape));
    }
    assert_eq!(exported(&[], &[], 0), at_the_front(Why::Trailer));
    assert_eq!(imported(&struct_of(&[32]), &[], 0), at_the_front(Why::Record));
}

#[test]
fn up_to_1024_fields() {
    // A u8 in every field: the root's children, so many, are all node 0. Only the second form has room for more.
    let wide = |fields: u16| {
        let list = 2 * u32::from(fields);
        let mut file = vec![5, 0, 0, 0, 0, 0, 18, 0, 0, 0];
        file.extend(fields.to_le_bytes());
        file.extend(vec![0; list as usize]);
        file.extend([list, 12 + list].iter().flat_map(|word| word.to_le_bytes()));
        file.extend([2, 0, 1, 0, 0x57, 0x50]);
        file
    };
    let mut out = [7; 2_049];
    assert_eq!(csv_export(&wide(1_024), &[0; 1_024], &mut out), Ok(2_049));
    assert_eq!(out.split(|byte| *byte == b',').count(), 1_024);
    let mut back = [7; 1_024];
    assert_eq!(csv_import(&wide(1_024), &out, &mut back), Ok(1_024));
    assert_eq!(back, [0; 1_024]);
    assert_eq!(csv_export(&wide(1_025), &[0; 1_025], &mut out), Err(Refused { why: Why::Shape, place: 0 }));
}
