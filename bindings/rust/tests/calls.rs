//! Document 01's cases and a refusal of each call, through the static library.
use reystavem::samples::TABLE_T;
use reystavem::*;

const MINUS_TWO: u64 = u64::MAX - 1;

fn leaf(kind: u8) -> Vec<u8> {
    vec![kind, 0, 0, 0, 0, 0, 0, 0, 6, 0, 1, 0, 0, 0, 0x53, 0x50]
}

/// A table of records (kind, a, b) and a child list, whose root is the last node.
fn table(records: &[[u8; 3]], children: &[u8]) -> Vec<u8> {
    let mut file: Vec<u8> = records.iter().flat_map(|[kind, a, b]| [*kind, 0, *a, 0, *b, 0]).collect();
    file.extend(children.iter().flat_map(|child| [*child, 0]));
    let (nodes, list) = (records.len() as u8, 2 * children.len() as u8);
    file.extend([list, 0, 6 * nodes + list, 0, nodes, 0, nodes - 1, 0, 0x53, 0x50]);
    file
}

fn four_fields(children: [u8; 8]) -> Vec<u8> {
    let mut table = TABLE_T[..18].to_vec();
    table.extend([0x12, 0, 0, 0, 4, 0]);
    table.extend(children);
    table.extend([8, 0, 32, 0, 4, 0, 3, 0, 0x53, 0x50]);
    table
}

#[test]
fn a_good_table_and_two_bad_ones() {
    assert_eq!(check(TABLE_T), Ok(()));
    assert_eq!(check(&[]), Err(Refused { why: Why::Trailer, place: 0 }));
    assert_eq!(check(&leaf(32)), Err(Refused { why: Why::Record, place: 0 }));
}

#[test]
fn a_message_its_rest_and_the_words_behind() {
    let mut store = [7; 14];
    let got = read(TABLE_T, &[0xac, 0x02, 0x05, 0x03, 0x07], &mut store).unwrap();
    assert_eq!(got, Read { count: 4, rest: &[0x07] });
    assert_eq!(store, [0, 0, 0, 300, 0, 0, 5, 0, 2, MINUS_TWO, 0, 3, 7, 7]);
    let count = Entry { first: MINUS_TWO, second: 0, place: 3 };
    assert_eq!(entries(&store).nth(3), Some(count));
    assert_eq!(entries(&store).count(), 4);
}

#[test]
fn a_third_of_the_words_are_entries() {
    for words in [0, 1, 2] {
        let mut store = [7; 2];
        let got = read(TABLE_T, &[0xac, 0x02, 0x05, 0x03], &mut store[..words]);
        let refused = Refused { why: Why::Room, place: 0 };
        assert_eq!(got, Err(ReadRefused { refused, count: 0 }));
        assert_eq!(store, [7; 2]);
    }
    let mut store = [7; 8];
    let got = read(TABLE_T, &[0xac, 0x02, 0x05, 0x03], &mut store);
    let refused = Refused { why: Why::Room, place: 2 };
    assert_eq!(got, Err(ReadRefused { refused, count: 2 }));
    assert_eq!(store, [0, 0, 0, 300, 0, 0, 7, 7]);
}

#[test]
fn a_message_that_ends_inside() {
    let mut store = [7; 14];
    let got = read(TABLE_T, &[0xac, 0x02, 0x05], &mut store);
    let refused = Refused { why: Why::End, place: 3 };
    assert_eq!(got, Err(ReadRefused { refused, count: 3 }));
    assert_eq!(store, [0, 0, 0, 300, 0, 0, 5, 0, 2, 7, 7, 7, 7, 7]);
}

#[test]
fn a_padded_message_is_refused_by_a_strict_reading_only() {
    // Store 300 in three bytes instead of two, and the product in two instead of one.
    let (store_padded, product_padded) = ([0xac, 0x82, 0x00, 0x05, 0x03], [0xac, 0x02, 0x85, 0x00, 0x03, 0x07]);
    for (message, place, count) in [(&store_padded[..], 0, 1), (&product_padded, 2, 2)] {
        let mut store = [7; 14];
        assert_eq!(read(TABLE_T, message, &mut store).unwrap().count, 4);
        let mut store = [7; 14];
        let refused = Refused { why: Why::NotShortest, place };
        assert_eq!(read_strict(TABLE_T, message, &mut store), Err(ReadRefused { refused, count }));
        assert_eq!(store[..WORDS * count], [0, 0, 0, 300, 0, 0][..WORDS * count]);
        assert_eq!(store[WORDS * count..], [7; 14][WORDS * count..]);
    }
    let mut store = [7; 14];
    let got = read_strict(TABLE_T, &[0xac, 0x02, 0x05, 0x03, 0x07], &mut store).unwrap();
    assert_eq!(got, Read { count: 4, rest: &[0x07] });
    assert_eq!(store, [0, 0, 0, 300, 0, 0, 5, 0, 2, MINUS_TWO, 0, 3, 7, 7]);
}

#[test]
fn a_char_has_its_own_length_and_other_refusals_come_first() {
    let strictly = |kind: u8, message: &[u8], words: usize| {
        let mut store = [7; 3];
        match read_strict(&leaf(kind), message, &mut store[..words]) {
            Ok(read) => Ok(read.rest.len()),
            Err(refused) => Err(refused.refused.why),
        }
    };
    assert_eq!(strictly(11, &[0x01, 0x61], 3), Ok(0));
    assert_eq!(strictly(11, &[0x02, 0x61, 0x62], 3), Err(Why::NotShortest));
    assert_eq!(strictly(6, &[0x00], 3), Ok(0));
    assert_eq!(strictly(6, &[0x80, 0x00], 3), Err(Why::NotShortest));
    assert_eq!(strictly(6, &[0x80, 0x00], 2), Err(Why::Room));
    assert_eq!(strictly(12, &[0x81, 0x00, 0x61], 3), Err(Why::NotShortest));
    assert_eq!(strictly(12, &[0x81, 0x00], 3), Err(Why::End));
    assert_eq!(strictly(12, &[0x81, 0x00, 0xff], 3), Err(Why::Utf8));
}

#[test]
fn the_shortest_form_is_written() {
    let mut out = [7; 4];
    let words = [u64::MAX - 32767, 0, 0];
    assert_eq!(write(&leaf(2), &words, &[], &mut out), Ok(3));
    assert_eq!(out, [0xff, 0xff, 0x03, 7]);
    let full = Refused { why: Why::Full, place: 0 };
    assert_eq!(write(&leaf(2), &words, &[], &mut out[..2]), Err(full));
}

#[test]
fn any_place_is_written_and_words_left_over_are_not() {
    let mut out = [7; 2];
    assert_eq!(write(&leaf(5), &[9, 0, u64::MAX], &[], &mut out), Ok(1));
    assert_eq!(out, [9, 7]);
    for words in [1, 2, 4, 5] {
        let left_over = Refused { why: Why::Values, place: words / WORDS };
        assert_eq!(write(&leaf(5), &[9, 0, 0, 0, 0][..words], &[], &mut out), Err(left_over));
    }
}

#[test]
fn what_was_written_is_read_back() {
    let words = [0, 0, 0, 300, 0, 0, 5, 0, 2, MINUS_TWO, 0, 3];
    let mut out = [0; 16];
    let len = write(TABLE_T, &words, &[], &mut out).unwrap();
    let mut store = [0; 12];
    assert_eq!(read(TABLE_T, &out[..len], &mut store).unwrap().rest, []);
    assert_eq!(store, words);
}

#[test]
fn a_field_in_front_is_no_and_at_the_end_yes() {
    let in_front = four_fields([0, 0, 0, 0, 1, 0, 2, 0]);
    let at_end = four_fields([0, 0, 1, 0, 2, 0, 0, 0]);
    let record = Refused { why: Why::Record, place: 0 };
    for (old, new, answer) in [
        (TABLE_T, &in_front[..], Ok(false)),
        (TABLE_T, &at_end, Ok(true)),
        (TABLE_T, &leaf(32), Err((Some(Side::New), record))),
        (&leaf(32), &[], Err((Some(Side::Old), record))),
    ] {
        // Whatever the area holds, and all zero afterwards, but for what is beyond.
        let mut area = vec![0xff; AREA + 3];
        assert_eq!(appends(old, new, &mut area), answer);
        assert!(area[..AREA].iter().all(|byte| *byte == 0));
        assert_eq!(area[AREA..], [0xff; 3]);
    }
}

#[test]
fn a_short_area_is_refused_before_the_tables() {
    let mut area = vec![7; AREA - 1];
    let short = Refused { why: Why::Area, place: 0 };
    for table in [TABLE_T, &[]] {
        assert_eq!(appends(table, &[], &mut area), Err((None, short)));
        assert_eq!(appends(table, table, &mut []), Err((None, short)));
    }
    assert!(area.iter().all(|byte| *byte == 7));
}

#[test]
fn a_table_of_the_second_form_stands_beside_one_of_the_first() {
    let second = [&TABLE_T[..30], &[6, 0, 0, 0, 30, 0, 0, 0, 4, 0, 3, 0, 0x57, 0x50]].concat();
    assert_eq!(check(&second), Ok(()));
    let mut store = [0; 12];
    assert_eq!(read(&second, &[0xac, 0x02, 0x05, 0x03], &mut store).unwrap().count, 4);
    let mut area = vec![0; AREA];
    for (old, new) in [(TABLE_T, &second[..]), (&second, TABLE_T), (&second, &second)] {
        assert_eq!(appends(old, new, &mut area), Ok(true));
    }
    // The other form's mark.
    let mut marked = second.clone();
    marked[42] = 0x53;
    assert_eq!(check(&marked), Err(Refused { why: Why::Trailer, place: 0 }));
}

#[test]
fn frames_in_chunks() {
    let mut accumulator = Accumulator::new();
    assert_eq!(accumulator.feed(&[0x03, 0x11]), (Fed::Consumed, &[][..]));
    let (fed, rest) = accumulator.feed(&[0x22, 0x02, 0x33, 0x00, 0x05]);
    let Fed::Frame { message, len } = fed else { panic!("{fed:?}") };
    assert_eq!(message[..len], [0x11, 0x22, 0x00, 0x33]);
    assert_eq!(message[len..], [0; ROOM - 4]);
    assert_eq!(rest, [0x05]);
    assert_eq!(accumulator.idx, 0);
    let mut made_up = Accumulator { array: [9; ROOM], idx: 2_049, waiting: false };
    assert_eq!(made_up.feed(&[0]), (Fed::BadState, &[0][..]));
}

/// Behind an over-full chunk without a zero all is dropped up to the next zero; the bridge's feed goes on at once.
#[test]
fn over_full_frames() {
    let nearly = Accumulator { array: [9; ROOM], idx: 2_042, waiting: false };
    let chunk = [1, 2, 3, 4, 5, 6, 7, 8, 9, 10];
    let mut state = nearly;
    assert_eq!(state.feed(&chunk), (Fed::OverFull, &[][..]));
    assert_eq!(state, Accumulator { array: [9; ROOM], idx: 0, waiting: true });
    assert_eq!(state.feed(&[3, 5]), (Fed::Consumed, &[][..]));
    assert_eq!(state, Accumulator { array: [9; ROOM], idx: 0, waiting: true });
    let (fed, rest) = state.feed(&[7, 0, 2, 8, 0, 4]);
    let Fed::Frame { message, len } = fed else { panic!("{fed:?}") };
    assert_eq!((&message[..len], rest, state.waiting), (&[8][..], &[4][..], false));
    let mut bridge = nearly;
    assert_eq!(bridge.feed_bridge(&chunk), (Fed::OverFull, &[7, 8, 9, 10][..]));
    assert_eq!(bridge, Accumulator { array: [9; ROOM], idx: 0, waiting: false });
}

/// A group of code FF is never followed by a zero, and any other but the last is.
#[test]
fn long_frames() {
    let full = [&[0xFF][..], &[7; 254]].concat();
    let nearly = [&[0xFE][..], &[7; 253]].concat();
    for (groups, right) in [
        (vec![&full[..]], vec![7; 254]),
        (vec![&full[..], &[1]], vec![7; 254]),
        (vec![&full[..], &[1, 1]], [vec![7; 254], vec![0]].concat()),
        (vec![&full[..], &[2, 8]], [vec![7; 254], vec![8]].concat()),
        (vec![&full[..], &full], vec![7; 508]),
        (vec![&full[..], &full, &[2, 8, 1]], [vec![7; 508], vec![8, 0]].concat()),
        (vec![&nearly[..], &[2, 8]], [vec![7; 253], vec![0, 8]].concat()),
    ] {
        let frame = [groups.concat(), vec![0]].concat();
        for cut in [0, 1, 200, 255, frame.len() - 1] {
            let mut accumulator = Accumulator::new();
            assert_eq!(accumulator.feed(&frame[..cut]), (Fed::Consumed, &[][..]));
            let (Fed::Frame { message, len }, []) = accumulator.feed(&frame[cut..]) else { panic!("{frame:x?}") };
            assert_eq!(message[..len], right);
            let (mut lent, mut memory) = (Accumulator::new(), [9; ROOM]);
            assert_eq!(lent.feed_lent(&frame[..cut], &mut memory), (Step::Consumed, &[][..]));
            assert_eq!(memory, [0; ROOM]);
            assert_eq!(lent.feed_lent(&frame[cut..], &mut memory), (Step::Frame { len }, &[][..]));
            assert_eq!((memory, lent), (message, accumulator));
        }
    }
}

/// What is sent comes back, however it is cut; and an output that is a byte too short is left as it was.
#[test]
fn sent_frames() {
    let full = [7; 254];
    for (message, right) in [
        (vec![], vec![1, 0]),
        (vec![0], vec![1, 1, 0]),
        (vec![8, 0], vec![2, 8, 1, 0]),
        (full.to_vec(), [&[0xFF], &full[..], &[0]].concat()),
        ([&full[..], &[0]].concat(), [&[0xFF], &full[..], &[1, 1, 0]].concat()),
        ([&full[..], &[8]].concat(), [&[0xFF], &full[..], &[2, 8, 0]].concat()),
    ] {
        let mut out = vec![9; right.len() + 1];
        assert_eq!(frame(&message, &mut out), Ok(right.len()));
        assert_eq!(out, [&right[..], &[9]].concat());
        let mut short = vec![9; right.len() - 1];
        assert_eq!(frame(&message, &mut short), Err(Refused { why: Why::Full, place: 0 }));
        assert_eq!(short, vec![9; right.len() - 1]);
        for cut in 0..right.len() {
            let mut accumulator = Accumulator::new();
            assert_eq!(accumulator.feed(&right[..cut]), (Fed::Consumed, &[][..]));
            let (Fed::Frame { message: got, len }, [9]) = accumulator.feed(&out[cut..]) else { panic!("{right:x?}") };
            assert_eq!(got[..len], message);
        }
    }
}

#[test]
fn single_items() {
    let mut items = Deserializer::new(&[0x05, 0x02, 0x61, 0x62, 0x80]);
    assert_eq!(items.take(5), Ok(Entry { first: 5, second: 0, place: 0 }));
    assert_eq!(items.take(12), Ok(Entry { first: 2, second: 2, place: 1 }));
    assert_eq!(items.take(14), Err(Refused { why: Why::Record, place: 0 }));
    assert_eq!(items.take(6), Err(Refused { why: Why::End, place: 4 }));
    assert_eq!(items.rest(), [0x80]);
}

#[test]
fn one_field_without_the_others() {
    let message = [0xac, 0x02, 0x05, 0x03, 0x07];
    let fields = [(300, 0), (5, 2), (MINUS_TWO, 3)];
    for (field, (first, place)) in fields.into_iter().enumerate() {
        let found = Entry { first, second: 0, place };
        assert_eq!(find(TABLE_T, &[field as u64], &message), Ok(found));
        // What follows the field isn't looked at, and what is in front of it must be there.
        let behind = [2, 3, 4][field];
        assert_eq!(find(TABLE_T, &[field as u64], &message[..behind]), Ok(found));
        let ends = Refused { why: Why::End, place };
        assert_eq!(find(TABLE_T, &[field as u64], &message[..behind - 1]), Err(ends));
    }
    assert_eq!(find(&leaf(12), &[], &[0x02, 0x61, 0x62]), Ok(Entry { first: 1, second: 2, place: 0 }));
}

#[test]
fn a_path_that_leads_to_no_item_is_refused_before_the_message() {
    let no_item = Refused { why: Why::Path, place: 0 };
    for path in [&[][..], &[3], &[0, 0], &[u64::MAX], &[1 << 32]] {
        for message in [&[0xac, 0x02, 0x05, 0x03][..], &[]] {
            assert_eq!(find(TABLE_T, path, message), Err(no_item));
        }
    }
    // A unit, and what is inside a sequence; but a bad table comes first.
    assert_eq!(find(&leaf(14), &[], &[]), Err(no_item));
    assert_eq!(find(&table(&[[5, 0, 0], [16, 0, 0]], &[]), &[0], &[1, 7]), Err(no_item));
    assert_eq!(find(&[], &[3], &[]), Err(Refused { why: Why::Trailer, place: 0 }));
    assert_eq!(find(&leaf(32), &[3], &[]), Err(Refused { why: Why::Record, place: 0 }));
}

#[test]
fn options_on_the_path_and_beside_it() {
    // A u8 that may be absent, and a struct that may be, with such a u8 inside.
    let shelf = table(&[[5, 0, 0], [15, 0, 0], [18, 0, 1], [15, 2, 0], [18, 1, 2]], &[1, 1, 3]);
    let (beside, inner) = ([0, 0], [1, 0, 0, 0]);
    let found = |first, place| Ok(Entry { first, second: 0, place });
    let absent = |place| Err(Refused { why: Why::Absent, place });
    assert_eq!(find(&shelf, &inner, &[1, 7, 1, 1, 9]), found(9, 4));
    assert_eq!(find(&shelf, &inner, &[0, 1, 1, 9]), found(9, 3));
    assert_eq!(find(&shelf, &inner, &[0, 1, 0]), absent(2));
    assert_eq!(find(&shelf, &inner, &[1, 7, 0, 0xff]), absent(2));
    assert_eq!(find(&shelf, &beside, &[0, 0xff]), absent(0));
    assert_eq!(find(&shelf, &inner, &[0, 2]), Err(Refused { why: Why::Option, place: 1 }));
    assert_eq!(find(&shelf, &[1, 0, 0, 1], &[0, 1, 1, 9]), Err(Refused { why: Why::Path, place: 0 }));
}

#[test]
fn an_item_is_found_among_the_first_16384() {
    // A sequence of units in front of a u8: the item is the entry behind the struct's, the sequence's and theirs.
    let crowd = table(&[[14, 0, 0], [16, 0, 0], [5, 0, 0], [18, 0, 2]], &[1, 2]);
    let (fits, too_many) = ([0xfd, 0x7f, 9], [0xfe, 0x7f, 9]);
    assert_eq!(find(&crowd, &[1], &fits), Ok(Entry { first: 9, second: 0, place: 2 }));
    assert_eq!(find(&crowd, &[1], &too_many), Err(Refused { why: Why::Room, place: 2 }));
}

/// How many differ, and the list as it was left.
fn compared<const N: usize>(
    table: &[u8],
    one: &[u8],
    other: &[u8],
) -> (Result<usize, (Option<Message>, Refused)>, [u64; N]) {
    let mut list = [7; N];
    (compare(table, one, other, &mut list), list)
}

#[test]
fn the_places_of_what_differs() {
    let count = [0xac, 0x02, 0x05, 0x03];
    assert_eq!(compared(TABLE_T, &count, &count), (Ok(0), [7; 4]));
    assert_eq!(compared(TABLE_T, &count, &[0xac, 0x02, 0x05, 0x05]), (Ok(1), [3, 3, 7, 7, 7]));
    assert_eq!(compared(TABLE_T, &count, &[0x07, 0x05, 0x04]), (Ok(2), [0, 0, 3, 2]));
    // A longer spelling of the product, and a rest.
    assert_eq!(compared(TABLE_T, &count, &[0xac, 0x02, 0x85, 0x00, 0x03, 0x09]), (Ok(0), []));
    let (answer, list) = compared::<6>(TABLE_T, &[1, 2, 3], &[4, 2, 5]);
    assert_eq!(differences(&list).take(answer.unwrap()).collect::<Vec<_>>(), [(0, 0), (2, 2)]);
}

#[test]
fn values_are_compared_and_not_bytes() {
    // Texts by content, wherever they stand; floats by bits; a char's own value.
    let text = table(&[[6, 0, 0], [12, 0, 0], [18, 0, 2]], &[0, 1]);
    assert_eq!(compared(&text, &[7, 1, 0x61], &[0x87, 0, 0x81, 0, 0x61]), (Ok(0), []));
    assert_eq!(compared(&text, &[7, 1, 0x61], &[0x87, 0, 1, 0x62]), (Ok(1), [1, 2]));
    let nan = 0x7fc0_0001_u32.to_le_bytes();
    assert_eq!(compared(&leaf(9), &nan, &nan), (Ok(0), []));
    assert_eq!(compared(&leaf(9), &nan, &0x7fc0_0000_u32.to_le_bytes()), (Ok(1), [0, 0]));
    assert_eq!(compared(&leaf(9), &[0, 0, 0, 0], &[0, 0, 0, 0x80]), (Ok(1), [0, 0]));
    assert_eq!(compared(&leaf(11), &[0x01, 0x61], &[0x02, 0x61, 0x62]), (Ok(0), []));
}

#[test]
fn a_number_of_elements_differs_and_not_their_insides() {
    // Elements, and a number behind them, which is compared again.
    let shelf = table(&[[5, 0, 0], [16, 0, 0], [18, 0, 2]], &[1, 0]);
    assert_eq!(compared(&shelf, &[2, 4, 5, 9], &[1, 6, 9]), (Ok(1), [0, 0, 7]));
    assert_eq!(compared(&shelf, &[2, 4, 5, 9], &[1, 6, 8]), (Ok(2), [0, 0, 3, 2]));
    assert_eq!(compared(&shelf, &[2, 4, 5, 9], &[2, 4, 6, 9]), (Ok(1), [2, 2]));
}

#[test]
fn a_refusal_names_its_message_and_leaves_the_list() {
    let (count, cut) = ([0xac, 0x02, 0x05, 0x03], [0xac, 0x02, 0x05]);
    let ends = Refused { why: Why::End, place: 3 };
    assert_eq!(compared(TABLE_T, &cut, &[]), (Err((Some(Message::One), ends)), [7; 4]));
    assert_eq!(compared(TABLE_T, &count, &cut), (Err((Some(Message::Other), ends)), [7; 4]));
    let record = Refused { why: Why::Record, place: 0 };
    assert_eq!(compared(&leaf(32), &[], &[]), (Err((None, record)), [7; 4]));
    // Three differences want six words.
    let short = Refused { why: Why::List, place: 0 };
    assert_eq!(compared(TABLE_T, &[1, 2, 3], &[4, 5, 6]), (Err((None, short)), [7; 5]));
    assert_eq!(compared(TABLE_T, &[1, 2, 3], &[4, 5, 6]), (Ok(3), [0, 0, 1, 1, 2, 2]));
}
