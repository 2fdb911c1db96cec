//! One request to both: the library's answer with all lent memory, and the oracle's.
use crate::area::Area;
use crate::batches;
use crate::feeding;
use crate::opening;
use crate::rows;
use crate::sending;
use oracle_driver::append::{appends, Which};
use oracle_driver::compare::{compare, Of};
use oracle_driver::proto::{number, unhex, words};
use oracle_driver::{find, read, strict, table, write, ReadAnswer, Refusal, WORDS};
use reystavem::{Message, Read, ReadRefused, Refused, Side};
use std::fmt::Debug;

/// What differs, in words.
pub struct Differs(pub String);

pub fn same<T: PartialEq + Debug>(what: &str, ours: T, right: T) -> Result<(), Differs> {
    if ours == right {
        return Ok(());
    }
    Err(Differs(format!("{what}: {ours:x?}, but it is {right:x?}")))
}

/// A refusal as document 01's number and place.
pub fn numbered(refused: Refused) -> (u8, usize) {
    (refused.why as u8, refused.place)
}

/// What lent memory holds before a call, hardly twice the same.
pub fn lent(length: usize) -> Vec<u64> {
    (0..length as u64).map(|i| !i.wrapping_mul(0x9e37_79b9_7f4a_7c15)).collect()
}

pub fn lent_bytes(length: usize) -> Vec<u8> {
    lent(length).iter().map(|w| *w as u8).collect()
}

/// The table's check: 1 and 2 are the table's own.
pub fn check(table: &[u8]) -> Result<(), Differs> {
    let ours = reystavem::check(table).err().map(numbered);
    let right = table::Table::parse(table).err().map(|Refusal { no, place }| (no, place));
    same("check", ours, right)
}

/// Into a store of so many words, by both readers.
pub fn read(table: &[u8], message: &[u8], words: usize) -> Result<(), Differs> {
    let right = read::read(table, message, words);
    reading(reystavem::read, &right, table, message, words)?;
    opening::reading(reystavem::read_open, &right, table, message, words)
}

/// The same, strictly; and whether the answer is 16.
pub fn read_strict(table: &[u8], message: &[u8], words: usize) -> (bool, Result<(), Differs>) {
    let right = strict::read(table, message, words);
    let outcome = reading(reystavem::read_strict, &right, table, message, words)
        .and_then(|()| opening::reading(reystavem::read_open_strict, &right, table, message, words));
    (right.no == 16, outcome)
}

type Reader = for<'m> fn(&[u8], &'m [u8], &mut [u64]) -> Result<Read<'m>, ReadRefused>;

fn reading(ours: Reader, right: &ReadAnswer, table: &[u8], message: &[u8], words: usize) -> Result<(), Differs> {
    let mut store = lent(words);
    let ours = ours(table, message, &mut store);
    read_right(ours, &store, right, message)
}

/// What a reader answers, and the store after it.
pub fn read_right(
    ours: Result<Read, ReadRefused>,
    store: &[u64],
    right: &ReadAnswer,
    message: &[u8],
) -> Result<(), Differs> {
    let (ours, count, rest) = match ours {
        Ok(read) => ((0, message.len() - read.rest.len()), read.count, read.rest),
        Err(refused) => (numbered(refused.refused), refused.count, &[][..]),
    };
    same("number and place", ours, (right.no, right.place))?;
    same("count", count, right.entries.len())?;
    same("rest", rest, right.rest)?;
    let mut after = lent(store.len());
    after[..WORDS * count].copy_from_slice(right.entries.as_flattened());
    same("store", store, &after)
}

pub fn write(table: &[u8], words: &[u64], pool: &[u8], out_len: usize) -> Result<(), Differs> {
    let right = write::write(table, words, pool, out_len);
    let mut after = lent_bytes(out_len);
    let mut out = after.clone();
    let ours = reystavem::write(table, words, pool, &mut out).map_err(numbered);
    same("answer", ours, right.as_ref().map(Vec::len).map_err(|refusal| (refusal.no, refusal.place)))?;
    if let Ok(bytes) = right {
        after[..bytes.len()].copy_from_slice(&bytes);
    }
    same("output", out, after)
}

/// With so many bytes of the area, in which the request decides what stands before the call.
fn append(old: &[u8], new: &[u8], length: usize, area: &mut Area) -> Result<(), Differs> {
    let right = appends(old, new, length);
    let seed = area.dirty(&[old, new], length);
    let outcome = if seed % 2 == 0 {
        let ours = reystavem::appends(old, new, area.lent(length));
        let right = right.map_err(|(Refusal { no, place }, which)| {
            let side = match which {
                Which::Old => Some(Side::Old),
                Which::New => Some(Side::New),
                Which::Neither => None,
            };
            (side, (no, place))
        });
        same("answer", ours.map_err(|(side, refused)| (side, numbered(refused))), right)
    } else {
        let right = match right {
            Ok(yes) => (0, [0, 0, yes.into()]),
            Err((Refusal { no, place }, which)) => (no.into(), [place as u64, (which == Which::New).into(), 0]),
        };
        same("number, place, which and yes in C", append_in_c(old, new, area.lent(length)), right)
    };
    outcome.and(area.settle(length))
}

/// The number, and the three that the header has besides. The bindings hide some of them.
fn append_in_c(old: &[u8], new: &[u8], area: &mut [u8]) -> (u64, [u64; 3]) {
    let mut told = [u64::MAX; 3];
    let [place, which, yes] = &mut told;
    let (old_len, new_len, area_len) = (old.len(), new.len(), area.len());
    // SAFETY: each slice is lent with its own length; the numbers are ours.
    let number = unsafe {
        reystavem_append(old.as_ptr(), old_len, new.as_ptr(), new_len, area.as_mut_ptr(), area_len, place, which, yes)
    };
    (number, told)
}

pub fn take(kind: u64, message: &[u8], place: usize) -> Result<(), Differs> {
    let ours = reystavem::take(kind, message, place).map_err(numbered);
    let right =
        read::take(u8::try_from(kind).unwrap_or(u8::MAX), message, place).map_err(|Refusal { no, place }| (no, place));
    same("answer", ours.map(|(entry, behind)| ([entry.first, entry.second, entry.place as u64], behind)), right)?;
    let (number, entry, behind) = match right {
        Ok((entry, behind)) => (0, entry, behind),
        Err((number, _)) => (number, [0; WORDS], place),
    };
    same("number, entry and place in C", take_in_c(kind, message, place), (number.into(), entry, behind as u64))
}

/// By a path; and what the request is counted as.
pub fn finding(table: &[u8], path: &[u64], message: &[u8]) -> (&'static str, Result<(), Differs>) {
    let right = find::find(table, path, message).map_err(|Refusal { no, place }| (no, place));
    let kind = match right {
        Ok(_) => "finding",
        Err((13, _)) => "finding no item",
        Err((14, _)) => "finding absent",
        Err(_) => "finding refused",
    };
    let ours = reystavem::find(table, path, message).map_err(numbered);
    let ours = ours.map(|entry| [entry.first, entry.second, entry.place as u64]);
    let in_c = match right {
        Ok([first, second, place]) => (0, [place, first, second]),
        Err((number, place)) => (number.into(), [place as u64, 0, 0]),
    };
    let outcome = same("answer", ours, right)
        .and_then(|()| same("number, place, first and second in C", find_in_c(table, path, message), in_c));
    (kind, outcome)
}

/// The number, and the three that the header has besides. The bindings hide what a refusal writes.
fn find_in_c(table: &[u8], path: &[u64], message: &[u8]) -> (u64, [u64; 3]) {
    let mut told = [u64::MAX; 3];
    let [place, first, second] = &mut told;
    let (table_len, path_len, message_len) = (table.len(), path.len(), message.len());
    let (path, message) = (path.as_ptr(), message.as_ptr());
    // SAFETY: each slice is lent with its own length; the numbers are ours.
    let number = unsafe {
        reystavem_find(table.as_ptr(), table_len, path, path_len, message, message_len, place, first, second)
    };
    (number, told)
}

/// With a list of so many words; and what the request is counted as.
pub fn comparing(table: &[u8], one: &[u8], other: &[u8], words: usize) -> (&'static str, Result<(), Differs>) {
    let right = compare(table, one, other, words);
    let kind = match &right {
        Ok(pairs) if pairs.is_empty() => "comparing the same",
        Ok(_) => "comparing",
        Err((Refusal { no: 15, .. }, _)) => "comparing with a short list",
        Err(_) => "comparing refused",
    };
    let before = lent(words);
    let mut after = before.clone();
    if let Ok(pairs) = &right {
        after[..2 * pairs.len()].copy_from_slice(pairs.as_flattened());
    }
    let right = right.map(|pairs| pairs.len()).map_err(|(Refusal { no, place }, of)| {
        let message = match of {
            Of::Neither => None,
            Of::One => Some(Message::One),
            Of::Other => Some(Message::Other),
        };
        (message, (no, place))
    });
    let in_c = match right {
        Ok(count) => (0, [0, 0, count as u64]),
        Err((message, (no, place))) => (no.into(), [place as u64, (message == Some(Message::Other)).into(), 0]),
    };
    let (mut list, mut list_in_c) = (before.clone(), before);
    let ours = reystavem::compare(table, one, other, &mut list);
    let ours = ours.map_err(|(message, refused)| (message, numbered(refused)));
    let outcome = same("answer", ours, right).and_then(|()| same("list", &list, &after)).and_then(|()| {
        let ours = compare_in_c(table, one, other, &mut list_in_c);
        same("number, place, which and count in C", ours, in_c)?;
        same("list in C", list_in_c, after)
    });
    (kind, outcome)
}

/// The number, and the three that the header has besides. The bindings hide some of them.
fn compare_in_c(table: &[u8], one: &[u8], other: &[u8], list: &mut [u64]) -> (u64, [u64; 3]) {
    let mut told = [u64::MAX; 3];
    let [place, which, count] = &mut told;
    let (table_len, one_len, other_len, words) = (table.len(), one.len(), other.len(), list.len());
    let (table, one, other, list) = (table.as_ptr(), one.as_ptr(), other.as_ptr(), list.as_mut_ptr());
    // SAFETY: each slice is lent with its own length; the numbers are ours.
    let number = unsafe {
        reystavem_compare(table, table_len, one, one_len, other, other_len, list, words, place, which, count)
    };
    (number, told)
}

extern "C" {
    fn reystavem_append(
        old_table: *const u8,
        old_len: usize,
        new_table: *const u8,
        new_len: usize,
        area: *mut u8,
        area_len: usize,
        place: *mut u64,
        which: *mut u64,
        yes: *mut u64,
    ) -> u64;
    fn reystavem_take(
        kind: u64,
        message: *const u8,
        message_len: usize,
        place: *mut u64,
        first: *mut u64,
        second: *mut u64,
        at: *mut u64,
    ) -> u64;
    fn reystavem_find(
        table: *const u8,
        table_len: usize,
        path: *const u64,
        path_len: usize,
        message: *const u8,
        message_len: usize,
        place: *mut u64,
        first: *mut u64,
        second: *mut u64,
    ) -> u64;
    fn reystavem_compare(
        table: *const u8,
        table_len: usize,
        one: *const u8,
        one_len: usize,
        other: *const u8,
        other_len: usize,
        list: *mut u64,
        list_words: usize,
        place: *mut u64,
        which: *mut u64,
        count: *mut u64,
    ) -> u64;
}

/// The number, the entry and the place as the header has them. The bindings hide what a refusal writes.
fn take_in_c(kind: u64, message: &[u8], place: usize) -> (u64, [u64; WORDS], u64) {
    let (mut behind, mut entry) = (place as u64, [u64::MAX; WORDS]);
    let [first, second, at] = &mut entry;
    // SAFETY: the slice is lent with its own length; the numbers are ours.
    let number = unsafe { reystavem_take(kind, message.as_ptr(), message.len(), &mut behind, first, second, at) };
    (number, entry, behind)
}

/// One request line: what it is counted as, and whether the answers are the same. A line that can't be parsed is a
/// difference.
pub fn judge(line: &str, area: &mut Area) -> (&'static str, Result<(), Differs>) {
    parsed(line, area).unwrap_or_else(|error| ("unknown", Err(Differs(error))))
}

fn parsed(line: &str, area: &mut Area) -> Result<(&'static str, Result<(), Differs>), String> {
    let fields: Vec<&str> = line.split_ascii_whitespace().collect();
    Ok(match fields[..] {
        ["R", table, message, words] => {
            let (table, message, words) = (unhex(table)?, unhex(message)?, number(words)? as usize);
            ("reading", check(&table).and_then(|()| read(&table, &message, words)))
        }
        ["S", table, message, words] => {
            let (refused, outcome) = read_strict(&unhex(table)?, &unhex(message)?, number(words)? as usize);
            (if refused { "strict reading not shortest" } else { "strict reading" }, outcome)
        }
        ["W", table, list, pool, out] => {
            ("writing", write(&unhex(table)?, &words(list)?, &unhex(pool)?, number(out)? as usize))
        }
        ["A", old, new, length] => {
            ("append question", append(&unhex(old)?, &unhex(new)?, number(length)? as usize, area))
        }
        ["F", idx, array, chunk] => {
            let array = unhex(array)?.try_into().map_err(|_| "the array isn't of the room's length")?;
            ("frames", feeding::both_ways(number(idx)?, &array, &unhex(chunk)?))
        }
        ["G", idx, waiting, array, chunk] => {
            let array = unhex(array)?.try_into().map_err(|_| "the array isn't of the room's length")?;
            feeding::by_default(number(idx)?, number(waiting)? != 0, &array, &unhex(chunk)?)
        }
        ["E", message, out] => sending::sending(&unhex(message)?, number(out)? as usize),
        ["T", kind, message, place] => ("taking", take(number(kind)?, &unhex(message)?, number(place)? as usize)),
        ["I", table, path, message] => finding(&unhex(table)?, &words(path)?, &unhex(message)?),
        ["C", table, one, other, words] => {
            comparing(&unhex(table)?, &unhex(one)?, &unhex(other)?, number(words)? as usize)
        }
        ["N", table, messages, store_field, product_field, out] => {
            let fields = [number(store_field)?, number(product_field)?];
            batches::writing(&unhex(table)?, &unhex(messages)?, fields, number(out)? as usize)
        }
        ["K", table, batch] => batches::checking(&unhex(table)?, &unhex(batch)?),
        ["L", table, batch, store, product] => {
            batches::last(&unhex(table)?, &unhex(batch)?, number(store)?, number(product)?)
        }
        ["P", table, batch, out] => batches::compacting(&unhex(table)?, &unhex(batch)?, number(out)? as usize),
        ["X", table, message, out] => rows::exporting(&unhex(table)?, &unhex(message)?, number(out)? as usize),
        ["M", table, row, out] => rows::importing(&unhex(table)?, &unhex(row)?, number(out)? as usize),
        _ => return Err("unknown request".into()),
    })
}
