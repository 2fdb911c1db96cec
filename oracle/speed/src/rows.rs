//! CSV rows in plain Rust, by the rules that ours keeps: the same refusals at the same places, one spelling only, and
//! an output that is unchanged unless all is well. The table is taken to be good; of it only the kinds are looked up.
use oracle_driver::table::{BOOL, BYTES, CHAR, F32, F64, I16, I32, I64, I8, STR, U16, U32, U64, U8};
use std::io::Write;
use std::str::{from_utf8, Utf8Error};

/// A refusal's number and place.
pub type Refused = (u8, usize);

/// The kinds of the root's fields, of a table of the first form.
fn kinds(table: &[u8]) -> impl ExactSizeIterator<Item = u8> + Clone + '_ {
    let word = |at: usize| usize::from(u16::from_le_bytes([table[at], table[at + 1]]));
    let body = table.len() - 10;
    let (children, records) = (body - word(body), body - word(body + 2));
    let root = records + 6 * word(body + 6);
    let (from, count) = (word(root + 2), word(root + 4));
    let children = table[children + 2 * from..][..2 * count].chunks_exact(2);
    children.map(move |child| table[records + 6 * usize::from(u16::from_le_bytes([child[0], child[1]]))])
}

/// Where a row or a message goes.
trait Out {
    fn put(&mut self, bytes: &[u8]);
    /// A number in decimal.
    fn digits(&mut self, x: u64);
    /// Bytes in hex.
    fn hex(&mut self, bytes: &[u8]);
}

/// Nowhere, it is only counted.
struct Len(usize);

impl Out for Len {
    #[inline]
    fn put(&mut self, bytes: &[u8]) {
        self.0 += bytes.len();
    }
    #[inline]
    fn digits(&mut self, x: u64) {
        self.0 += len_of(x);
    }
    #[inline]
    fn hex(&mut self, bytes: &[u8]) {
        self.0 += 2 * bytes.len();
    }
}

/// Into memory that has the room, of which so much is filled.
struct Front<'o>(&'o mut [u8], usize);

impl Front<'_> {
    #[inline]
    fn next(&mut self, len: usize) -> &mut [u8] {
        let at = self.1;
        self.1 += len;
        &mut self.0[at..at + len]
    }
}

impl Out for Front<'_> {
    #[inline]
    fn put(&mut self, bytes: &[u8]) {
        self.next(bytes.len()).copy_from_slice(bytes);
    }
    #[inline]
    fn digits(&mut self, mut x: u64) {
        let digits = self.next(len_of(x));
        let mut pairs = digits.rchunks_exact_mut(2);
        for pair in &mut pairs {
            pair.copy_from_slice(&PAIRS[(x % 100) as usize]);
            x /= 100;
        }
        if let [digit] = pairs.into_remainder() {
            *digit = b'0' + x as u8;
        }
    }
    #[inline]
    fn hex(&mut self, bytes: &[u8]) {
        for (pair, &byte) in self.next(2 * bytes.len()).chunks_exact_mut(2).zip(bytes) {
            pair.copy_from_slice(&[HEX[usize::from(byte >> 4)], HEX[usize::from(byte & 15)]]);
        }
    }
}

/// By Rust's own formatting.
struct Formatted(Vec<u8>);

impl Out for Formatted {
    #[inline]
    fn put(&mut self, bytes: &[u8]) {
        self.0.extend_from_slice(bytes);
    }
    #[inline]
    fn digits(&mut self, x: u64) {
        write!(self.0, "{x}").expect("memory");
    }
    #[inline]
    fn hex(&mut self, bytes: &[u8]) {
        for byte in bytes {
            write!(self.0, "{byte:02x}").expect("memory");
        }
    }
}

const HEX: &[u8; 16] = b"0123456789abcdef";

/// 00 to 99.
const PAIRS: [[u8; 2]; 100] = {
    let (mut pairs, mut i) = ([[0; 2]; 100], 0);
    while i < 100 {
        pairs[i] = [b'0' + (i / 10) as u8, b'0' + (i % 10) as u8];
        i += 1;
    }
    pairs
};

#[inline]
fn len_of(x: u64) -> usize {
    x.checked_ilog10().unwrap_or(0) as usize + 1
}

// ---- export

/// A varint of at most so many bytes whose last is at most so large; and how many bytes it has.
#[inline]
fn varint<const MOST: usize, const LAST: u8>(bytes: &[u8]) -> Result<(u64, usize), u8> {
    let mut value = 0;
    for i in 0..MOST {
        let &byte = bytes.get(i).ok_or(3)?;
        value |= u64::from(byte & 0x7f) << (7 * i);
        if byte < 0x80 {
            return if i + 1 < MOST || byte <= LAST { Ok((value, i + 1)) } else { Err(4) };
        }
    }
    Err(4)
}

#[inline]
fn unsigned((x, used): (u64, usize), out: &mut impl Out) -> usize {
    out.digits(x);
    used
}

#[inline]
fn signed((x, used): (i64, usize), out: &mut impl Out) -> usize {
    if x < 0 {
        out.put(b"-");
    }
    out.digits(x.unsigned_abs());
    used
}

#[inline]
fn zigzag((z, used): (u64, usize)) -> (i64, usize) {
    ((z >> 1) as i64 ^ -((z & 1) as i64), used)
}

#[inline]
fn first<const N: usize>(bytes: &[u8]) -> Result<[u8; N], u8> {
    bytes.first_chunk().copied().ok_or(3)
}

/// What a count is in front of; and how many bytes there are with the count.
#[inline]
fn counted(bytes: &[u8]) -> Result<(&[u8], usize), u8> {
    let (len, used) = varint::<10, 1>(bytes)?;
    let part = bytes[used..].get(..len as usize).ok_or(3)?;
    Ok((part, used + part.len()))
}

/// With quotes doubled, if there are any.
#[inline]
fn quoted(text: &str, out: &mut impl Out) {
    out.put(b"\"");
    if text.as_bytes().contains(&b'"') {
        for part in text.split_inclusive('"') {
            out.put(part.as_bytes());
            if part.ends_with('"') {
                out.put(b"\"");
            }
        }
    } else {
        out.put(text.as_bytes());
    }
    out.put(b"\"");
}

fn export_char(bytes: &[u8], out: &mut impl Out) -> Result<usize, u8> {
    let (len, used) = varint::<10, 1>(bytes)?;
    if len > 4 {
        return Err(6);
    }
    let part = bytes[used..].get(..len as usize).ok_or(3)?;
    let char = from_utf8(part).ok().and_then(|text| text.chars().next()).ok_or(6)?;
    quoted(char.encode_utf8(&mut [0; 4]), out);
    Ok(used + part.len())
}

/// The field that stands first in the bytes: how many it has there, or the number of its refusal.
#[inline]
fn export_field(kind: u8, bytes: &[u8], out: &mut impl Out) -> Result<usize, u8> {
    Ok(match kind {
        BOOL => match first(bytes)? {
            [bit @ (0 | 1)] => unsigned((bit.into(), 1), out),
            _ => return Err(5),
        },
        I8 => signed((i8::from_le_bytes(first(bytes)?).into(), 1), out),
        U8 => unsigned((u8::from_le_bytes(first(bytes)?).into(), 1), out),
        I16 => signed(zigzag(varint::<3, 3>(bytes)?), out),
        I32 => signed(zigzag(varint::<5, 15>(bytes)?), out),
        I64 => signed(zigzag(varint::<10, 1>(bytes)?), out),
        U16 => unsigned(varint::<3, 3>(bytes)?, out),
        U32 => unsigned(varint::<5, 15>(bytes)?, out),
        U64 => unsigned(varint::<10, 1>(bytes)?, out),
        CHAR => export_char(bytes, out)?,
        STR => {
            let (text, used) = counted(bytes)?;
            quoted(from_utf8(text).map_err(|_| 7)?, out);
            used
        }
        BYTES => {
            let (part, used) = counted(bytes)?;
            out.put(b"\"");
            out.hex(part);
            out.put(b"\"");
            used
        }
        _ => return export_fixed(kind, bytes, out),
    })
}

fn export_fixed(kind: u8, bytes: &[u8], out: &mut impl Out) -> Result<usize, u8> {
    Ok(match kind {
        20 => signed((i16::from_le_bytes(first(bytes)?).into(), 2), out),
        21 => signed((i32::from_le_bytes(first(bytes)?).into(), 4), out),
        22 => signed((i64::from_le_bytes(first(bytes)?), 8), out),
        23 => unsigned((u16::from_le_bytes(first(bytes)?).into(), 2), out),
        24 | F32 => unsigned((u32::from_le_bytes(first(bytes)?).into(), 4), out),
        25 | F64 => unsigned((u64::from_le_bytes(first(bytes)?), 8), out),
        26 => signed((i16::from_be_bytes(first(bytes)?).into(), 2), out),
        27 => signed((i32::from_be_bytes(first(bytes)?).into(), 4), out),
        28 => signed((i64::from_be_bytes(first(bytes)?), 8), out),
        29 => unsigned((u16::from_be_bytes(first(bytes)?).into(), 2), out),
        30 => unsigned((u32::from_be_bytes(first(bytes)?).into(), 4), out),
        _ => unsigned((u64::from_be_bytes(first(bytes)?), 8), out),
    })
}

fn export_row(table: &[u8], message: &[u8], out: &mut impl Out) -> Result<(), Refused> {
    let mut at = 0;
    for (i, kind) in kinds(table).enumerate() {
        if i > 0 {
            out.put(b",");
        }
        at += export_field(kind, &message[at..], out).map_err(|no| (no, at))?;
    }
    out.put(b"\r\n");
    Ok(())
}

const FULL: Refused = (12, 0);

/// Measured first, and then written in its place.
pub fn export_measured(table: &[u8], message: &[u8], out: &mut [u8]) -> Result<usize, Refused> {
    let mut len = Len(0);
    export_row(table, message, &mut len)?;
    let out = out.get_mut(..len.0).ok_or(FULL)?;
    export_row(table, message, &mut Front(out, 0))?;
    Ok(len.0)
}

/// Written elsewhere, where there is room for any row of so long a message, and copied.
pub fn export_copied(table: &[u8], message: &[u8], out: &mut [u8]) -> Result<usize, Refused> {
    let mut room = vec![0; 24 * kinds(table).len() + 2 * message.len() + 2];
    let mut front = Front(&mut room, 0);
    export_row(table, message, &mut front)?;
    let len = front.1;
    out.get_mut(..len).ok_or(FULL)?.copy_from_slice(&room[..len]);
    Ok(len)
}

/// The same by Rust's own formatting.
pub fn export_formatted(table: &[u8], message: &[u8], out: &mut [u8]) -> Result<usize, Refused> {
    let mut row = Formatted(Vec::with_capacity(24 * kinds(table).len() + 2 * message.len() + 2));
    export_row(table, message, &mut row)?;
    out.get_mut(..row.0.len()).ok_or(FULL)?.copy_from_slice(&row.0);
    Ok(row.0.len())
}

// ---- import

#[inline]
fn put_varint(mut x: u64, out: &mut impl Out) {
    let (mut bytes, mut len) = ([0; 10], 0);
    while x >= 0x80 {
        bytes[len] = x as u8 | 0x80;
        len += 1;
        x >>= 7;
    }
    bytes[len] = x as u8;
    out.put(&bytes[..=len]);
}

#[inline]
fn put_zigzag(x: i64, out: &mut impl Out) {
    put_varint(((x << 1) ^ (x >> 63)) as u64, out);
}

/// A byte that must stand there: the place behind it, or where the row stops.
#[inline]
fn expect(row: &[u8], at: usize, byte: u8) -> Result<usize, usize> {
    if row.get(at) == Some(&byte) {
        Ok(at + 1)
    } else {
        Err(at)
    }
}

/// A number of so many digits, by Rust's own parsing; none if it has a zero in front or is too large.
#[inline]
fn parsed(row: &[u8], start: usize, most: u64) -> Option<(u64, usize)> {
    let left = row.get(start..)?;
    let len = left.iter().position(|byte| !byte.is_ascii_digit()).unwrap_or(left.len());
    let x = from_utf8(&left[..len]).ok()?.parse().ok().filter(|&x| x <= most)?;
    (len == 1 || left[0] != b'0').then_some((x, start + len))
}

/// A number up to so large, without a zero in front; and the place behind it.
#[inline]
fn number<const PARSE: bool>(row: &[u8], start: usize, most: u64) -> Result<(u64, usize), usize> {
    if let Some(found) = PARSE.then(|| parsed(row, start, most)).flatten() {
        return Ok(found);
    }
    let (mut x, mut at) = (0, start);
    while let Some(digit) = row.get(at).map(|byte| byte.wrapping_sub(b'0')).filter(|&digit| digit < 10) {
        let digit = u64::from(digit);
        if at > start && x == 0 || x > most / 10 || x == most / 10 && digit > most % 10 {
            return Err(at);
        }
        x = 10 * x + digit;
        at += 1;
    }
    if at == start {
        return Err(at);
    }
    Ok((x, at))
}

/// The same from one less than minus so much on; there is no -0.
#[inline]
fn integer<const PARSE: bool>(row: &[u8], start: usize, most: i64) -> Result<(i64, usize), usize> {
    if row.get(start) != Some(&b'-') {
        return number::<PARSE>(row, start, most as u64).map(|(x, at)| (x as i64, at));
    }
    if row.get(start + 1) == Some(&b'0') {
        return Err(start + 1);
    }
    number::<PARSE>(row, start + 1, most as u64 + 1).map(|(x, at)| ((x as i64).wrapping_neg(), at))
}

/// Where bytes between quotes stop being a text.
#[cold]
fn broken(text: &[u8], error: Utf8Error) -> usize {
    let from = error.valid_up_to();
    match error.error_len() {
        None => text.len(),
        // Of a char that was begun the byte behind is wrong, and one that begins none is wrong itself.
        Some(len) if (0xc2..=0xf4).contains(&text[from]) => from + len,
        Some(_) => from,
    }
}

/// What stands between quotes, with its quotes doubled, and how many of these pairs there are; or where it stops, at the
/// row's end, or before that if it isn't a text.
#[inline]
fn between(row: &[u8], at: usize) -> Result<(&[u8], usize), usize> {
    let start = expect(row, at, b'"')?;
    let (mut end, mut pairs) = (start, 0);
    loop {
        let Some(quote) = row[end..].iter().position(|&byte| byte == b'"') else {
            let text = &row[start..];
            return Err(start + from_utf8(text).err().map_or(text.len(), |error| broken(text, error)));
        };
        end += quote;
        if row.get(end + 1) != Some(&b'"') {
            break;
        }
        (end, pairs) = (end + 2, pairs + 1);
    }
    let text = &row[start..end];
    from_utf8(text).map_err(|error| start + broken(text, error))?;
    Ok((text, pairs))
}

#[inline]
fn import_text(row: &[u8], at: usize, out: &mut impl Out) -> Result<usize, usize> {
    let (mut text, pairs) = between(row, at)?;
    let behind = at + text.len() + 2;
    put_varint((text.len() - pairs) as u64, out);
    for _ in 0..pairs {
        let quote = text.iter().position(|&byte| byte == b'"').unwrap_or(0);
        out.put(&text[..=quote]);
        text = &text[quote + 2..];
    }
    out.put(text);
    Ok(behind)
}

fn import_char(row: &[u8], at: usize, out: &mut impl Out) -> Result<usize, usize> {
    let start = expect(row, at, b'"')?;
    let left = &row[start..row.len().min(start + 4)];
    let (text, error) = match from_utf8(left) {
        Ok(text) => (text, left.len()),
        Err(error) => (from_utf8(&left[..error.valid_up_to()]).unwrap_or(""), broken(left, error)),
    };
    let len = text.chars().next().ok_or(start + error)?.len_utf8();
    put_varint(len as u64, out);
    out.put(&left[..len]);
    let behind = if left[0] == b'"' { expect(row, start + 1, b'"')? } else { start + len };
    expect(row, behind, b'"')
}

/// The number of each hex digit; 16 for what is none.
const HALVES: [u8; 256] = {
    let (mut halves, mut i) = ([16; 256], 0);
    while i < 16 {
        halves[HEX[i] as usize] = i as u8;
        i += 1;
    }
    halves
};

#[inline]
fn import_bytes(row: &[u8], at: usize, out: &mut impl Out) -> Result<usize, usize> {
    let start = expect(row, at, b'"')?;
    let len = row[start..].iter().position(|&byte| HALVES[usize::from(byte)] == 16).unwrap_or(row.len() - start);
    let behind = expect(row, start + len, b'"')?;
    if len % 2 == 1 {
        return Err(start + len);
    }
    put_varint(len as u64 / 2, out);
    for pair in row[start..start + len].chunks_exact(2) {
        out.put(&[HALVES[usize::from(pair[0])] << 4 | HALVES[usize::from(pair[1])]]);
    }
    Ok(behind)
}

/// The field that stands at a place of the row: the place behind it, or where the row stops.
#[inline]
fn import_field<const PARSE: bool>(kind: u8, row: &[u8], at: usize, out: &mut impl Out) -> Result<usize, usize> {
    let unsigned = |most: u64| number::<PARSE>(row, at, most);
    let signed = |most: i64| integer::<PARSE>(row, at, most);
    let unsigned_put = |(x, at): (u64, usize), out: &mut _| {
        put_varint(x, out);
        at
    };
    let signed_put = |(x, at): (i64, usize), out: &mut _| {
        put_zigzag(x, out);
        at
    };
    Ok(match kind {
        BOOL | U8 => {
            let (x, at) = unsigned(if kind == BOOL { 1 } else { u8::MAX.into() })?;
            out.put(&[x as u8]);
            at
        }
        I8 => {
            let (x, at) = signed(i8::MAX.into())?;
            out.put(&[x as u8]);
            at
        }
        I16 => signed_put(signed(i16::MAX.into())?, out),
        I32 => signed_put(signed(i32::MAX.into())?, out),
        I64 => signed_put(signed(i64::MAX)?, out),
        U16 => unsigned_put(unsigned(u16::MAX.into())?, out),
        U32 => unsigned_put(unsigned(u32::MAX.into())?, out),
        U64 => unsigned_put(unsigned(u64::MAX)?, out),
        CHAR => import_char(row, at, out)?,
        STR => import_text(row, at, out)?,
        BYTES => import_bytes(row, at, out)?,
        _ => return import_fixed::<PARSE>(kind, row, at, out),
    })
}

fn import_fixed<const PARSE: bool>(kind: u8, row: &[u8], at: usize, out: &mut impl Out) -> Result<usize, usize> {
    let (x, at) = match kind {
        20 | 26 => integer::<PARSE>(row, at, i16::MAX.into()).map(|(x, at)| (x as u64, at))?,
        21 | 27 => integer::<PARSE>(row, at, i32::MAX.into()).map(|(x, at)| (x as u64, at))?,
        22 | 28 => integer::<PARSE>(row, at, i64::MAX).map(|(x, at)| (x as u64, at))?,
        23 | 29 => number::<PARSE>(row, at, u16::MAX.into())?,
        24 | 30 | F32 => number::<PARSE>(row, at, u32::MAX.into())?,
        _ => number::<PARSE>(row, at, u64::MAX)?,
    };
    match kind {
        20 | 23 => out.put(&(x as u16).to_le_bytes()),
        21 | 24 | F32 => out.put(&(x as u32).to_le_bytes()),
        22 | 25 | F64 => out.put(&x.to_le_bytes()),
        26 | 29 => out.put(&(x as u16).to_be_bytes()),
        27 | 30 => out.put(&(x as u32).to_be_bytes()),
        _ => out.put(&x.to_be_bytes()),
    }
    Ok(at)
}

fn import_row<const PARSE: bool>(table: &[u8], row: &[u8], out: &mut impl Out) -> Result<(), Refused> {
    let mut at = 0;
    for (i, kind) in kinds(table).enumerate() {
        if i > 0 {
            at = expect(row, at, b',').map_err(|at| (21, at))?;
        }
        at = import_field::<PARSE>(kind, row, at, out).map_err(|at| (21, at))?;
    }
    let end = expect(row, at, b'\r').and_then(|at| expect(row, at, b'\n')).map_err(|at| (21, at))?;
    if end < row.len() {
        return Err((21, end));
    }
    Ok(())
}

/// Measured first, and then written in its place.
pub fn import_measured(table: &[u8], row: &[u8], out: &mut [u8]) -> Result<usize, Refused> {
    let mut len = Len(0);
    import_row::<false>(table, row, &mut len)?;
    let out = out.get_mut(..len.0).ok_or(FULL)?;
    import_row::<false>(table, row, &mut Front(out, 0))?;
    Ok(len.0)
}

/// Written elsewhere, where there is room for the message of any row so long, and copied.
pub fn import_copied(table: &[u8], row: &[u8], out: &mut [u8]) -> Result<usize, Refused> {
    import_elsewhere::<false>(table, row, out)
}

/// The same by Rust's own parsing of numbers.
pub fn import_parsed(table: &[u8], row: &[u8], out: &mut [u8]) -> Result<usize, Refused> {
    import_elsewhere::<true>(table, row, out)
}

fn import_elsewhere<const PARSE: bool>(table: &[u8], row: &[u8], out: &mut [u8]) -> Result<usize, Refused> {
    let mut room = vec![0; 10 * kinds(table).len() + row.len()];
    let mut front = Front(&mut room, 0);
    import_row::<PARSE>(table, row, &mut front)?;
    let len = front.1;
    out.get_mut(..len).ok_or(FULL)?.copy_from_slice(&room[..len]);
    Ok(len)
}
