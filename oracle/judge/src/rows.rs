//! CSV rows: the library's answers with the output, through the bindings and in C, and the oracle's; and what becomes
//! of what it wrote, a row imported again and a message exported again.
use crate::calls::{lent_bytes, numbered, same, Differs};
use oracle_driver::proto::{hex, number, unhex};
use oracle_driver::{csv, read, write, Refusal, ENTRIES, WORDS};
use reystavem::Refused;
use std::io::{self, BufRead, BufWriter, Write};

/// Of a message, into an output of so many bytes; and what the request is counted as.
pub fn exporting(table: &[u8], message: &[u8], out_len: usize) -> (&'static str, Result<(), Differs>) {
    let right = csv::export(table, message, out_len);
    let kind = match right.as_ref().map_err(|refusal| refusal.no) {
        Ok(_) => "row exported",
        Err(1) => "export refused 1",
        Err(2) => "export refused 2",
        Err(3) => "export refused 3",
        Err(4) => "export refused 4",
        Err(5) => "export refused 5",
        Err(6) => "export refused 6",
        Err(7) => "export refused 7",
        Err(12) => "export refused 12",
        Err(20) => "export refused 20",
        Err(_) => "export refused otherwise",
    };
    let outcome = written((reystavem::csv_export, reystavem_csv_export), table, message, &right, out_len)
        .and_then(|()| right.map_or(Ok(()), |row| imported_again(table, message, &row)));
    (kind, outcome)
}

/// Of a row, into an output of so many bytes; and what the request is counted as.
pub fn importing(table: &[u8], row: &[u8], out_len: usize) -> (&'static str, Result<(), Differs>) {
    let right = csv::import(table, row, out_len);
    let kind = match right.as_ref().map_err(|refusal| refusal.no) {
        Ok(_) => "row imported",
        Err(1) => "import refused 1",
        Err(2) => "import refused 2",
        Err(12) => "import refused 12",
        Err(20) => "import refused 20",
        Err(21) => "import refused 21",
        Err(_) => "import refused otherwise",
    };
    let outcome = written((reystavem::csv_import, reystavem_csv_import), table, row, &right, out_len)
        .and_then(|()| right.map_or(Ok(()), |message| exported_again(table, row, &message)));
    (kind, outcome)
}

/// One of the two calls, through the bindings and in C.
type Calls = (fn(&[u8], &[u8], &mut [u8]) -> Result<usize, Refused>, Call);

/// The answer and every byte of the output, by both.
fn written(
    (bound, in_c): Calls,
    table: &[u8],
    input: &[u8],
    right: &Result<Vec<u8>, Refusal>,
    out_len: usize,
) -> Result<(), Differs> {
    let before = lent_bytes(out_len);
    let mut after = before.clone();
    if let Ok(bytes) = right {
        after[..bytes.len()].copy_from_slice(bytes);
    }
    let right = right.as_ref().map(Vec::len).map_err(|refusal| (refusal.no, refusal.place));
    let told = right.map_or_else(|(no, place)| (no.into(), place as u64), |len| (0, len as u64));
    let (mut out, mut out_in_c) = (before.clone(), before);
    same("answer", bound(table, input, &mut out).map_err(numbered), right)?;
    same("output", &out, &after)?;
    same("number and place in C", call_in_c(in_c, table, input, &mut out_in_c), told)?;
    same("output in C", &out_in_c, &after)
}

/// What the library exported it imports as the message that the crate writes of the values, the shortest one.
fn imported_again(table: &[u8], message: &[u8], row: &[u8]) -> Result<(), Differs> {
    let values = read::read(table, message, WORDS * ENTRIES).entries;
    let right = write::write(table, values.as_flattened(), message, message.len()).expect("values that were read");
    let mut back = vec![0; right.len()];
    same("the row's import", reystavem::csv_import(table, row, &mut back), Ok(right.len()))?;
    same("the row's message", back, right)
}

/// What the library imported it exports as the same row.
fn exported_again(table: &[u8], row: &[u8], message: &[u8]) -> Result<(), Differs> {
    let mut back = vec![0; row.len()];
    same("the message's export", reystavem::csv_export(table, message, &mut back), Ok(row.len()))?;
    same("the message's row", &back[..], row)
}

/// Prints table, message and row of each export on stdin that the library answers with a row.
pub fn print() -> Result<(), String> {
    let mut out = BufWriter::new(io::stdout().lock());
    for line in io::stdin().lock().lines() {
        let line = line.map_err(|error| error.to_string())?;
        let ["X", table, message, out_len] = line.split_ascii_whitespace().collect::<Vec<&str>>()[..] else { continue };
        let mut row = vec![0; number(out_len)? as usize];
        if let Ok(len) = reystavem::csv_export(&unhex(table)?, &unhex(message)?, &mut row) {
            writeln!(out, "{table} {message} {}", hex(&row[..len])).map_err(|error| error.to_string())?;
        }
    }
    Ok(())
}

type Call = unsafe extern "C" fn(*const u8, usize, *const u8, usize, *mut u8, usize, *mut u64) -> u64;

/// The number and the place, as the header has them.
fn call_in_c(call: Call, table: &[u8], input: &[u8], out: &mut [u8]) -> (u64, u64) {
    let mut place = u64::MAX;
    let (table_len, input_len, out_len) = (table.len(), input.len(), out.len());
    let (table, input, out) = (table.as_ptr(), input.as_ptr(), out.as_mut_ptr());
    // SAFETY: each slice is lent with its own length; the number is ours.
    let number = unsafe { call(table, table_len, input, input_len, out, out_len, &mut place) };
    (number, place)
}

extern "C" {
    fn reystavem_csv_export(
        table: *const u8,
        table_len: usize,
        message: *const u8,
        message_len: usize,
        out: *mut u8,
        out_len: usize,
        place: *mut u64,
    ) -> u64;
    fn reystavem_csv_import(
        table: *const u8,
        table_len: usize,
        row: *const u8,
        row_len: usize,
        out: *mut u8,
        out_len: usize,
        place: *mut u64,
    ) -> u64;
}
