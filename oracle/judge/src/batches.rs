//! Night batches: the library's answers with all lent memory, through the bindings and in C, and the oracle's.
use crate::calls::{lent_bytes, numbered, same, Differs};
use oracle_driver::{batch, Refusal};

/// Of messages laid end to end, in an output of so many bytes; and what the request is counted as.
pub fn writing(table: &[u8], messages: &[u8], fields: [u64; 2], out_len: usize) -> (&'static str, Result<(), Differs>) {
    let right = batch::write(table, messages, fields, out_len);
    let kind = match &right {
        Ok(_) => "batch written",
        Err(Refusal { no: 12, .. }) => "batch for a short output",
        Err(Refusal { no: 17, .. }) => "batch of other fields",
        Err(_) => "batch not written",
    };
    let before = lent_bytes(out_len);
    let mut after = before.clone();
    if let Ok(batch) = &right {
        after[..batch.len()].copy_from_slice(batch);
    }
    let right = right.map(|batch| batch.len()).map_err(|Refusal { no, place }| (no, place));
    let in_c = match right {
        Ok(len) => (0, len as u64),
        Err((no, place)) => (no.into(), place as u64),
    };
    let (mut out, mut out_in_c) = (before.clone(), before);
    let ours = reystavem::batch_write(table, messages, fields[0], fields[1], &mut out).map_err(numbered);
    let outcome = same("answer", ours, right).and_then(|()| same("output", &out, &after)).and_then(|()| {
        same("number and place in C", write_in_c(table, messages, fields, &mut out_in_c), in_c)?;
        same("output in C", out_in_c, after)
    });
    (kind, outcome)
}

/// The whole check; and what the request is counted as.
pub fn checking(table: &[u8], bytes: &[u8]) -> (&'static str, Result<(), Differs>) {
    let right = batch::check(table, bytes).map_err(|Refusal { no, place }| (no, place));
    let kind = if right.is_ok() { "batch good" } else { "batch not good" };
    let in_c = right.map_or_else(|(no, place)| (no.into(), place as u64), |()| (0, 0));
    let outcome = same("answer", reystavem::batch_check(table, bytes).map_err(numbered), right)
        .and_then(|()| same("number and place in C", check_in_c(table, bytes), in_c));
    (kind, outcome)
}

/// The last message of a store and product; and what the request is counted as. Where the documents don't fix the answer,
/// it is 0, 18 or 19 at place 0, and its part lies in the batch.
pub fn last(table: &[u8], bytes: &[u8], store: u64, product: u64) -> (&'static str, Result<(), Differs>) {
    let ours = last_in_c(table, bytes, store, product);
    let Some(right) = batch::last(table, bytes, store, product) else {
        let (number, [place, from, len]) = ours;
        let inside = from.checked_add(len).is_some_and(|end| end <= bytes.len() as u64);
        let lawful = match number {
            0 => place == 0 && inside,
            18 | 19 => [place, from, len] == [0; 3],
            _ => false,
        };
        let outcome = if lawful { Ok(()) } else { Err(Differs(format!("no answer to a bad batch: {ours:x?}"))) };
        return ("last of a bad batch", outcome);
    };
    let kind = match &right {
        Ok(_) => "last found",
        Err(Refusal { no: 19, .. }) => "last of no such key",
        Err(_) => "last refused",
    };
    let right = right.map_err(|Refusal { no, place }| (no, place));
    let in_c = match &right {
        Ok(part) => (0, [0, part.start as u64, part.len() as u64]),
        Err((no, place)) => ((*no).into(), [*place as u64, 0, 0]),
    };
    let outcome = same("number, place, from and len in C", ours, in_c).and_then(|()| {
        let ours = reystavem::batch_last(table, bytes, store, product).map_err(numbered);
        let right = right.map(|part| &bytes[part]);
        same("answer", ours, right)?;
        same("where the part stands", ours.map(<[u8]>::as_ptr), right.map(<[u8]>::as_ptr))
    });
    (kind, outcome)
}

/// Into an output of so many bytes; and what the request is counted as. What was compacted is good, is the same when
/// compacted again, and answers some of the batch's keys with the same bytes.
pub fn compacting(table: &[u8], bytes: &[u8], out_len: usize) -> (&'static str, Result<(), Differs>) {
    let right = batch::compact(table, bytes, out_len);
    let kind = match &right {
        Ok(_) => "batch compacted",
        Err(Refusal { no: 12, .. }) => "compaction for a short output",
        Err(_) => "compaction of a batch not good",
    };
    let before = lent_bytes(out_len);
    let mut after = before.clone();
    if let Ok(batch) = &right {
        after[..batch.len()].copy_from_slice(batch);
    }
    let right = right.map(|batch| batch.len()).map_err(|Refusal { no, place }| (no, place));
    let in_c = match right {
        Ok(len) => (0, len as u64),
        Err((no, place)) => (no.into(), place as u64),
    };
    let (mut out, mut out_in_c) = (before.clone(), before);
    let ours = reystavem::batch_compact(table, bytes, &mut out).map_err(numbered);
    let outcome = same("answer", ours, right).and_then(|()| same("output", &out, &after)).and_then(|()| {
        same("number and place in C", compact_in_c(table, bytes, &mut out_in_c), in_c)?;
        same("output in C", out_in_c, after)?;
        right.map_or(Ok(()), |len| promised(table, bytes, &out[..len]))
    });
    (kind, outcome)
}

/// What T-13 promises of a batch and what became of it, by the library alone.
fn promised(table: &[u8], before: &[u8], after: &[u8]) -> Result<(), Differs> {
    same("the compacted one's check", reystavem::batch_check(table, after), Ok(()))?;
    let mut again = vec![0; after.len()];
    same("the length of another compaction", reystavem::batch_compact(table, after, &mut again), Ok(after.len()))?;
    same("another compaction", &again[..], after)?;
    let rows =
        before.len() - 12 - u32::from_le_bytes(before[before.len() - 8..][..4].try_into().expect("four")) as usize;
    for row in before[rows..before.len() - 12].chunks(16).step_by(7) {
        let store = u64::from(u32::from_le_bytes(row[..4].try_into().expect("four")));
        let product = u64::from_le_bytes(row[4..12].try_into().expect("eight"));
        for product in [product, product.wrapping_add(1)] {
            let [one, other] = [before, after].map(|batch| reystavem::batch_last(table, batch, store, product));
            same("a last message afterwards", other, one)?;
        }
    }
    Ok(())
}

/// The number and the place, as the header has them.
pub fn write_in_c(table: &[u8], messages: &[u8], fields: [u64; 2], out: &mut [u8]) -> (u64, u64) {
    let mut place = u64::MAX;
    let (table_len, messages_len, out_len) = (table.len(), messages.len(), out.len());
    let (table, messages, out) = (table.as_ptr(), messages.as_ptr(), out.as_mut_ptr());
    let [store, product] = fields;
    // SAFETY: each slice is lent with its own length; the number is ours.
    let number = unsafe {
        reystavem_batch_write(table, table_len, messages, messages_len, store, product, out, out_len, &mut place)
    };
    (number, place)
}

pub fn compact_in_c(table: &[u8], bytes: &[u8], out: &mut [u8]) -> (u64, u64) {
    let mut place = u64::MAX;
    let (table_len, batch_len, out_len) = (table.len(), bytes.len(), out.len());
    let (table, bytes, out) = (table.as_ptr(), bytes.as_ptr(), out.as_mut_ptr());
    // SAFETY: each slice is lent with its own length; the number is ours.
    let number = unsafe { reystavem_batch_compact(table, table_len, bytes, batch_len, out, out_len, &mut place) };
    (number, place)
}

pub fn check_in_c(table: &[u8], bytes: &[u8]) -> (u64, u64) {
    let mut place = u64::MAX;
    // SAFETY: each slice is lent with its own length; the number is ours.
    let number = unsafe { reystavem_batch_check(table.as_ptr(), table.len(), bytes.as_ptr(), bytes.len(), &mut place) };
    (number, place)
}

/// The number, and the three that the header has besides. The bindings hide some of them.
pub fn last_in_c(table: &[u8], bytes: &[u8], store: u64, product: u64) -> (u64, [u64; 3]) {
    let mut told = [u64::MAX; 3];
    let [place, from, len] = &mut told;
    let (table_len, batch_len) = (table.len(), bytes.len());
    // SAFETY: each slice is lent with its own length; the numbers are ours.
    let number = unsafe {
        reystavem_batch_last(table.as_ptr(), table_len, bytes.as_ptr(), batch_len, store, product, place, from, len)
    };
    (number, told)
}

extern "C" {
    fn reystavem_batch_write(
        table: *const u8,
        table_len: usize,
        messages: *const u8,
        messages_len: usize,
        store_field: u64,
        product_field: u64,
        out: *mut u8,
        out_len: usize,
        place: *mut u64,
    ) -> u64;
    fn reystavem_batch_check(
        table: *const u8,
        table_len: usize,
        batch: *const u8,
        batch_len: usize,
        place: *mut u64,
    ) -> u64;
    fn reystavem_batch_last(
        table: *const u8,
        table_len: usize,
        batch: *const u8,
        batch_len: usize,
        store: u64,
        product: u64,
        place: *mut u64,
        from: *mut u64,
        len: *mut u64,
    ) -> u64;
    fn reystavem_batch_compact(
        table: *const u8,
        table_len: usize,
        batch: *const u8,
        batch_len: usize,
        out: *mut u8,
        out_len: usize,
        place: *mut u64,
    ) -> u64;
}
