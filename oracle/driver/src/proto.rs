//! The line protocol, see PROTOCOL.md.

use crate::append::{appends, Which};
use crate::compare::{self, Of, Pair};
use crate::feed::{self, feed, feed_waiting, ROOM};
use crate::send::send;
use crate::{batch, csv, find, model, read, strict, write, Entry, ReadAnswer, Refusal};
use core::fmt::Write;
use core::ops::Range;

pub fn hex(bytes: &[u8]) -> String {
    if bytes.is_empty() {
        return "-".into();
    }
    bytes.iter().fold(String::with_capacity(2 * bytes.len()), |mut s, b| {
        let _ = write!(s, "{b:02x}");
        s
    })
}

pub fn unhex(s: &str) -> Result<Vec<u8>, String> {
    if s == "-" {
        return Ok(vec![]);
    }
    if !s.is_ascii() || s.len() % 2 == 1 {
        return Err(format!("not hex bytes: {s}"));
    }
    (0..s.len()).step_by(2).map(|i| u8::from_str_radix(&s[i..i + 2], 16).map_err(|e| e.to_string())).collect()
}

pub fn number(s: &str) -> Result<u64, String> {
    u64::from_str_radix(s, 16).map_err(|e| format!("{s}: {e}"))
}

pub fn words_text(words: &[u64]) -> String {
    if words.is_empty() {
        return "-".into();
    }
    words.iter().map(|w| format!("{w:x}")).collect::<Vec<_>>().join(",")
}

pub fn words(s: &str) -> Result<Vec<u64>, String> {
    if s == "-" {
        Ok(vec![])
    } else {
        s.split(',').map(number).collect()
    }
}

fn entries_text(entries: &[Entry]) -> String {
    if entries.is_empty() {
        return "-".into();
    }
    entries.iter().map(|[a, b, at]| format!("{a:x},{b:x},{at:x}")).collect::<Vec<_>>().join(" ")
}

fn read_text(a: &ReadAnswer) -> String {
    format!("{} {:x} {:x} | {} | {}", a.no, a.place, a.entries.len(), entries_text(&a.entries), hex(a.rest))
}

fn write_text(a: &Result<Vec<u8>, Refusal>) -> String {
    match a {
        Ok(bytes) => format!("0 {:x} | {}", bytes.len(), hex(bytes)),
        Err(Refusal { no, place }) => format!("{no} {place:x} | -"),
    }
}

fn find_text(a: &Result<Entry, Refusal>) -> String {
    match a {
        Ok(entry) => format!("0 {:x} | {}", entry[2], entries_text(&[*entry])),
        Err(Refusal { no, place }) => format!("{no} {place:x} | -"),
    }
}

fn compare_text(a: &Result<Vec<Pair>, (Refusal, Of)>) -> String {
    match a {
        Ok(pairs) => {
            let list: Vec<String> = pairs.iter().map(|[one, other]| format!("{one:x},{other:x}")).collect();
            format!("0 0 0 {:x} | {}", pairs.len(), if list.is_empty() { "-".into() } else { list.join(" ") })
        }
        Err((Refusal { no, place }, of)) => format!("{no} {place:x} {} 0 | -", u8::from(*of == Of::Other)),
    }
}

fn check_text(a: &Result<(), Refusal>) -> String {
    let Refusal { no, place } = a.err().unwrap_or(Refusal { no: 0, place: 0 });
    format!("{no} {place:x}")
}

/// `any` where the documents don't fix the answer.
fn last_text(a: &Option<Result<Range<usize>, Refusal>>) -> String {
    match a {
        None => "any".into(),
        Some(Ok(part)) => format!("0 0 {:x} {:x}", part.start, part.len()),
        Some(Err(Refusal { no, place })) => format!("{no} {place:x} 0 0"),
    }
}

/// Answers one request line. With `from_document` the crate-free model answers R, S, W, I, C, N, K, L, P, X and M.
pub fn answer(line: &str, from_document: bool) -> Result<String, String> {
    let f: Vec<&str> = line.split_ascii_whitespace().collect();
    match f[..] {
        [how @ ("R" | "S"), table, message, store_words] => {
            let (table, message) = (unhex(table)?, unhex(message)?);
            let read = match (how, from_document) {
                ("R", false) => read::read,
                ("R", true) => model::read,
                (_, false) => strict::read,
                (_, true) => model::read_strict,
            };
            Ok(read_text(&read(&table, &message, number(store_words)? as usize)))
        }
        ["W", table, list, pool, out_len] => {
            let write = if from_document { model::write } else { write::write };
            let out_len = number(out_len)? as usize;
            Ok(write_text(&write(&unhex(table)?, &words(list)?, &unhex(pool)?, out_len)))
        }
        ["A", old, new, area] => Ok(match appends(&unhex(old)?, &unhex(new)?, number(area)? as usize) {
            Ok(true) => "yes".into(),
            Ok(false) => "no".into(),
            Err((Refusal { no, place }, which)) => {
                let which = match which {
                    Which::Old => "old",
                    Which::New => "new",
                    Which::Neither => "neither",
                };
                format!("refuse {no} {place:x} {which}")
            }
        }),
        ["F", idx, array, chunk] => {
            let array: [u8; ROOM] = unhex(array)?.try_into().map_err(|_| "array is not of the room's length")?;
            let chunk = unhex(chunk)?;
            let a = feed(number(idx)?, &array, &chunk);
            Ok(format!("{} {:x} | {} | {} | {}", a.no, a.idx, hex(a.rest), hex(&a.message), hex(&a.array)))
        }
        ["G", idx, waiting, array, chunk] => {
            let array: [u8; ROOM] = unhex(array)?.try_into().map_err(|_| "array is not of the room's length")?;
            let chunk = unhex(chunk)?;
            let (a, waits) = feed_waiting(number(idx)?, number(waiting)? != 0, &array, &chunk);
            let waits = u8::from(waits);
            Ok(format!("{} {:x} {waits} | {} | {} | {}", a.no, a.idx, hex(a.rest), hex(&a.message), hex(&a.array)))
        }
        ["E", message, out_len] => {
            let (message, out_len) = (unhex(message)?, number(out_len)? as usize);
            let by_runs = feed::frame(&message);
            let by_runs = if by_runs.len() <= out_len { Ok(by_runs) } else { Err(Refusal { no: 12, place: 0 }) };
            Ok(write_text(&if from_document { by_runs } else { send(&message, out_len) }))
        }
        ["T", kind, message, place] => {
            let (kind, message, place) = (number(kind)?, unhex(message)?, number(place)? as usize);
            let rest = |p: usize| hex(message.get(p..).unwrap_or(&[]));
            Ok(match read::take(u8::try_from(kind).unwrap_or(u8::MAX), &message, place) {
                Ok((entry, next)) => format!("0 {next:x} {next:x} | {} | {}", entries_text(&[entry]), rest(next)),
                Err(Refusal { no, place: p }) => format!("{no} {p:x} {place:x} | - | {}", rest(place)),
            })
        }
        ["I", table, path, message] => {
            let find = if from_document { model::find } else { find::find };
            Ok(find_text(&find(&unhex(table)?, &words(path)?, &unhex(message)?)))
        }
        ["C", table, one, other, list_words] => {
            let compare = if from_document { model::compare } else { compare::compare };
            let list_words = number(list_words)? as usize;
            Ok(compare_text(&compare(&unhex(table)?, &unhex(one)?, &unhex(other)?, list_words)))
        }
        ["N", table, messages, store_field, product_field, out_len] => {
            let write = if from_document { model::batch_write } else { batch::write };
            let fields = [number(store_field)?, number(product_field)?];
            Ok(write_text(&write(&unhex(table)?, &unhex(messages)?, fields, number(out_len)? as usize)))
        }
        ["K", table, batch] => {
            let check = if from_document { model::batch_check } else { batch::check };
            Ok(check_text(&check(&unhex(table)?, &unhex(batch)?)))
        }
        ["L", table, batch, store, product] => {
            let last = if from_document { model::batch_last } else { batch::last };
            Ok(last_text(&last(&unhex(table)?, &unhex(batch)?, number(store)?, number(product)?)))
        }
        ["P", table, batch, out_len] => {
            let compact = if from_document { model::batch_compact } else { batch::compact };
            Ok(write_text(&compact(&unhex(table)?, &unhex(batch)?, number(out_len)? as usize)))
        }
        ["X", table, message, out_len] => {
            let export = if from_document { model::csv_export } else { csv::export };
            Ok(write_text(&export(&unhex(table)?, &unhex(message)?, number(out_len)? as usize)))
        }
        ["M", table, row, out_len] => {
            let import = if from_document { model::csv_import } else { csv::import };
            Ok(write_text(&import(&unhex(table)?, &unhex(row)?, number(out_len)? as usize)))
        }
        _ => Err("unknown request".into()),
    }
}
