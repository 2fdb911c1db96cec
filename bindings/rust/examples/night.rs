//! Night batches in files of any size, which are mapped and not read.
//!
//!   night write TABLE MESSAGES STORE_FIELD PRODUCT_FIELD OUT   a batch of messages laid end to end
//!   night check TABLE BATCH                                    whether a batch is good
//!   night last TABLE BATCH STORE PRODUCT                       the last message's bytes, to stdout
//!   night compact TABLE BATCH OUT                              a batch of the last messages only
//!
//! Exit status: 0 done; 1 refused, with number and place on stderr; 2 usage, or a file that can't be had. A refused
//! writing leaves no file, and one that was there as it was.
use reystavem::Refused;
use std::ffi::{c_int, c_void};
use std::fs::{self, File, OpenOptions};
use std::io::{self, BufWriter, Write};
use std::ops::{Deref, DerefMut};
use std::os::fd::AsRawFd;
use std::process::ExitCode;
use std::{env, ptr, slice};

extern "C" {
    fn mmap(address: *mut c_void, len: usize, protection: c_int, flags: c_int, file: c_int, offset: i64) -> *mut c_void;
    fn munmap(address: *mut c_void, len: usize) -> c_int;
}

/// Linux's numbers for what a mapping may be used for, and for one that reaches the file.
const READ: c_int = 1;
const WRITE: c_int = 2;
const SHARED: c_int = 1;

/// A file's bytes, where they stand.
struct Mapped {
    start: *mut u8,
    len: usize,
}

impl Mapped {
    fn new(file: &File, len: usize, protection: c_int) -> io::Result<Mapped> {
        // No bytes can't be mapped.
        if len == 0 {
            let start = ptr::NonNull::dangling().as_ptr();
            return Ok(Mapped { start, len });
        }
        // SAFETY: a new mapping takes the place of no other.
        let start = unsafe { mmap(ptr::null_mut(), len, protection, SHARED, file.as_raw_fd(), 0) };
        if start as isize == -1 {
            return Err(io::Error::last_os_error());
        }
        let start = start.cast();
        Ok(Mapped { start, len })
    }

    fn open(path: &str) -> Result<Mapped, Failed> {
        let mapped = || {
            let file = File::open(path)?;
            let len = file.metadata()?.len() as usize;
            Mapped::new(&file, len, READ)
        };
        mapped().map_err(|error| Failed::File(path.into(), error))
    }
}

impl Deref for Mapped {
    type Target = [u8];
    fn deref(&self) -> &[u8] {
        // SAFETY: so many bytes are mapped until we are dropped. That no one else changes the file is the caller's word.
        unsafe { slice::from_raw_parts(self.start, self.len) }
    }
}

impl DerefMut for Mapped {
    fn deref_mut(&mut self) -> &mut [u8] {
        // SAFETY: as above; only an output is borrowed so, and it is mapped for writing.
        unsafe { slice::from_raw_parts_mut(self.start, self.len) }
    }
}

impl Drop for Mapped {
    fn drop(&mut self) {
        if self.len > 0 {
            // SAFETY: it was mapped so, and nothing borrows it any more.
            unsafe { munmap(self.start.cast(), self.len) };
        }
    }
}

enum Failed {
    Usage,
    File(String, io::Error),
    Refused(Refused),
}

impl From<Refused> for Failed {
    fn from(refused: Refused) -> Failed {
        Failed::Refused(refused)
    }
}

/// Writes up to so many bytes to a file, which gets its name when it is done and has just those that were written. What
/// isn't written takes no room on the disk.
fn written(path: &str, most: usize, write: impl FnOnce(&mut [u8]) -> Result<usize, Refused>) -> Result<(), Failed> {
    let part = format!("{path}.part");
    let failed = |error| Failed::File(part.clone(), error);
    let made = || -> Result<(), Failed> {
        let mut options = OpenOptions::new();
        let file = options.read(true).write(true).create(true).truncate(true).open(&part).map_err(failed)?;
        file.set_len(most as u64).map_err(failed)?;
        let mut out = Mapped::new(&file, most, READ | WRITE).map_err(failed)?;
        let len = write(&mut out)?;
        drop(out);
        file.set_len(len as u64).map_err(failed)?;
        fs::rename(&part, path).map_err(failed)
    };
    let done = made();
    if done.is_err() {
        let _ = fs::remove_file(&part);
    }
    done
}

fn number(text: &str) -> Result<u64, Failed> {
    text.parse().map_err(|_| Failed::Usage)
}

fn run(words: &[&str]) -> Result<(), Failed> {
    match words {
        ["write", table, messages, store_field, product_field, out] => {
            let (table, messages) = (Mapped::open(table)?, Mapped::open(messages)?);
            let (store_field, product_field) = (number(store_field)?, number(product_field)?);
            // A message has two bytes or more, and a row has 16.
            let most = messages.len() + messages.len() / 2 * 16 + 12;
            written(out, most, |out| reystavem::batch_write(&table, &messages, store_field, product_field, out))
        }
        ["check", table, batch] => Ok(reystavem::batch_check(&Mapped::open(table)?, &Mapped::open(batch)?)?),
        ["last", table, batch, store, product] => {
            let (table, batch) = (Mapped::open(table)?, Mapped::open(batch)?);
            let message = reystavem::batch_last(&table, &batch, number(store)?, number(product)?)?;
            io::stdout().write_all(message).map_err(|error| Failed::File("stdout".into(), error))
        }
        ["compact", table, batch, out] => {
            let (table, batch) = (Mapped::open(table)?, Mapped::open(batch)?);
            written(out, batch.len(), |out| reystavem::batch_compact(&table, &batch, out))
        }
        ["make", count, out] => make(number(count)?, out).map_err(|error| Failed::File(out.to_string(), error)),
        _ => Err(Failed::Usage),
    }
}

/// Makes so many messages of samples/count.table to try the others with: random counts of 340 stores' 5,000 products,
/// the same ones each time.
fn make(count: u64, path: &str) -> io::Result<()> {
    let mut out = BufWriter::new(File::create(path)?);
    let mut state = 1u64;
    for _ in 0..count {
        state = state.wrapping_mul(6_364_136_223_846_793_005).wrapping_add(1_442_695_040_888_963_407);
        let random = state >> 24;
        // The count is small, and its sign's the lowest bit.
        for mut value in [1 + random % 340, 10_000_000 + random / 340 % 5_000, random / 340 / 5_000 % 400] {
            while value >= 128 {
                out.write_all(&[value as u8 | 0x80])?;
                value >>= 7;
            }
            out.write_all(&[value as u8])?;
        }
    }
    out.flush()
}

fn main() -> ExitCode {
    let words: Vec<String> = env::args().skip(1).collect();
    let words: Vec<&str> = words.iter().map(String::as_str).collect();
    match run(&words) {
        Ok(()) => return ExitCode::SUCCESS,
        Err(Failed::Refused(Refused { why, place })) => {
            eprintln!("night: refused {} at {place} ({why:?})", why as u8);
            return ExitCode::FAILURE;
        }
        Err(Failed::File(path, error)) => eprintln!("night: {path}: {error}"),
        Err(Failed::Usage) => {
            eprintln!("night write TABLE MESSAGES STORE_FIELD PRODUCT_FIELD OUT");
            eprintln!("night check TABLE BATCH");
            eprintln!("night last TABLE BATCH STORE PRODUCT");
            eprintln!("night compact TABLE BATCH OUT");
        }
    }
    ExitCode::from(2)
}
