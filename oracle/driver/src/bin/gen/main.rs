//! `gen SEED COUNT` prints COUNT request lines for `oracle` (PROTOCOL.md), always the same
//! ones for the same seed: first a fixed part of edge cases, then random rounds.
//! `gen SEED COUNT strict` prints strict reads alone; more than a third of their answers are 16.
//! `gen SEED COUNT find` prints finds alone, `gen SEED COUNT compare` comparisons, `gen SEED COUNT batch` the three
//! questions about night batches, `gen SEED COUNT compact` their compaction, `gen SEED COUNT frames` feeds, of long
//! frames too, `gen SEED COUNT waits` feeds by default to states that wait and to others, `gen SEED COUNT send`
//! messages to be sent as frames, and `gen SEED COUNT csv` CSV rows there and back.

mod batches;
mod edges;
mod forms;
mod frames;
mod padded;
mod pairs;
mod paths;
mod rounds;
mod rows;
mod sending;
mod tables;
mod waits;

use oracle_driver::append::AREA;
use oracle_driver::proto::{hex, words_text};
use oracle_driver::rng::Rng;
use oracle_driver::WORDS;
use std::io::{self, BufWriter, Write};

fn main() {
    let args: Vec<String> = std::env::args().skip(1).collect();
    let asked: Vec<&str> = args.iter().map(String::as_str).collect();
    let (seed, count, stream) = match asked[..] {
        [seed, count] => (seed, count, Stream::Plain),
        [seed, count, "strict"] => (seed, count, Stream::Strict),
        [seed, count, "find"] => (seed, count, Stream::Find),
        [seed, count, "compare"] => (seed, count, Stream::Compare),
        [seed, count, "batch"] => (seed, count, Stream::Batch),
        [seed, count, "compact"] => (seed, count, Stream::Compact),
        [seed, count, "frames"] => (seed, count, Stream::Frames),
        [seed, count, "waits"] => (seed, count, Stream::Waits),
        [seed, count, "send"] => (seed, count, Stream::Send),
        [seed, count, "csv"] => (seed, count, Stream::Csv),
        _ => {
            eprintln!("usage: gen SEED COUNT [strict|find|compare|batch|compact|frames|waits|send|csv]");
            std::process::exit(2)
        }
    };
    let [seed, count] = [seed, count].map(|a| a.parse::<u64>().expect("SEED and COUNT, both decimal"));
    let mut g = Gen { rng: Rng(0), left: count, stream, out: BufWriter::new(io::stdout().lock()) };
    // Err means: enough lines, or nobody listens any more.
    let _ = g.all(seed);
    let _ = g.out.flush();
}

/// Enough has been printed.
struct Enough;
type Go = Result<(), Enough>;

/// What is asked: what 01 has, or one kind of request alone.
#[derive(Clone, Copy, PartialEq)]
enum Stream {
    Plain,
    /// Every read is a strict one.
    Strict,
    Find,
    Compare,
    /// Batches written, checked and searched.
    Batch,
    /// Every batch that is checked is compacted instead, and nothing else is asked.
    Compact,
    Frames,
    /// Every feed is one by default, to a state that waits and to the same that doesn't.
    Waits,
    Send,
    Csv,
}

struct Gen {
    rng: Rng,
    left: u64,
    stream: Stream,
    out: BufWriter<io::StdoutLock<'static>>,
}

impl Gen {
    fn line(&mut self, letter: char, fields: std::fmt::Arguments) -> Go {
        if self.left == 0 {
            return Err(Enough);
        }
        let left_out = match self.stream {
            Stream::Strict => letter != 'S',
            Stream::Batch => letter == 'P',
            Stream::Compact => letter != 'P',
            _ => false,
        };
        if left_out {
            return Ok(());
        }
        self.left -= 1;
        writeln!(self.out, "{letter} {fields}").map_err(|_| Enough)
    }
    /// Into a store with room for so many entries, and up to two words more.
    fn read(&mut self, file: &[u8], message: &[u8], room: u64) -> Go {
        let words = WORDS as u64 * room + self.rng.below(WORDS) as u64;
        let letter = if self.stream == Stream::Strict { 'S' } else { 'R' };
        self.line(letter, format_args!("{} {} {words:x}", hex(file), hex(message)))
    }
    /// A list of items' two words each; the third may be anything.
    fn write_list(&mut self, file: &[u8], items: &[[u64; 2]], pool: &[u8], out_len: usize) -> Go {
        let words = self.placed(items);
        self.write(file, &words, pool, out_len)
    }
    fn write(&mut self, file: &[u8], words: &[u64], pool: &[u8], out_len: usize) -> Go {
        self.line('W', format_args!("{} {} {} {out_len:x}", hex(file), words_text(words), hex(pool)))
    }
    /// Mostly with an area of just the bytes it needs.
    fn append(&mut self, old: &[u8], new: &[u8]) -> Go {
        let area = match self.rng.below(16) {
            0 => *self.rng.pick(&[0, 1, AREA / 2, AREA - 1]),
            1 => AREA + self.rng.from_to(1, 4_096),
            _ => AREA,
        };
        self.append_with(old, new, area)
    }
    fn append_with(&mut self, old: &[u8], new: &[u8], area: usize) -> Go {
        self.line('A', format_args!("{} {} {area:x}", hex(old), hex(new)))
    }
    fn feed(&mut self, idx: u64, array: &[u8], chunk: &[u8]) -> Go {
        if self.stream == Stream::Waits {
            for waiting in [0, 1] {
                self.line('G', format_args!("{idx:x} {waiting} {} {}", hex(array), hex(chunk)))?;
            }
            return Ok(());
        }
        self.line('F', format_args!("{idx:x} {} {}", hex(array), hex(chunk)))
    }
    fn take(&mut self, kind: u8, message: &[u8], place: u64) -> Go {
        self.line('T', format_args!("{kind:x} {} {place:x}", hex(message)))
    }
    fn find(&mut self, file: &[u8], path: &[u64], message: &[u8]) -> Go {
        self.line('I', format_args!("{} {} {}", hex(file), words_text(path), hex(message)))
    }
    /// With a list of so many words.
    fn compare(&mut self, file: &[u8], one: &[u8], other: &[u8], words: usize) -> Go {
        self.line('C', format_args!("{} {} {} {words:x}", hex(file), hex(one), hex(other)))
    }

    /// A batch of messages laid end to end, in an output of so many bytes.
    fn batch_write(&mut self, file: &[u8], messages: &[u8], [store, product]: [u64; 2], out_len: usize) -> Go {
        self.line('N', format_args!("{} {} {store:x} {product:x} {out_len:x}", hex(file), hex(messages)))
    }
    fn batch_check(&mut self, file: &[u8], batch: &[u8]) -> Go {
        if self.stream == Stream::Compact {
            // The batch's own length is always enough.
            let out_len = if self.rng.chance(4) { self.rng.below(batch.len() + 1) } else { batch.len() };
            return self.batch_compact(file, batch, out_len);
        }
        self.line('K', format_args!("{} {}", hex(file), hex(batch)))
    }
    fn batch_last(&mut self, file: &[u8], batch: &[u8], store: u64, product: u64) -> Go {
        self.line('L', format_args!("{} {} {store:x} {product:x}", hex(file), hex(batch)))
    }

    fn batch_compact(&mut self, file: &[u8], batch: &[u8], out_len: usize) -> Go {
        self.line('P', format_args!("{} {} {out_len:x}", hex(file), hex(batch)))
    }

    /// The words of entries that say of their items whatever place.
    fn placed(&mut self, items: &[[u64; 2]]) -> Vec<u64> {
        items.iter().flat_map(|&[w0, w1]| [w0, w1, self.any_place()]).collect()
    }
    fn any_place(&mut self) -> u64 {
        match self.rng.below(4) {
            0 => 0,
            1 => self.rng.below(300) as u64,
            2 => u64::MAX,
            _ => self.rng.word(),
        }
    }

    /// The edge cases are the same for every seed.
    fn all(&mut self, seed: u64) -> Go {
        match self.stream {
            Stream::Plain => self.edges()?,
            Stream::Strict => {
                self.readings_at_the_edge()?;
                self.paddings_at_the_edge()?;
            }
            Stream::Find => self.paths_at_the_edge()?,
            Stream::Compare => self.pairs_at_the_edge()?,
            Stream::Batch | Stream::Compact => self.batches_at_the_edge()?,
            Stream::Frames => self.frames_at_the_edge()?,
            Stream::Waits => {
                self.waits_at_the_edge()?;
                self.frames_at_the_edge()?;
            }
            Stream::Send => self.sends_at_the_edge()?,
            Stream::Csv => self.rows_at_the_edge()?,
        }
        self.rng = Rng(seed);
        loop {
            match self.stream {
                Stream::Plain => self.round()?,
                Stream::Strict => self.strict_round()?,
                Stream::Find => self.find_round()?,
                Stream::Compare => self.compare_round()?,
                Stream::Batch => self.batch_round()?,
                Stream::Compact => self.compact_round()?,
                Stream::Frames => self.frame_round()?,
                Stream::Waits => self.wait_round()?,
                Stream::Send => self.send_round()?,
                Stream::Csv => self.csv_round()?,
            }
        }
    }
}
