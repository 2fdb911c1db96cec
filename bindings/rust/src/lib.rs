//! Reads and writes messages by a schema table, through Reystavem's proved static library.
//!
//! Every function may be given any bytes: it answers, or refuses with the number and the place that
//! the documents fix. Nothing here panics on what a message or a table holds.
//!
//! ```
//! # let table = reystavem::samples::TABLE_T;
//! let mut store = [0u64; 4 * reystavem::WORDS];
//! let read = reystavem::read(table, &[0xac, 0x02, 0x05, 0x03, 0x07], &mut store).unwrap();
//! assert_eq!(read.count, 4);
//! assert_eq!(read.rest, [0x07]);
//! let product = reystavem::entries(&store).nth(2).unwrap();
//! assert_eq!((product.first, product.place), (5, 2));
//! ```

mod ffi {
    extern "C" {
        pub fn reystavem_check(table: *const u8, table_len: usize, place: *mut u64) -> u64;
        pub fn reystavem_read(
            table: *const u8,
            table_len: usize,
            message: *const u8,
            message_len: usize,
            store: *mut u64,
            store_words: usize,
            place: *mut u64,
            count: *mut u64,
        ) -> u64;
        pub fn reystavem_read_strict(
            table: *const u8,
            table_len: usize,
            message: *const u8,
            message_len: usize,
            store: *mut u64,
            store_words: usize,
            place: *mut u64,
            count: *mut u64,
        ) -> u64;
        pub fn reystavem_read_open(
            table: *const u8,
            table_len: usize,
            message: *const u8,
            message_len: usize,
            store: *mut u64,
            store_words: usize,
            open: *mut u64,
            open_words: usize,
            place: *mut u64,
            count: *mut u64,
        ) -> u64;
        pub fn reystavem_read_open_strict(
            table: *const u8,
            table_len: usize,
            message: *const u8,
            message_len: usize,
            store: *mut u64,
            store_words: usize,
            open: *mut u64,
            open_words: usize,
            place: *mut u64,
            count: *mut u64,
        ) -> u64;
        pub fn reystavem_write(
            table: *const u8,
            table_len: usize,
            words: *const u64,
            words_len: usize,
            pool: *const u8,
            pool_len: usize,
            out: *mut u8,
            out_len: usize,
            place: *mut u64,
        ) -> u64;
        pub fn reystavem_append(
            old_table: *const u8,
            old_len: usize,
            new_table: *const u8,
            new_len: usize,
            area: *mut u8,
            area_len: usize,
            place: *mut u64,
            which: *mut u64,
            yes: *mut u64,
        ) -> u64;
        pub fn reystavem_feed(
            array: *mut u8,
            array_len: usize,
            chunk: *const u8,
            chunk_len: usize,
            message: *mut u8,
            message_len: usize,
            idx: *mut u64,
            waiting: *mut u64,
            len: *mut u64,
            rest_from: *mut u64,
        ) -> u64;
        pub fn reystavem_feed_bridge(
            array: *mut u8,
            array_len: usize,
            chunk: *const u8,
            chunk_len: usize,
            message: *mut u8,
            message_len: usize,
            idx: *mut u64,
            waiting: *mut u64,
            len: *mut u64,
            rest_from: *mut u64,
        ) -> u64;
        pub fn reystavem_frame(
            message: *const u8,
            message_len: usize,
            out: *mut u8,
            out_len: usize,
            place: *mut u64,
        ) -> u64;
        pub fn reystavem_take(
            kind: u64,
            message: *const u8,
            message_len: usize,
            place: *mut u64,
            first: *mut u64,
            second: *mut u64,
            at: *mut u64,
        ) -> u64;
        pub fn reystavem_find(
            table: *const u8,
            table_len: usize,
            path: *const u64,
            path_len: usize,
            message: *const u8,
            message_len: usize,
            place: *mut u64,
            first: *mut u64,
            second: *mut u64,
        ) -> u64;
        pub fn reystavem_compare(
            table: *const u8,
            table_len: usize,
            one: *const u8,
            one_len: usize,
            other: *const u8,
            other_len: usize,
            list: *mut u64,
            list_words: usize,
            place: *mut u64,
            which: *mut u64,
            count: *mut u64,
        ) -> u64;
        pub fn reystavem_batch_write(
            table: *const u8,
            table_len: usize,
            messages: *const u8,
            messages_len: usize,
            store_field: u64,
            product_field: u64,
            out: *mut u8,
            out_len: usize,
            place: *mut u64,
        ) -> u64;
        pub fn reystavem_batch_check(
            table: *const u8,
            table_len: usize,
            batch: *const u8,
            batch_len: usize,
            place: *mut u64,
        ) -> u64;
        pub fn reystavem_batch_last(
            table: *const u8,
            table_len: usize,
            batch: *const u8,
            batch_len: usize,
            store: u64,
            product: u64,
            place: *mut u64,
            from: *mut u64,
            len: *mut u64,
        ) -> u64;
        pub fn reystavem_batch_compact(
            table: *const u8,
            table_len: usize,
            batch: *const u8,
            batch_len: usize,
            out: *mut u8,
            out_len: usize,
            place: *mut u64,
        ) -> u64;
        pub fn reystavem_csv_export(
            table: *const u8,
            table_len: usize,
            message: *const u8,
            message_len: usize,
            out: *mut u8,
            out_len: usize,
            place: *mut u64,
        ) -> u64;
        pub fn reystavem_csv_import(
            table: *const u8,
            table_len: usize,
            row: *const u8,
            row_len: usize,
            out: *mut u8,
            out_len: usize,
            place: *mut u64,
        ) -> u64;
    }
}

/// Why a call refuses, with the number that the documents give it.
#[derive(Clone, Copy, Debug, PartialEq, Eq)]
#[repr(u8)]
pub enum Why {
    /// The table's trailer isn't good.
    Trailer = 1,
    /// A record of the table isn't good, or its node's chain of children has more than 256 nodes.
    Record = 2,
    /// The message ends inside an item.
    End = 3,
    /// A varint is too long or too large.
    Varint = 4,
    /// A bool is neither 0 nor 1.
    Bool = 5,
    /// A char isn't one.
    Char = 6,
    /// A text isn't UTF-8.
    Utf8 = 7,
    /// An option is neither 0 nor 1.
    Option = 8,
    /// A variant's number isn't in the table.
    Variant = 9,
    /// The store has no room for an item's entry.
    Room = 10,
    /// A value list doesn't fit the table.
    Values = 11,
    /// The output is too short.
    Full = 12,
    /// The path doesn't lead to an item that can be asked for.
    Path = 13,
    /// An option on the path is absent.
    Absent = 14,
    /// The list is too short for the differences.
    List = 15,
    /// An item's bytes aren't the ones that a writer writes for its value; strict reading only.
    NotShortest = 16,
    /// The key fields aren't a u32 and a u64 of the table's root struct.
    Fields = 17,
    /// A batch isn't good; in writing, there is more than its fields have room for.
    Batch = 18,
    /// The batch has no message of such a store and product.
    Key = 19,
    /// The table's root isn't a struct whose messages have rows; CSV rows only.
    Shape = 20,
    /// The input isn't a row of the table; importing CSV rows only.
    Row = 21,
    /// The list of open items is shorter than `OPEN`; reading with such a list only.
    Open = 22,
    /// The work area is shorter than `AREA`.
    Area = 25,
}

impl Why {
    fn of(number: u64) -> Why {
        match number {
            1 => Why::Trailer,
            2 => Why::Record,
            3 => Why::End,
            4 => Why::Varint,
            5 => Why::Bool,
            6 => Why::Char,
            7 => Why::Utf8,
            8 => Why::Option,
            9 => Why::Variant,
            10 => Why::Room,
            11 => Why::Values,
            12 => Why::Full,
            13 => Why::Path,
            14 => Why::Absent,
            15 => Why::List,
            16 => Why::NotShortest,
            17 => Why::Fields,
            18 => Why::Batch,
            19 => Why::Key,
            20 => Why::Shape,
            21 => Why::Row,
            22 => Why::Open,
            25 => Why::Area,
            _ => unreachable!("the library's contract has no other number"),
        }
    }
}

/// A refusal and its place: a node, a byte of the message or an entry, as its reason says.
#[derive(Clone, Copy, Debug, PartialEq, Eq)]
pub struct Refused {
    pub why: Why,
    pub place: usize,
}

fn refused(number: u64, place: u64) -> Refused {
    Refused {
        why: Why::of(number),
        place: place as usize,
    }
}

/// Whether a table is good; else the reason and, for a record, its node.
pub fn check(table: &[u8]) -> Result<(), Refused> {
    let mut place = 0;
    // SAFETY: the slice is lent with its own length, and `place` is ours.
    let number = unsafe { ffi::reystavem_check(table.as_ptr(), table.len(), &mut place) };
    match number {
        0 => Ok(()),
        _ => Err(refused(number, place)),
    }
}

/// The words of an entry in a store or a value list.
pub const WORDS: usize = 3;

/// An item's two words, and the place of its first byte (for a struct or unit, the place reached).
#[derive(Clone, Copy, Debug, PartialEq, Eq)]
pub struct Entry {
    pub first: u64,
    pub second: u64,
    pub place: usize,
}

/// The entries that words hold. The writer doesn't look at their places.
pub fn entries(words: &[u64]) -> impl Iterator<Item = Entry> + '_ {
    words.chunks_exact(WORDS).map(|entry| Entry {
        first: entry[0],
        second: entry[1],
        place: entry[2] as usize,
    })
}

/// A message that was read: how many entries stand in front in the store, and the unread bytes.
#[derive(Clone, Copy, Debug, PartialEq, Eq)]
pub struct Read<'m> {
    pub count: usize,
    pub rest: &'m [u8],
}

/// A message that was refused, and how many entries were made before that.
#[derive(Clone, Copy, Debug, PartialEq, Eq)]
pub struct ReadRefused {
    pub refused: Refused,
    pub count: usize,
}

/// Reads a message into a store, three words an entry (`entries`). It has room for a third of its words, rounded
/// down. Words behind the entries stay as they were.
#[inline]
pub fn read<'m>(table: &[u8], message: &'m [u8], store: &mut [u64]) -> Result<Read<'m>, ReadRefused> {
    read_by(ffi::reystavem_read, table, message, store)
}

/// Reads as `read` does, but refuses an item whose own bytes aren't the shortest that say its value: a padded varint
/// (a number, a count, a length, a variant's number), or a char whose length isn't its own. So of two messages read
/// strictly, those with the same values have the same bytes. An item's other refusals come first, and its inside isn't
/// looked at.
#[inline]
pub fn read_strict<'m>(table: &[u8], message: &'m [u8], store: &mut [u64]) -> Result<Read<'m>, ReadRefused> {
    read_by(ffi::reystavem_read_strict, table, message, store)
}

/// The words of a list of open items: four for each of 256, as many as any table and message want.
pub const OPEN: usize = 1_024;

/// Reads as `read` does, with its open items in a lent list instead of on the stack, of which it takes little. A list of
/// fewer than `OPEN` words is refused, and nothing changes; else its first `OPEN` words come back zero, whatever they held.
#[inline]
pub fn read_open<'m>(
    table: &[u8],
    message: &'m [u8],
    store: &mut [u64],
    open: &mut [u64],
) -> Result<Read<'m>, ReadRefused> {
    read_open_by(ffi::reystavem_read_open, table, message, store, open)
}

/// The same, as `read_strict` does.
#[inline]
pub fn read_open_strict<'m>(
    table: &[u8],
    message: &'m [u8],
    store: &mut [u64],
    open: &mut [u64],
) -> Result<Read<'m>, ReadRefused> {
    read_open_by(ffi::reystavem_read_open_strict, table, message, store, open)
}

type OpenReader = unsafe extern "C" fn(
    table: *const u8,
    table_len: usize,
    message: *const u8,
    message_len: usize,
    store: *mut u64,
    store_words: usize,
    open: *mut u64,
    open_words: usize,
    place: *mut u64,
    count: *mut u64,
) -> u64;

#[inline]
fn read_open_by<'m>(
    reader: OpenReader,
    table: &[u8],
    message: &'m [u8],
    store: &mut [u64],
    open: &mut [u64],
) -> Result<Read<'m>, ReadRefused> {
    let (mut place, mut count) = (0, 0);
    // SAFETY: each slice is lent with its own length; `store` and `open` are borrowed for us alone.
    let number = unsafe {
        reader(
            table.as_ptr(),
            table.len(),
            message.as_ptr(),
            message.len(),
            store.as_mut_ptr(),
            store.len(),
            open.as_mut_ptr(),
            open.len(),
            &mut place,
            &mut count,
        )
    };
    told(message, number, place, count)
}

type Reader = unsafe extern "C" fn(
    table: *const u8,
    table_len: usize,
    message: *const u8,
    message_len: usize,
    store: *mut u64,
    store_words: usize,
    place: *mut u64,
    count: *mut u64,
) -> u64;

#[inline]
fn read_by<'m>(reader: Reader, table: &[u8], message: &'m [u8], store: &mut [u64]) -> Result<Read<'m>, ReadRefused> {
    let (mut place, mut count) = (0, 0);
    // SAFETY: each slice is lent with its own length; `store` is borrowed for us alone.
    let number = unsafe {
        reader(
            table.as_ptr(),
            table.len(),
            message.as_ptr(),
            message.len(),
            store.as_mut_ptr(),
            store.len(),
            &mut place,
            &mut count,
        )
    };
    told(message, number, place, count)
}

/// What a reader's numbers say of the message.
#[inline]
fn told(message: &[u8], number: u64, place: u64, count: u64) -> Result<Read<'_>, ReadRefused> {
    let count = count as usize;
    match number {
        0 => Ok(Read {
            count,
            rest: &message[place as usize..],
        }),
        _ => Err(ReadRefused {
            refused: refused(number, place),
            count,
        }),
    }
}

/// Writes a value list, three words an entry, whose texts and bytes stand in the pool: how many bytes were written.
/// The third words aren't looked at. On a refusal the output is unchanged.
#[inline]
pub fn write(table: &[u8], words: &[u64], pool: &[u8], out: &mut [u8]) -> Result<usize, Refused> {
    let mut place = 0;
    // SAFETY: each slice is lent with its own length; `out` is borrowed for us alone.
    let number = unsafe {
        ffi::reystavem_write(
            table.as_ptr(),
            table.len(),
            words.as_ptr(),
            words.len(),
            pool.as_ptr(),
            pool.len(),
            out.as_mut_ptr(),
            out.len(),
            &mut place,
        )
    };
    match number {
        0 => Ok(place as usize),
        _ => Err(refused(number, place)),
    }
}

/// One of the append question's two tables.
#[derive(Clone, Copy, Debug, PartialEq, Eq)]
pub enum Side {
    Old,
    New,
}

/// The bytes of work area that the append question needs: a bit for each pair of nodes.
pub const AREA: usize = 2_097_152;

/// Whether the new table only appends variants to enums and fields to the root struct of the old one. Each may be of
/// either form.
///
/// The area may hold anything, and its first `AREA` bytes are zero afterwards, also when a table is refused; later bytes
/// stay as they were. A shorter one is refused before all else, unchanged, and that names no table.
pub fn appends(old: &[u8], new: &[u8], area: &mut [u8]) -> Result<bool, (Option<Side>, Refused)> {
    let (mut place, mut which, mut yes) = (0, 0, 0);
    // SAFETY: each slice is lent with its own length; `area` is borrowed for us alone.
    let number = unsafe {
        ffi::reystavem_append(
            old.as_ptr(),
            old.len(),
            new.as_ptr(),
            new.len(),
            area.as_mut_ptr(),
            area.len(),
            &mut place,
            &mut which,
            &mut yes,
        )
    };
    let side = match (number, which) {
        (0, _) => return Ok(yes == 1),
        (25, _) => None,
        (_, 0) => Some(Side::Old),
        (_, _) => Some(Side::New),
    };
    Err((side, refused(number, place)))
}

/// How many bytes a frame may have, its closing zero among them.
pub const ROOM: usize = 2_048;

/// Collects chunks of a stream until a frame's closing zero, or waits for the end of a frame that is too long.
#[derive(Clone, Copy, Debug, PartialEq, Eq)]
pub struct Accumulator {
    pub array: [u8; ROOM],
    pub idx: u64,
    pub waiting: bool,
}

/// What a feed answers.
#[derive(Clone, Copy, Debug, PartialEq, Eq)]
pub enum Fed {
    /// 20: the chunk is taken, and the frame goes on.
    Consumed,
    /// 21: the frame is longer than the room; the state waits for its end, if that hasn't come.
    OverFull,
    /// 22: the frame can't be decoded.
    BadFrame,
    /// 23: a frame's message, of so many bytes, with zeros behind it.
    Frame { message: [u8; ROOM], len: usize },
    /// 24: the state says that more is filled than there is.
    BadState,
}

impl Default for Accumulator {
    fn default() -> Self {
        Accumulator::new()
    }
}

/// What a feed in lent memory answers: as `Fed`, but for the message, which stands in the memory.
#[derive(Clone, Copy, Debug, PartialEq, Eq)]
pub enum Step {
    Consumed,
    OverFull,
    BadFrame,
    Frame { len: usize },
    BadState,
}

/// One of the two feeds of the static library.
type Call = unsafe extern "C" fn(
    *mut u8,
    usize,
    *const u8,
    usize,
    *mut u8,
    usize,
    *mut u64,
    *mut u64,
    *mut u64,
    *mut u64,
) -> u64;

impl Accumulator {
    pub fn new() -> Self {
        Accumulator { array: [0; ROOM], idx: 0, waiting: false }
    }

    /// Feeds a chunk: the answer, and the part of the chunk that is still to be fed. Behind an over-full chunk without a
    /// zero the state waits, and drops what comes up to the next zero.
    pub fn feed<'c>(&mut self, chunk: &'c [u8]) -> (Fed, &'c [u8]) {
        let mut message = [0; ROOM];
        let (step, rest) = self.feed_lent(chunk, &mut message);
        (step.with(message), rest)
    }

    /// The same, and the message is written to memory that is lent: a frame's message, and zeros behind it, or zeros only.
    pub fn feed_lent<'c>(&mut self, chunk: &'c [u8], message: &mut [u8; ROOM]) -> (Step, &'c [u8]) {
        self.call(ffi::reystavem_feed, chunk, message)
    }

    /// Feeds a chunk as the label printers' bridge relies on it: nothing waits, and what doesn't fit of an over-full chunk
    /// is handed back.
    pub fn feed_bridge<'c>(&mut self, chunk: &'c [u8]) -> (Fed, &'c [u8]) {
        let mut message = [0; ROOM];
        let (step, rest) = self.feed_bridge_lent(chunk, &mut message);
        (step.with(message), rest)
    }

    /// The same, with the message in lent memory.
    pub fn feed_bridge_lent<'c>(&mut self, chunk: &'c [u8], message: &mut [u8; ROOM]) -> (Step, &'c [u8]) {
        self.call(ffi::reystavem_feed_bridge, chunk, message)
    }

    fn call<'c>(&mut self, feed: Call, chunk: &'c [u8], message: &mut [u8; ROOM]) -> (Step, &'c [u8]) {
        let (mut waiting, mut len, mut from) = (u64::from(self.waiting), 0, 0);
        // SAFETY: each slice is lent with its own length; array and message are borrowed for us alone.
        let number = unsafe {
            feed(
                self.array.as_mut_ptr(),
                ROOM,
                chunk.as_ptr(),
                chunk.len(),
                message.as_mut_ptr(),
                ROOM,
                &mut self.idx,
                &mut waiting,
                &mut len,
                &mut from,
            )
        };
        self.waiting = waiting != 0;
        let step = match number {
            20 => Step::Consumed,
            21 => Step::OverFull,
            22 => Step::BadFrame,
            23 => Step::Frame { len: len as usize },
            _ => Step::BadState,
        };
        (step, &chunk[from as usize..])
    }
}

impl Step {
    /// The answer with its message.
    fn with(self, message: [u8; ROOM]) -> Fed {
        match self {
            Step::Consumed => Fed::Consumed,
            Step::OverFull => Fed::OverFull,
            Step::BadFrame => Fed::BadFrame,
            Step::Frame { len } => Fed::Frame { message, len },
            Step::BadState => Fed::BadState,
        }
    }
}

/// Writes a message as a COBS frame with its closing zero: how many bytes were written. Fed in any chunks to an empty
/// [`Accumulator`], a frame of at most [`ROOM`] bytes gives the message again; a message of 2,038 bytes or fewer always has
/// such a frame. Refused with 12, exactly if the frame is longer than the output, which is then unchanged.
///
/// ```
/// let mut out = [0; 8];
/// let len = reystavem::frame(&[0x11, 0x22, 0x00, 0x33], &mut out).unwrap();
/// assert_eq!(out[..len], [0x03, 0x11, 0x22, 0x02, 0x33, 0x00]);
/// ```
#[inline]
pub fn frame(message: &[u8], out: &mut [u8]) -> Result<usize, Refused> {
    let mut place = 0;
    // SAFETY: each slice is lent with its own length; `out` is borrowed for us alone.
    let number =
        unsafe { ffi::reystavem_frame(message.as_ptr(), message.len(), out.as_mut_ptr(), out.len(), &mut place) };
    match number {
        0 => Ok(place as usize),
        _ => Err(refused(number, place)),
    }
}

/// Takes one item of kind 0 to 13 or 20 to 31 at a place of the message: its entry, and the place behind it.
pub fn take(kind: u64, message: &[u8], place: usize) -> Result<(Entry, usize), Refused> {
    let (mut behind, mut first, mut second, mut at) = (place as u64, 0, 0, 0);
    // SAFETY: the slice is lent with its own length; the numbers are ours.
    let number = unsafe {
        ffi::reystavem_take(
            kind,
            message.as_ptr(),
            message.len(),
            &mut behind,
            &mut first,
            &mut second,
            &mut at,
        )
    };
    match number {
        0 => {
            let place = at as usize;
            Ok((Entry { first, second, place }, behind as usize))
        }
        2 => Err(refused(number, 0)),
        _ => Err(refused(number, behind)),
    }
}

/// A message and a place in it, from which single items are taken.
#[derive(Clone, Copy, Debug, PartialEq, Eq)]
pub struct Deserializer<'m> {
    message: &'m [u8],
    place: usize,
}

impl<'m> Deserializer<'m> {
    pub fn new(message: &'m [u8]) -> Self {
        Deserializer { message, place: 0 }
    }

    /// Takes one item of kind 0 to 13 or 20 to 31 and goes behind it. A refusal keeps the place.
    pub fn take(&mut self, kind: u64) -> Result<Entry, Refused> {
        let (entry, behind) = take(kind, self.message, self.place)?;
        self.place = behind;
        Ok(entry)
    }

    /// The bytes from the place on.
    pub fn rest(&self) -> &'m [u8] {
        self.message.get(self.place..).unwrap_or(&[])
    }
}

/// Finds one item of kind 0 to 13 or 20 to 31, with no store for the others: its entry, as `read` puts it into a store
/// of 16,384 entries.
///
/// The path leads to it from the root: at a struct a field's position, from 0 on, at an option 0; an empty one means the
/// root. What follows the item isn't looked at; what a reading refuses before the item or at it is refused the same. An
/// option on the path that is absent is refused at its own place.
///
/// ```
/// # let table = reystavem::samples::TABLE_T;
/// let store = reystavem::find(table, &[0], &[0xac, 0x02, 0x05, 0x03]).unwrap();
/// assert_eq!((store.first, store.place), (300, 0));
/// ```
#[inline]
pub fn find(table: &[u8], path: &[u64], message: &[u8]) -> Result<Entry, Refused> {
    let (mut place, mut first, mut second) = (0, 0, 0);
    // SAFETY: each slice is lent with its own length; the numbers are ours.
    let number = unsafe {
        ffi::reystavem_find(
            table.as_ptr(),
            table.len(),
            path.as_ptr(),
            path.len(),
            message.as_ptr(),
            message.len(),
            &mut place,
            &mut first,
            &mut second,
        )
    };
    match number {
        0 => Ok(Entry {
            first,
            second,
            place: place as usize,
        }),
        _ => Err(refused(number, place)),
    }
}

/// One of the two messages that are compared.
#[derive(Clone, Copy, Debug, PartialEq, Eq)]
pub enum Message {
    One,
    Other,
}

/// Lists the items in which two messages differ, in reading order: how many pairs of places stand in front in the list
/// (`differences`), none exactly if the values are the same. Words behind them stay as they were.
///
/// Where an option, a variant, or a number of elements or pairs differs, that item is listed and its inside isn't
/// compared. Texts and bytes compare by content and floats by bits; how long a varint is, and a rest behind a message,
/// don't count. Each message is read as with a store of 16,384 entries, and a refusal of one of them names it. A list
/// has room for half of its words in pairs, rounded down; that it is too short comes last. On a refusal it is unchanged.
///
/// ```
/// # let table = reystavem::samples::TABLE_T;
/// let mut list = [0; 8];
/// let count = reystavem::compare(table, &[0xac, 0x02, 0x05, 0x03], &[0xac, 0x02, 0x05, 0x05], &mut list).unwrap();
/// let places: Vec<_> = reystavem::differences(&list).take(count).collect();
/// assert_eq!(places, [(3, 3)]);
/// ```
#[inline]
pub fn compare(table: &[u8], one: &[u8], other: &[u8], list: &mut [u64]) -> Result<usize, (Option<Message>, Refused)> {
    let (mut place, mut which, mut count) = (0, 0, 0);
    // SAFETY: each slice is lent with its own length; `list` is borrowed for us alone.
    let number = unsafe {
        ffi::reystavem_compare(
            table.as_ptr(),
            table.len(),
            one.as_ptr(),
            one.len(),
            other.as_ptr(),
            other.len(),
            list.as_mut_ptr(),
            list.len(),
            &mut place,
            &mut which,
            &mut count,
        )
    };
    let message = match (number, which) {
        (0, _) => return Ok(count as usize),
        (1 | 2 | 15, _) => None,
        (_, 0) => Some(Message::One),
        (_, _) => Some(Message::Other),
    };
    Err((message, refused(number, place)))
}

/// The pairs of places that a list holds: an item's in the one message, and in the other.
pub fn differences(list: &[u64]) -> impl Iterator<Item = (usize, usize)> + '_ {
    list.chunks_exact(2).map(|pair| (pair[0] as usize, pair[1] as usize))
}

/// Writes a night batch of messages that are laid end to end: the messages, a row of 16 bytes for each, sorted by store,
/// product and offset, and a trailer of 12 bytes. How many bytes were written.
///
/// The fields are places in the table's root struct, of a store (u32) and a product (u64). Each message is read as with a
/// store of 16,384 entries; a refusal has its place in the whole input. Every message is read before the output is looked
/// at, and on a refusal it is unchanged.
///
/// ```
/// # let table = reystavem::samples::TABLE_T;
/// let mut out = [0; 64];
/// let len = reystavem::batch_write(table, &[0xac, 0x02, 0x05, 0x03, 0x07, 0x05, 0x00], 0, 1, &mut out).unwrap();
/// let batch = &out[..len];
/// assert_eq!(reystavem::batch_check(table, batch), Ok(()));
/// assert_eq!(reystavem::batch_last(table, batch, 300, 5), Ok(&[0xac, 0x02, 0x05, 0x03][..]));
/// ```
pub fn batch_write(
    table: &[u8],
    messages: &[u8],
    store_field: u64,
    product_field: u64,
    out: &mut [u8],
) -> Result<usize, Refused> {
    let mut place = 0;
    // SAFETY: each slice is lent with its own length; `out` is borrowed for us alone.
    let number = unsafe {
        ffi::reystavem_batch_write(
            table.as_ptr(),
            table.len(),
            messages.as_ptr(),
            messages.len(),
            store_field,
            product_field,
            out.as_mut_ptr(),
            out.len(),
            &mut place,
        )
    };
    match number {
        0 => Ok(place as usize),
        _ => Err(refused(number, place)),
    }
}

/// Whether a batch is good as a whole: it reads from its first byte to its rows, message after message, and its rows and
/// trailer are those of these messages.
///
/// From 32,768 bytes of messages on it wants 256 KiB of stack; so does [`batch_compact`].
pub fn batch_check(table: &[u8], batch: &[u8]) -> Result<(), Refused> {
    let mut place = 0;
    // SAFETY: each slice is lent with its own length, and `place` is ours.
    let number = unsafe {
        ffi::reystavem_batch_check(table.as_ptr(), table.len(), batch.as_ptr(), batch.len(), &mut place)
    };
    match number {
        0 => Ok(()),
        _ => Err(refused(number, place)),
    }
}

/// The last message of a store and product, its bytes as a part of the batch, found from the rows.
///
/// On a batch that passes `batch_check` this is what reading every message from the front would find. On another one it
/// refuses a bad trailer and an offset that isn't before the rows; what it answers otherwise isn't fixed.
#[inline]
pub fn batch_last<'b>(table: &[u8], batch: &'b [u8], store: u64, product: u64) -> Result<&'b [u8], Refused> {
    let (mut place, mut from, mut len) = (0, 0, 0);
    // SAFETY: each slice is lent with its own length; the numbers are ours.
    let number = unsafe {
        ffi::reystavem_batch_last(
            table.as_ptr(),
            table.len(),
            batch.as_ptr(),
            batch.len(),
            store,
            product,
            &mut place,
            &mut from,
            &mut len,
        )
    };
    match number {
        0 => Ok(&batch[from as usize..][..len as usize]),
        _ => Err(refused(number, place)),
    }
}

/// Writes a batch that holds, of each store and product, only the last message, its bytes as they were, in the old order,
/// with rows made afresh. How many bytes were written; the batch's own length is always enough.
///
/// Every last message is the same afterwards, and another compaction changes nothing. A batch is refused as by
/// `batch_check`, before the output is looked at, and on a refusal that is unchanged.
pub fn batch_compact(table: &[u8], batch: &[u8], out: &mut [u8]) -> Result<usize, Refused> {
    let mut place = 0;
    // SAFETY: each slice is lent with its own length; `out` is borrowed for us alone.
    let number = unsafe {
        ffi::reystavem_batch_compact(
            table.as_ptr(),
            table.len(),
            batch.as_ptr(),
            batch.len(),
            out.as_mut_ptr(),
            out.len(),
            &mut place,
        )
    };
    match number {
        0 => Ok(place as usize),
        _ => Err(refused(number, place)),
    }
}

/// Writes a message as a row of CSV (RFC 4180): its fields in order with commas between them, then CR and LF. How many
/// bytes were written.
///
/// The table's root is a struct of at most 1,024 fields, all of kinds 0 to 13 or 20 to 31; another table is refused before
/// the message is looked at. Integers stand in decimal, a bool as 0 or 1, a float as its bits in decimal, a char and a
/// text in quotes with quotes doubled, bytes in quotes as lower-case hex. The message is read as with a store of 16,384
/// entries, and a rest behind it doesn't count; that the output is too short comes last. On a refusal it is unchanged.
///
/// ```
/// # let table = reystavem::samples::TABLE_T;
/// let mut out = [0; 64];
/// let len = reystavem::csv_export(table, &[0xac, 0x02, 0x05, 0x03], &mut out).unwrap();
/// assert_eq!(&out[..len], b"300,5,-2\r\n");
/// ```
#[inline]
pub fn csv_export(table: &[u8], message: &[u8], out: &mut [u8]) -> Result<usize, Refused> {
    csv_by(ffi::reystavem_csv_export, table, message, out)
}

/// Writes the message of a row, in its shortest form: how many bytes were written.
///
/// Only the one spelling is taken that [`csv_export`] writes, so that the row's export is the row again. Any other input is
/// refused at the first byte where no exported row of the table goes on, at its length if it ends early, at the first byte
/// behind the row if more follows; before that a table without rows, and last an output that is too short. On a refusal the
/// output is unchanged.
///
/// ```
/// # let table = reystavem::samples::TABLE_T;
/// let mut out = [0; 16];
/// let len = reystavem::csv_import(table, b"300,5,-2\r\n", &mut out).unwrap();
/// assert_eq!(out[..len], [0xac, 0x02, 0x05, 0x03]);
/// let refused = reystavem::csv_import(table, b"300,05,-2\r\n", &mut out).unwrap_err();
/// assert_eq!((refused.why, refused.place), (reystavem::Why::Row, 5));
/// ```
#[inline]
pub fn csv_import(table: &[u8], row: &[u8], out: &mut [u8]) -> Result<usize, Refused> {
    csv_by(ffi::reystavem_csv_import, table, row, out)
}

type Csv = unsafe extern "C" fn(
    table: *const u8,
    table_len: usize,
    input: *const u8,
    input_len: usize,
    out: *mut u8,
    out_len: usize,
    place: *mut u64,
) -> u64;

#[inline]
fn csv_by(call: Csv, table: &[u8], input: &[u8], out: &mut [u8]) -> Result<usize, Refused> {
    let mut place = 0;
    // SAFETY: each slice is lent with its own length; `out` is borrowed for us alone.
    let number = unsafe {
        call(
            table.as_ptr(),
            table.len(),
            input.as_ptr(),
            input.len(),
            out.as_mut_ptr(),
            out.len(),
            &mut place,
        )
    };
    match number {
        0 => Ok(place as usize),
        _ => Err(refused(number, place)),
    }
}

/// Tables to try things with.
pub mod samples {
    /// Document 01's table T: a struct of a store (u32), a product (u64) and a count (i32).
    pub const TABLE_T: &[u8] = &[
        0x07, 0, 0, 0, 0, 0, 0x08, 0, 0, 0, 0, 0, 0x03, 0, 0, 0, 0, 0, 0x12, 0, 0, 0, 3, 0, 0, 0, 1, 0, 2, 0, 6, 0,
        0x1e, 0, 4, 0, 3, 0, 0x53, 0x50,
    ];
}
