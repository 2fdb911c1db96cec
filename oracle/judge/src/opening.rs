//! The reader with a lent list of open items: each reading again, with a list of some length, and with one too short.
use crate::calls::{lent, read_right, same, Differs};
use oracle_driver::ReadAnswer;
use reystavem::{Read, ReadRefused, Refused, Why, OPEN};

type Reader = for<'m> fn(&[u8], &'m [u8], &mut [u64], &mut [u64]) -> Result<Read<'m>, ReadRefused>;

/// The list is long enough, and by up to three words longer.
pub fn reading(ours: Reader, right: &ReadAnswer, table: &[u8], message: &[u8], words: usize) -> Result<(), Differs> {
    let mut store = lent(words);
    let mut list = lent(OPEN + message.len() % 4);
    let mut after = list.clone();
    after[..OPEN].fill(0);
    let answer = ours(table, message, &mut store, &mut list);
    read_right(answer, &store, right, message)?;
    same("list of open items", &list, &after)?;
    short_list(ours, table, message, words)
}

/// 22 before all others, with nothing changed.
fn short_list(ours: Reader, table: &[u8], message: &[u8], words: usize) -> Result<(), Differs> {
    let mut store = lent(words);
    let mut list = lent([0, 4, OPEN - 4, OPEN - 1][message.len() % 4]);
    let refused = ReadRefused { refused: Refused { why: Why::Open, place: 0 }, count: 0 };
    same("a short list", ours(table, message, &mut store, &mut list), Err(refused))?;
    same("store by a short list", &store, &lent(words))?;
    same("a short list of open items", &list, &lent(list.len()))
}
