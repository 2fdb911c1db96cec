//! Odd wire forms, good and bad.

use oracle_driver::model::{encode_char, shortest, Style, Width, W64};
use oracle_driver::rng::Rng;

/// Encodings of a char item, good and bad, whole.
pub fn odd_chars() -> Vec<Vec<u8>> {
    let mut list: Vec<Vec<u8>> = vec![
        vec![0],
        vec![5],
        vec![6, 0x61],
        vec![4],
        vec![1],
        vec![2, 0x61],
        vec![0x80],
        vec![0x81, 0, 0x61],
        vec![0x80, 0],
    ];
    list.push(shortest(u64::MAX));
    list.push([vec![0xFF; 9], vec![2]].concat());
    for text in odd_texts() {
        if text.len() <= 5 {
            list.push([vec![text.len() as u8], text].concat());
        }
    }
    list
}

/// Byte strings at the edges of UTF-8, good and bad.
pub fn odd_texts() -> Vec<Vec<u8>> {
    let mut list: Vec<Vec<u8>> = [
        &b""[..],
        b"a",
        b"ab",
        b"abcd",
        b"abcde",
        b"\x00",
        b"\x7F",
        b"\x80",
        b"\xBF",
        b"\xC0\x80",
        b"\xC1\xBF",
        b"\xC2\x80",
        b"\xDF\xBF",
        b"\xC2",
        b"\xC2\x7F",
        b"\xC2\xC0",
        b"\xE0\x9F\xBF",
        b"\xE0\xA0\x80",
        b"\xE0\xA0",
        b"\xE0\x80\x80",
        b"\xEC\xBF\xBF",
        b"\xED\x9F\xBF",
        b"\xED\xA0\x80",
        b"\xED\xBF\xBF",
        b"\xEE\x80\x80",
        b"\xEF\xBF\xBF",
        b"\xEF\xBF\xC0",
        b"\xE1\x80",
        b"\xF0\x8F\xBF\xBF",
        b"\xF0\x90\x80\x80",
        b"\xF3\xBF\xBF\xBF",
        b"\xF4\x8F\xBF\xBF",
        b"\xF4\x90\x80\x80",
        b"\xF5\x80\x80\x80",
        b"\xF8\x88\x80\x80",
        b"\xFE",
        b"\xFF",
        b"\xF0\x9F\x98",
        b"\xF0\x9F\x98\x7F",
        b"ab\xFF",
        b"a\xC3",
        b"\xC3\xA9ab",
        b"a\xC3\xA9b",
        b"ab\xC3\xA9",
        b"\xE2\x82\xACa",
        b"a\xE2\x82\xAC",
        b"\xE2\x82\xAC\x80",
        b"\xF0\x9F\x98\x80a",
        b"a\xF0\x9F\x98\x80",
        b"\xED\xA0\xBD\xED\xB8\x80",
        b"\xEF\xBB\xBFa",
        b"0123456789abcdef0123456789abcde\xC3",
        b"0123456789abcdef\xFF123456789abcdef",
    ]
    .iter()
    .map(|s| s.to_vec())
    .collect();
    for c in [0x7F, 0x80, 0x7FF, 0x800, 0xD7FF, 0xE000, 0xFFFF, 0x10000, 0x10FFFF] {
        list.push(encode_char(c));
    }
    list
}

/// Varints at the edges of a width, good and bad.
pub fn odd_varints(Width(most, last): Width) -> Vec<Vec<u8>> {
    let mut list: Vec<Vec<u8>> = vec![vec![]];
    let top = if most == 10 { u64::MAX } else { (1u64 << (7 * (most - 1) + last.count_ones() as usize)) - 1 };
    for v in [
        0,
        1,
        2,
        0x7F,
        0x80,
        0xFF,
        0x100,
        0x3FFF,
        0x4000,
        0x7FFF,
        0x8000,
        0xFFFF,
        0x1F_FFFF,
        0x20_0000,
        1 << 31,
        u32::MAX as u64,
        1 << 32,
        1 << 62,
        1 << 63,
        u64::MAX - 1,
    ] {
        list.push(shortest(v.min(top)));
        list.push(shortest(top - v.min(top)));
        list.push(shortest(v)); // past the width for the narrow ones
    }
    for len in 1..=most + 1 {
        for fill in [0x80, 0xFF, 0x81] {
            list.push(vec![fill; len]); // ends inside, or never ends
            for end in [0, 1, 2, 3, 4, 0x0F, 0x10, 0x7F, last, last + 1, last | 0x80] {
                let mut v = vec![fill; len - 1];
                v.push(end);
                list.push(v);
            }
        }
    }
    list
}

/// Every byte string of up to so many bytes below a limit.
pub fn all_below(limit: u8, most: usize) -> Vec<Vec<u8>> {
    let mut all = vec![vec![]];
    let mut longest = all.clone();
    for _ in 0..most {
        longest = (0..limit).flat_map(|last| longest.iter().map(move |m| [&m[..], &[last]].concat())).collect();
        all.extend(longest.clone());
    }
    all
}

/// A varint of the same value and so many bytes.
pub fn padded_to(mut varint: Vec<u8>, len: usize) -> Vec<u8> {
    while varint.len() < len {
        *varint.last_mut().expect("a varint has a byte") |= 0x80;
        varint.push(0);
    }
    varint
}

/// Writes overlong varints and odd chars now and then, and past the width sometimes.
pub struct Odd<'r> {
    pub rng: &'r mut Rng,
    pub past: bool,
}

impl Style for Odd<'_> {
    fn varint(&mut self, Width(most, _): Width, value: u64) -> Vec<u8> {
        let v = shortest(value);
        if self.rng.chance(2) {
            let most = if self.past && self.rng.chance(4) { most + 1 } else { most };
            let len = self.rng.from_to(v.len(), most.max(v.len()));
            return padded_to(v, len);
        }
        v
    }
    fn char(&mut self, code: u32) -> Vec<u8> {
        if self.rng.chance(3) {
            let list = odd_chars();
            return self.rng.pick(&list).clone();
        }
        let utf8 = encode_char(code);
        [self.varint(W64, utf8.len() as u64), utf8].concat()
    }
}
