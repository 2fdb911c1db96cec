//! The schema table, from 01 and, for the second form of its file, from T-10.

use crate::Refusal;

pub const BOOL: u8 = 0;
pub const I8: u8 = 1;
pub const I16: u8 = 2;
pub const I32: u8 = 3;
pub const I64: u8 = 4;
pub const U8: u8 = 5;
pub const U16: u8 = 6;
pub const U32: u8 = 7;
pub const U64: u8 = 8;
pub const F32: u8 = 9;
pub const F64: u8 = 10;
pub const CHAR: u8 = 11;
pub const STR: u8 = 12;
pub const BYTES: u8 = 13;
pub const UNIT: u8 = 14;
pub const OPTION: u8 = 15;
pub const SEQ: u8 = 16;
pub const MAP: u8 = 17;
pub const STRUCT: u8 = 18;
pub const ENUM: u8 = 19;
/// 20 to 25 little-endian i16, i32, i64, u16, u32, u64; 26 to 31 the same big-endian.
pub const FIX_FIRST: u8 = 20;
pub const FIX_LAST: u8 = 31;

/// A form of a table's file, which its last two bytes choose.
#[derive(Clone, Copy, Debug, PartialEq, Eq)]
pub struct Form {
    pub mark: [u8; 2],
    /// The bytes of C, and those of D.
    wide: usize,
    /// Most nodes, and most places in the child list.
    pub nodes: usize,
    pub places: usize,
}

pub const FIRST: Form = Form { mark: [0x53, 0x50], wide: 2, nodes: 256, places: 1_024 };
pub const SECOND: Form = Form { mark: [0x57, 0x50], wide: 4, nodes: 4_096, places: 32_768 };

impl Form {
    /// The trailer's length: C and D, the node count, the root and the mark.
    pub fn trailer(&self) -> usize {
        2 * self.wide + 6
    }
}

/// The longest chain of children, a leaf counting 1.
pub const CHAIN: usize = 256;

#[derive(Clone, Debug, PartialEq, Eq)]
pub struct Node {
    pub kind: u8,
    /// Children, already looked up: option and sequence one, map key and value,
    /// struct and enum their part of the child list.
    pub kids: Vec<usize>,
}

impl Node {
    /// The children whose entries follow one of this node with such a first word, and how often they do.
    pub fn behind(&self, w0: u64) -> (u64, &[usize]) {
        match self.kind {
            OPTION | SEQ | MAP => (w0, &self.kids),
            ENUM => (1, &self.kids[w0 as usize..][..1]),
            _ => (1, &self.kids),
        }
    }
}

#[derive(Clone, Debug, PartialEq, Eq)]
pub struct Table {
    pub nodes: Vec<Node>,
    pub root: usize,
}

impl Table {
    /// A table of one node without children.
    pub fn leaf(kind: u8) -> Table {
        Table { nodes: vec![Node { kind, kids: vec![] }], root: 0 }
    }

    pub fn parse(file: &[u8]) -> Result<Table, Refusal> {
        let bad_trailer = Refusal { no: 1, place: 0 };
        let form = [FIRST, SECOND].into_iter().find(|form| file.ends_with(&form.mark)).ok_or(bad_trailer)?;
        let body = file.len().checked_sub(form.trailer()).ok_or(bad_trailer)?;
        let number = |p: usize, len: usize| file[p..p + len].iter().rev().fold(0, |x, &b| x << 8 | usize::from(b));
        let u16_at = |p: usize| number(p, 2);
        let (c, d) = (number(body, form.wide), number(body + form.wide, form.wide));
        let (n, root) = (u16_at(body + 2 * form.wide), u16_at(body + 2 * form.wide + 2));
        let good = (1..=form.nodes).contains(&n)
            && root < n
            && c % 2 == 0
            && c / 2 <= form.places
            && d == 6 * n + c
            && d <= body;
        if !good {
            return Err(bad_trailer);
        }

        let (records, list) = (body - d, body - c);
        let mut nodes = Vec::with_capacity(n);
        let mut chains: Vec<usize> = Vec::with_capacity(n);
        for i in 0..n {
            let p = records + 6 * i;
            let (kind, zero, a, b) = (file[p], file[p + 1], u16_at(p + 2), u16_at(p + 4));
            let named: Option<Vec<usize>> = match kind {
                BOOL..=UNIT | FIX_FIRST..=FIX_LAST => (a == 0 && b == 0).then(Vec::new),
                OPTION | SEQ => (b == 0).then(|| vec![a]),
                MAP => Some(vec![a, b]),
                STRUCT | ENUM => {
                    let fits = a + b <= c / 2 && if kind == ENUM { b >= 1 } else { b > 0 || a == 0 };
                    fits.then(|| (a..a + b).map(|k| u16_at(list + 2 * k)).collect())
                }
                _ => None,
            };
            let bad_record = Refusal { no: 2, place: i };
            let kids = named.filter(|kids| zero == 0 && kids.iter().all(|&k| k < i)).ok_or(bad_record)?;
            let chain = 1 + kids.iter().map(|&k| chains[k]).max().unwrap_or(0);
            if chain > CHAIN {
                return Err(bad_record);
            }
            chains.push(chain);
            nodes.push(Node { kind, kids });
        }
        Ok(Table { nodes, root })
    }

    /// A file of the first form that `parse` makes this table of.
    pub fn file(&self) -> Vec<u8> {
        self.file_in(FIRST)
    }

    pub fn file_in(&self, form: Form) -> Vec<u8> {
        self.file_with(form, &[], &[])
    }

    /// The same, with places in front of the child list that are there already, and a note.
    pub fn file_with(&self, form: Form, list: &[u16], note: &[u8]) -> Vec<u8> {
        let mut list = list.to_vec();
        let mut records = vec![];
        for node in &self.nodes {
            let kids: Vec<u16> = node.kids.iter().map(|&k| k as u16).collect();
            let (a, b) = match node.kind {
                OPTION | SEQ => (kids[0], 0),
                MAP => (kids[0], kids[1]),
                STRUCT | ENUM if !kids.is_empty() => {
                    // A part of the list that already says the same may serve again. A long list isn't searched.
                    let searched = &list[..list.len().min(FIRST.places)];
                    let shared = searched.windows(kids.len()).position(|w| w == kids);
                    let a = shared.unwrap_or_else(|| {
                        list.extend(&kids);
                        list.len() - kids.len()
                    });
                    (a as u16, kids.len() as u16)
                }
                _ => (0, 0),
            };
            records.extend([node.kind, 0]);
            records.extend(a.to_le_bytes());
            records.extend(b.to_le_bytes());
        }
        let (c, d) = (2 * list.len(), 2 * list.len() + records.len());
        let mut file = [note, &records].concat();
        list.iter().for_each(|k| file.extend(k.to_le_bytes()));
        for (x, wide) in [(c, form.wide), (d, form.wide), (self.nodes.len(), 2), (self.root, 2)] {
            file.extend(&x.to_le_bytes()[..wide]);
        }
        file.extend(form.mark);
        file
    }
}
