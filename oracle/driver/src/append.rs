//! Old table, new table: the append question, from 01, and from T-10 what the lent area adds to it.

use crate::table::{Table, ENUM, STRUCT};
use crate::Refusal;

/// What a refusal names: a table, or neither.
#[derive(Clone, Copy, Debug, PartialEq, Eq)]
pub enum Which {
    Old,
    New,
    Neither,
}

/// The bytes of the lent work area that the question needs.
pub const AREA: usize = 2_097_152;

/// Does `new` append to `old`? The area's length is looked at first, and the old table is checked whole before the new
/// one. What the area holds doesn't matter.
pub fn appends(old: &[u8], new: &[u8], area_len: usize) -> Result<bool, (Refusal, Which)> {
    if area_len < AREA {
        return Err((Refusal { no: 25, place: 0 }, Which::Neither));
    }
    let old = Table::parse(old).map_err(|r| (r, Which::Old))?;
    let new = Table::parse(new).map_err(|r| (r, Which::New))?;
    let mut pairs = Pairs { old: &old, new: &new, known: vec![UNKNOWN; old.nodes.len() * new.nodes.len()] };
    let (o, n) = (&old.nodes[old.root], &new.nodes[new.root]);
    Ok(pairs.matching(old.root, new.root) || (o.kind == STRUCT && n.kind == STRUCT && pairs.prefix(&o.kids, &n.kids)))
}

struct Pairs<'t> {
    old: &'t Table,
    new: &'t Table,
    /// Each pair of nodes is compared once. What was found of it: nothing yet (0), no or yes.
    known: Vec<u8>,
}

const UNKNOWN: u8 = 0;
const NO: u8 = 1;
const YES: u8 = 2;

impl Pairs<'_> {
    fn matching(&mut self, o: usize, n: usize) -> bool {
        let slot = o * self.new.nodes.len() + n;
        if self.known[slot] != UNKNOWN {
            return self.known[slot] == YES;
        }
        let (old, new) = (&self.old.nodes[o], &self.new.nodes[n]);
        let answer = old.kind == new.kind
            && (old.kind == ENUM || old.kids.len() == new.kids.len())
            && self.prefix(&old.kids, &new.kids);
        self.known[slot] = if answer { YES } else { NO };
        answer
    }

    /// The old children match the new table's first ones.
    fn prefix(&mut self, old: &[usize], new: &[usize]) -> bool {
        old.len() <= new.len() && old.iter().zip(new).all(|(&o, &n)| self.matching(o, n))
    }
}
