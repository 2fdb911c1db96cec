//! The stream of CSV rows: tables that have rows and tables that have none, messages exported, and rows imported as they are
//! or with one thing changed, often one byte.

use crate::forms::{odd_texts, Odd};
use crate::tables::{leaf, rooted, with};
use crate::{Gen, Go};
use oracle_driver::csv::{self, numbers, row, spelling, Value, FIELDS};
use oracle_driver::model;
use oracle_driver::proto::hex;
use oracle_driver::table::*;
use oracle_driver::{ENTRIES, WORDS};

/// The kinds that a field may have.
const KINDS: [u8; 26] = [0, 1, 2, 3, 4, 5, 6, 7, 8, 9, 10, 11, 12, 13, 20, 21, 22, 23, 24, 25, 26, 27, 28, 29, 30, 31];

/// Room for every message here.
const ROOM: usize = 1 << 16;

/// Bytes that mean something in a row, and their neighbours.
const BYTES_OF_ROWS: &[u8] =
    b"\"\"\"\",,\r\n0012589-+ .'`afgAFGex/:;!#\0\t\x0B\x7F\x80\x8F\x90\x9F\xA0\xBF\xC0\xC2\xDF\xE0\xED\xEF\xF0\xF4\xF5\xFF";

/// Texts that a careless row breaks on.
const TEXTS: [&str; 20] = [
    "",
    "\"",
    "\"\"",
    "\"\"\"",
    ",",
    "\r\n",
    "\r",
    "\n",
    "\0",
    "a",
    "\",\"",
    "a\"b",
    "\"\r\n",
    "0",
    "=1+1",
    " x ",
    "é",
    "\u{FEFF}",
    "\u{10FFFF}",
    "\",\r\n\"",
];

/// A struct of fields of these kinds, each a node of its own.
fn struct_of(kinds: &[u8]) -> Table {
    let mut nodes: Vec<Node> = kinds.iter().map(|&kind| leaf(kind)).collect();
    nodes.push(with(STRUCT, &(0..kinds.len()).collect::<Vec<usize>>()));
    rooted(nodes)
}

/// A struct of many fields of one kind.
fn many(kind: u8, count: usize) -> Table {
    rooted(vec![leaf(kind), with(STRUCT, &vec![0; count])])
}

/// The numbers at a range's edges and at its powers of ten, also such that are just outside.
fn edges(low: i128, high: i128) -> Vec<i128> {
    let mut all: Vec<i128> = [0, low, high].iter().flat_map(|x| [x - 1, *x, x + 1]).collect();
    all.extend([high * 10, high * 10 + 9, low * 10, high + 10, (high + 1) / 10, high / 10]);
    let mut ten = 10;
    while ten <= 10 * high {
        all.extend([ten - 1, ten, 1 - ten, -ten]);
        ten *= 10;
    }
    all
}

impl Gen {
    fn export(&mut self, file: &[u8], message: &[u8], out_len: usize) -> Go {
        self.line('X', format_args!("{} {} {out_len:x}", hex(file), hex(message)))
    }
    fn import(&mut self, file: &[u8], row: &[u8], out_len: usize) -> Go {
        self.line('M', format_args!("{} {} {out_len:x}", hex(file), hex(row)))
    }

    pub fn csv_round(&mut self) -> Go {
        let kinds = self.kinds();
        let file = {
            let t = struct_of(&kinds);
            self.file(&t)
        };
        let times = if kinds.len() > 40 { 1 } else { 4 };
        for _ in 0..times {
            let values: Vec<Value> = kinds.iter().map(|&kind| self.field(kind)).collect();
            self.there_and_back(&file, &values)?;
            let row = row(&values);
            for _ in 0..3 {
                let out_len = self.room_for(row.len());
                self.import(&file, &row, out_len)?;
                let broken = self.broken_row(&row);
                self.import(&file, &broken, ROOM)?;
            }
            if let Some(respelt) = self.respelt(&kinds, &values) {
                self.import(&file, &respelt, ROOM)?;
            }
        }
        self.no_rows(&file)
    }

    fn kinds(&mut self) -> Vec<u8> {
        let most = *self.rng.pick(&[0, 1, 1, 2, 3, 5, 8]);
        let count = if self.rng.chance(100) { self.rng.from_to(100, 200) } else { self.rng.from_to(0, most) };
        (0..count)
            .map(|_| if self.rng.chance(3) { self.rng.from_to(11, 13) as u8 } else { *self.rng.pick(&KINDS) })
            .collect()
    }

    /// Mostly room enough.
    fn room_for(&mut self, len: usize) -> usize {
        match self.rng.below(6) {
            0 => self.rng.below(len + 1),
            1 => len.saturating_sub(1),
            2 => len,
            _ => len + self.rng.below(600),
        }
    }

    /// A value of a field.
    fn field(&mut self, kind: u8) -> Value {
        if let Some(all) = numbers(kind) {
            let (low, high) = (*all.start(), *all.end());
            let near = edges(low, high);
            let x = match self.rng.below(3) {
                0 => *self.rng.pick(&near),
                1 => self.rng.below(300) as i128,
                _ => low + (i128::from(self.rng.word() >> self.rng.below(64)) & (high - low)),
            };
            return Value::Number(x.clamp(low, high));
        }
        let text: String = (0..self.rng.below(4)).map(|_| *self.rng.pick(&TEXTS)).collect();
        match kind {
            CHAR if self.rng.chance(3) => Value::Char(*self.rng.pick(&['"', ',', '\r', '\n', '\0', '-', '0'])),
            CHAR => Value::Char(char::from_u32(self.rng.below(0x11_0000) as u32).unwrap_or('\u{FFFF}')),
            STR => Value::Text(text),
            _ if self.rng.chance(3) => Value::Bytes(text.into_bytes()),
            _ => {
                let len = self.rng.below(9);
                Value::Bytes(self.rng.bytes(len))
            }
        }
    }

    /// The values' message exported: whole, with a rest, ended, spoilt, and in other forms.
    fn there_and_back(&mut self, file: &[u8], values: &[Value]) -> Go {
        let row = row(values);
        let message = csv::import(file, &row, ROOM).expect("a row of our own");
        let out_len = self.room_for(row.len());
        self.export(file, &message, out_len)?;
        let len = self.rng.below(4);
        let rest = self.odd_bytes(len);
        self.export(file, &[&message[..], &rest].concat(), row.len())?;
        if !message.is_empty() {
            let p = self.rng.below(message.len());
            self.export(file, &message[..p], row.len())?;
            let mut m = message.clone();
            m[p] = self.odd_byte();
            self.export(file, &m, row.len() + 40)?;
        }
        let t = Table::parse(file).expect("a table of our own");
        let entries = model::read(file, &message, WORDS * ENTRIES).entries;
        let past = self.rng.chance(4);
        let m = model::write_good(&t, &entries, &message, &mut Odd { rng: &mut self.rng, past });
        self.export(file, &m, row.len())
    }

    /// A row with one byte changed, left out, put in or doubled, or cut, or with something behind it.
    fn broken_row(&mut self, row: &[u8]) -> Vec<u8> {
        let p = self.rng.below(row.len());
        let b = if self.rng.chance(6) { self.rng.byte() } else { *self.rng.pick(BYTES_OF_ROWS) };
        let (front, behind) = (&row[..p], &row[p + 1..]);
        match self.rng.below(9) {
            0 => [front, behind].concat(),
            1 | 2 => [front, &[b], &row[p..]].concat(),
            3 => [front, &row[p..=p], &row[p..]].concat(),
            4 => front.to_vec(),
            5 => [row, &[b]].concat(),
            6 => [row, row].concat(),
            _ => [front, &[b], behind].concat(),
        }
    }

    /// The row with one field in a spelling that it hasn't, or that of another value.
    fn respelt(&mut self, kinds: &[u8], values: &[Value]) -> Option<Vec<u8>> {
        let i = self.rng.below(kinds.len().max(1));
        let was = String::from_utf8(spelling(values.get(i)?)).expect("a spelling is a text");
        let field = match (&values[i], self.rng.below(6)) {
            (Value::Number(_), 0) => format!("0{was}"),
            (Value::Number(_), 1) => format!("-{was}"),
            (Value::Number(_), 2) => format!("+{was}"),
            (Value::Number(_), 3) => format!("\"{was}\""),
            (Value::Number(_), _) => {
                let all = numbers(kinds[i])?;
                self.rng.pick(&edges(*all.start(), *all.end())).to_string()
            }
            (_, 0) => was.to_uppercase(),
            (_, 1) => was.trim_matches('"').to_string(),
            (_, 2) => was.replace("\"\"", "\""),
            (_, 3) => was.replace('"', "'"),
            (_, 4) => format!(" {was}"),
            _ => format!("\"{}\"", self.rng.pick(&TEXTS)),
        };
        let mut fields: Vec<Vec<u8>> = values.iter().map(spelling).collect();
        fields[i] = field.into_bytes();
        Some([fields.join(&b","[..]), b"\r\n".to_vec()].concat())
    }

    /// Tables that aren't good, or of another shape; and rows and messages of any bytes.
    fn no_rows(&mut self, file: &[u8]) -> Go {
        for _ in 0..2 {
            let f = if self.rng.chance(2) {
                self.bad_table(file)
            } else {
                let t = self.table();
                self.file(&t)
            };
            let len = self.rng.below(8);
            let bytes: Vec<u8> = (0..len).map(|_| *self.rng.pick(BYTES_OF_ROWS)).collect();
            self.import(&f, &bytes, 100)?;
            self.import(file, &bytes, 100)?;
            let m = self.odd_bytes(len);
            self.export(&f, &m, 1_000)?;
            self.export(file, &m, 1_000)?;
        }
        Ok(())
    }

    pub fn rows_at_the_edge(&mut self) -> Go {
        self.shapes_at_the_edge()?;
        self.empty_rows_at_the_edge()?;
        for kind in KINDS {
            self.spellings_at_the_edge(kind)?;
            self.bytes_at_the_edge(kind)?;
        }
        for kind in KINDS {
            self.longest_row(kind)?;
        }
        Ok(())
    }

    /// 20 for each root that isn't a struct of such fields, and not for the fields' own sake.
    fn shapes_at_the_edge(&mut self) -> Go {
        let mut tables: Vec<Table> = vec![];
        for kind in 0..32 {
            let inner = match kind {
                OPTION | SEQ => with(kind, &[0]),
                MAP => with(kind, &[0, 0]),
                STRUCT | ENUM => with(kind, &[0]),
                _ => leaf(kind),
            };
            tables.push(rooted(vec![leaf(U8), inner.clone()]));
            tables.push(rooted(vec![leaf(U8), inner.clone(), with(STRUCT, &[1])]));
            tables.push(rooted(vec![leaf(U8), inner.clone(), with(STRUCT, &[0, 1, 0])]));
            tables.push(rooted(vec![leaf(U8), inner, with(STRUCT, &[0])]));
        }
        tables.push(rooted(vec![leaf(STRUCT), with(STRUCT, &[0])]));
        for count in [1_023, FIELDS, FIELDS + 1, 2_000] {
            tables.push(many(U8, count));
        }
        for t in tables {
            let form = if t.nodes[t.root].kids.len() > FIRST.places { SECOND } else { FIRST };
            let file = t.file_in(form);
            let fields = t.nodes[t.root].kids.len().max(1);
            self.export(&file, &vec![0; fields], 3 * fields)?;
            self.export(&file, &[], 0)?;
            self.import(&file, &[&b"0,".repeat(fields)[1..], b"\r\n"].concat(), fields)?;
            let zeros = [vec!["0"; fields].join(",").as_bytes(), b"\r\n"].concat();
            self.import(&file, &zeros, fields)?;
            self.import(&file, &zeros, fields - 1)?;
        }
        Ok(())
    }

    /// The row of no fields, and every short thing that isn't it.
    fn empty_rows_at_the_edge(&mut self) -> Go {
        let file = struct_of(&[]).file();
        for out_len in 0..4 {
            self.export(&file, b"", out_len)?;
            self.export(&file, b"\x07\x08", out_len)?;
        }
        let mut rows: Vec<Vec<u8>> = vec![vec![]];
        for len in 0..4 {
            for row in rows.clone().iter().filter(|row| row.len() == len) {
                rows.extend(b"\r\n,0\"".iter().map(|&b| [&row[..], &[b]].concat()));
            }
        }
        for row in rows {
            self.import(&file, &row, 0)?;
        }
        Ok(())
    }

    /// Spellings of a kind, good and bad, alone and between others.
    fn spellings_at_the_edge(&mut self, kind: u8) -> Go {
        let (alone, between) = (struct_of(&[kind]).file(), struct_of(&[BOOL, kind, STR]).file());
        let mut fields: Vec<Vec<u8>> = vec![];
        if let Some(all) = numbers(kind) {
            for x in edges(*all.start(), *all.end()) {
                let text = x.to_string();
                fields.extend([format!("0{text}"), format!("-{text}"), format!("{text}0")].map(String::into_bytes));
                fields.push(text.into_bytes());
            }
            fields.extend(
                ["", "-", "-0", "+0", "00", "0x1", "1e1", " 1", "1 ", "1.0", "\"1\""].map(|s| s.as_bytes().to_vec()),
            );
        } else {
            for text in TEXTS {
                fields.extend([spelling(&Value::Text(text.into())), format!("\"{text}\"").into_bytes(), text.into()]);
            }
            for text in odd_texts() {
                fields.push([b"\"", &text[..], b"\""].concat());
                fields.push([b"\"a", &text[..], b"b\""].concat());
                fields.push([b"\"", &text[..]].concat());
            }
            fields.extend(
                [
                    "\"0\"", "\"0a\"", "\"0A\"", "\"0g\"", "\"0aF\"", "\"00 \"", "\"00", "\"000\"", "\"ff\"", "\"FF\"",
                    "0a",
                ]
                .map(|s| s.as_bytes().to_vec()),
            );
        }
        for field in fields {
            for end in [&b"\r\n"[..], b"", b"\r", b"\n", b"\r\n\r\n", b","] {
                self.import(&alone, &[&field, end].concat(), 40)?;
            }
            self.import(&between, &[b"1,", &field[..], b",\"x\"\r\n"].concat(), 60)?;
        }
        Ok(())
    }

    /// Each byte at each place of a few rows.
    fn bytes_at_the_edge(&mut self, kind: u8) -> Go {
        let file = struct_of(&[kind, kind]).file();
        let values = match kind {
            CHAR => [Value::Char('"'), Value::Char('é')],
            STR => [Value::Text("\"é".into()), Value::Text("".into())],
            BYTES => [Value::Bytes(vec![0xAF]), Value::Bytes(vec![])],
            _ => {
                let all = numbers(kind).expect("a number");
                [Value::Number(*all.start()), Value::Number(*all.end())]
            }
        };
        let row = row(&values);
        let message = csv::import(&file, &row, ROOM).expect("a row of our own");
        for out_len in 0..=row.len() {
            self.export(&file, &message, out_len)?;
            self.import(&file, &row, out_len)?;
            self.import(&file, &row[..out_len], row.len())?;
        }
        for p in 0..row.len() {
            let all = kind == STR || p < 2;
            for b in (0..=255).filter(|b| all || BYTES_OF_ROWS.contains(b)) {
                let mut row = row.clone();
                row[p] = b;
                self.import(&file, &row, 100)?;
            }
        }
        Ok(())
    }

    /// A row of 1,024 fields, as long as its kind has it, and one that is wrong at its end.
    fn longest_row(&mut self, kind: u8) -> Go {
        let file = many(kind, FIELDS).file();
        let values: Vec<Value> = (0..FIELDS).map(|_| self.field(kind)).collect();
        let row = row(&values);
        let message = csv::import(&file, &row, ROOM).expect("a row of our own");
        for out_len in [row.len(), row.len() - 1] {
            self.export(&file, &message, out_len)?;
        }
        self.import(&file, &row, message.len())?;
        self.import(&file, &row, message.len() - 1)?;
        self.import(&file, &row[..row.len() - 1], message.len())?;
        self.import(&file, &[&row[..row.len() - 2], b",0\r\n"].concat(), message.len())
    }
}
