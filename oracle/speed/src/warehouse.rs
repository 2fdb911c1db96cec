//! Tables of the second form: the append question on small tables beside clearing its area, on full tables as a warehouse
//! would have them, and on the worst pairs that were found.
use crate::timing::{once, race, side};
use oracle_driver::append::appends;
use oracle_driver::rng::Rng;
use oracle_driver::table::{Node, Table, ENUM, MAP, OPTION, SECOND, SEQ, STRUCT, U8, UNIT};
use reystavem::AREA;
use std::collections::VecDeque;
use std::hint::black_box;

fn small(area: &mut [u8], name: &str, old: &[u8], new: &[u8]) {
    let mut cleared = area.to_vec();
    assert_eq!(reystavem::appends(old, new, area), Ok(true), "{name}");
    let [question, clearing] = race([
        side(|| reystavem::appends(black_box(old), black_box(new), area).is_ok()),
        side(|| black_box(&mut cleared[..]).fill(0)),
    ])
    .map(|ns| ns / 1000.0);
    println!("| {name} | {question:.1} | {clearing:.1} | {:.2} |", question / clearing);
}

/// Leaves; options, sequences, maps and enums; and records of twelve fields, most of them leaves. Every node is named by a
/// later one, the last ones by the root. No chain is longer than twelve.
fn full(nodes: usize) -> Table {
    let mut rng = Rng(1);
    let leaves: Vec<u8> = (0..=UNIT).chain(20..=31).collect();
    let mut table = Table { nodes: vec![], root: nodes - 1 };
    table.nodes.extend(leaves.iter().map(|&kind| Node { kind, kids: vec![] }));
    let mut chains = vec![1; leaves.len()];
    let (mut unnamed, mut tops) = (VecDeque::new(), vec![]);
    for i in leaves.len()..nodes - 1 {
        let (kind, kids, near) = match i % 10 {
            0 => (OPTION, 1, 2),
            1 => (SEQ, 1, 1),
            2 => (MAP, 2, 2),
            3 => (ENUM, 4, 2),
            _ => (STRUCT, 12, 9),
        };
        let mut kids: Vec<usize> = (0..kids).map(|_| rng.below(leaves.len())).collect();
        for kid in &mut kids {
            if rng.chance(near) {
                *kid = unnamed.pop_front().unwrap_or(*kid);
            }
        }
        let chain = 1 + kids.iter().map(|&k| chains[k]).max().expect("a child");
        chains.push(chain);
        table.nodes.push(Node { kind, kids });
        if chain < 11 {
            unnamed.push_back(i);
        } else {
            tops.push(i);
        }
    }
    tops.extend(unnamed);
    table.nodes.push(Node { kind: STRUCT, kids: tops });
    table
}

/// The same table later: a variant more in every enum, three fields more in the root, and every number another.
fn later(old: &Table, more: usize) -> Table {
    let mut new = old.clone();
    new.nodes.splice(0..0, (0..more).map(|_| Node { kind: U8, kids: vec![] }));
    for node in &mut new.nodes {
        node.kids.iter_mut().for_each(|k| *k += more);
        if node.kind == ENUM {
            node.kids.push(0);
        }
    }
    new.root += more;
    let root = new.root;
    new.nodes[root].kids.extend([0, 1, 2]);
    new
}

fn places(table: &Table) -> usize {
    table.nodes.iter().filter(|node| node.kind >= STRUCT && node.kind <= ENUM).map(|node| node.kids.len()).sum()
}

/// Each part of the child list by itself, as a program that writes tables would lay it out.
fn laid_out(table: &Table) -> Vec<u8> {
    let (mut records, mut list) = (vec![], vec![]);
    for Node { kind, kids } in &table.nodes {
        let kid = |k: usize| kids.get(k).map_or(0, |&k| k as u16);
        records.push(match *kind {
            STRUCT | ENUM => {
                list.extend(kids.iter().map(|&k| k as u16));
                (*kind, (list.len() - kids.len()) as u16, kids.len() as u16)
            }
            _ => (*kind, kid(0), kid(1)),
        });
    }
    file(&records, &list, table.root)
}

/// A file of the second form.
fn file(records: &[(u8, u16, u16)], list: &[u16], root: usize) -> Vec<u8> {
    let mut file = vec![];
    for (kind, a, b) in records {
        file.extend([*kind, 0]);
        file.extend(a.to_le_bytes());
        file.extend(b.to_le_bytes());
    }
    list.iter().for_each(|k| file.extend(k.to_le_bytes()));
    let (c, d) = (2 * list.len() as u32, (6 * records.len() + 2 * list.len()) as u32);
    file.extend([c.to_le_bytes(), d.to_le_bytes()].concat());
    file.extend([(records.len() as u16).to_le_bytes(), (root as u16).to_le_bytes(), SECOND.mark].concat());
    file
}

/// Two tables of so many nodes and places, and how many pairs of their nodes are compared, child by child, with how many
/// children each.
///
/// Above a leaf stand `inner` structs, alike, over one long stretch of it. Above these stand pairs of structs: the old
/// one's fields are the inner ones, three times over, and the new one's are they too, each pair's moved on by one more
/// place, so that no two inner structs are ever paired twice. Since parts of the child list may overlap, that takes few
/// places, and the long stretch has the others.
fn worst(nodes: usize, places: usize) -> (Vec<u8>, Vec<u8>, usize, usize) {
    const ROUNDS: usize = 3;
    let outer = (nodes - 2) / (ROUNDS + 2);
    let inner = nodes - 2 - outer;
    let fields = ROUNDS * inner;
    let long = places - (fields + outer - 1) - outer;
    let parent = |s: usize| (1 + inner + s) as u16;
    let side = |moved: usize| {
        let span = fields + (outer - 1) * moved;
        let mut list: Vec<u16> = (0..span).map(|x| (1 + (x + moved * outer * (x / inner)) % inner) as u16).collect();
        let all = list.len() as u16;
        list.extend((0..outer).map(parent));
        list.extend(vec![0; long]);
        let mut records = vec![(U8, 0, 0)];
        records.extend(vec![(STRUCT, all + outer as u16, long as u16); inner]);
        records.extend((0..outer).map(|s| (STRUCT, (moved * s) as u16, fields as u16)));
        records.push((STRUCT, all, outer as u16));
        file(&records, &list, nodes - 1)
    };
    (side(0), side(1), fields * outer, long)
}

pub fn report() {
    let mut area = vec![0; AREA];
    println!("| Append question on small tables | ours, µs | clearing the area, µs | ratio |\n|---|---|---|---|");
    let table_t = Table::parse(reystavem::samples::TABLE_T).expect("a good table");
    let mut longer = table_t.clone();
    longer.nodes[3].kids.push(0);
    small(&mut area, "T and one more field", reystavem::samples::TABLE_T, &longer.file());
    small(&mut area, "the same, second form", &table_t.file_in(SECOND), &longer.file_in(SECOND));
    let unit = Table::leaf(UNIT).file();
    small(&mut area, "a unit and itself", &unit, &unit);

    println!("\n| Full tables of a warehouse | ms |\n|---|---|");
    let old = full(SECOND.nodes - 16);
    let new = later(&old, 16);
    let (old_file, new_file) = (laid_out(&old), laid_out(&new));
    assert_eq!(reystavem::appends(&old_file, &new_file, &mut area), Ok(true));
    assert_eq!(appends(&old_file, &new_file, AREA), Ok(true));
    let mut forth = area.clone();
    let mut back = area.clone();
    let [yes, no, check] = race([
        side(|| reystavem::appends(black_box(&old_file), black_box(&new_file), &mut forth) == Ok(true)),
        side(|| reystavem::appends(black_box(&new_file), black_box(&old_file), &mut back) == Ok(false)),
        side(|| reystavem::check(black_box(&new_file)).is_ok()),
    ])
    .map(|ns| ns / 1e6);
    for (table, name) in [(&old, "old"), (&new, "new")] {
        let (nodes, places) = (table.nodes.len(), places(table));
        println!("| ({name}: {nodes} nodes, {places} places) | |");
    }
    println!("| the question, yes | {yes:.2} |\n| the other way round, no | {no:.2} |\n| the new table's check | {check:.2} |");

    println!(
        "\n| Worst pairs found | pairs | children of each | check of one table, ms | the question, s | ns a child |"
    );
    println!("|---|---|---|---|---|---|");
    for nodes in [256, 512, 1_024, 2_048, 4_096] {
        let (old, new, pairs, children) = worst(nodes, 8 * nodes);
        // For larger ones the oracle's own tables are too large.
        assert!(nodes > 256 || appends(&old, &new, AREA) == Ok(true));
        let check = once(|| assert_eq!(reystavem::check(black_box(&new)), Ok(())));
        let question = once(|| assert_eq!(reystavem::appends(&old, &new, &mut area), Ok(true)));
        let each = question.as_nanos() as f64 / (pairs as f64 * children as f64);
        println!(
            "| {nodes} nodes, {} places | {pairs} | {children} | {:.2} | {:.3} | {each:.2} |",
            8 * nodes,
            check.as_secs_f64() * 1000.0,
            question.as_secs_f64(),
        );
    }
}
