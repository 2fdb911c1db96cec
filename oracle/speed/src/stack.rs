//! How deep the stack gets under the longest chain, 256 nodes: it is painted below this frame, and after the call the
//! deepest byte that is another colour is looked for.
use oracle_driver::table::{Node, Table, ENUM, MAP, OPTION, SECOND, SEQ, STRUCT, U8};
use reystavem::{AREA, OPEN, WORDS};
use std::hint::black_box;
use std::thread;

const STACK: usize = 64 << 20;
const PAINTED: usize = 32 << 20;
/// Left alone below this frame, for the calls that paint and look.
const NEAR: usize = 4_096;
const PAINT: u8 = 0xC7;

/// The bytes of stack that a call takes, in a thread of its own.
fn depth(call: impl FnOnce() + Send) -> usize {
    let measured = || {
        let mut here = 0u8;
        let top = black_box(&mut here) as *mut u8;
        // SAFETY: all of this is in the thread's own stack, below every frame that is in use.
        let low = unsafe { top.sub(PAINTED) };
        for i in 0..PAINTED - NEAR {
            unsafe { low.add(i).write_volatile(PAINT) };
        }
        call();
        let unused = (0..PAINTED - NEAR).take_while(|&i| unsafe { low.add(i).read_volatile() } == PAINT).count();
        PAINTED - unused
    };
    thread::scope(|scope| {
        let thread = thread::Builder::new().stack_size(STACK).spawn_scoped(scope, measured);
        thread.expect("a thread").join().expect("a call that ends")
    })
}

/// A chain of 256 nodes of one kind.
fn chain(kind: u8) -> Table {
    let mut table = Table { nodes: vec![Node { kind: U8, kids: vec![] }], root: 255 };
    for below in 0..255 {
        let kids = if kind == MAP { vec![0, below] } else { vec![below] };
        table.nodes.push(Node { kind, kids });
    }
    table
}

pub fn report() {
    println!("| Stack under a chain of 256 | check, bytes | reading | strict reading | reading with a list | writing | append question |");
    println!("|---|---|---|---|---|---|---|");
    for (name, kind, lead) in [("option", OPTION, 1), ("sequence", SEQ, 1), ("struct", STRUCT, 0), ("enum", ENUM, 0)] {
        let file = chain(kind).file_in(SECOND);
        let message = vec![lead; 256];
        let mut store = vec![0; 256 * WORDS];
        let read = reystavem::read(&file, &message, &mut store).expect("a good message");
        assert_eq!(read.count, 256);
        let words = store.clone();
        let (mut strict_store, mut open_store, mut list) = (store.clone(), store.clone(), vec![0; OPEN]);
        let (mut out, mut area) = (vec![0; 256], vec![0; AREA]);
        let check = depth(|| assert!(reystavem::check(&file).is_ok()));
        let reading = depth(|| assert!(reystavem::read(&file, &message, &mut store).is_ok()));
        let strict = depth(|| assert!(reystavem::read_strict(&file, &message, &mut strict_store).is_ok()));
        let listed = depth(|| assert!(reystavem::read_open(&file, &message, &mut open_store, &mut list).is_ok()));
        let writing = depth(|| assert!(reystavem::write(&file, &words, &[], &mut out).is_ok()));
        let question = depth(|| assert_eq!(reystavem::appends(&file, &file, &mut area), Ok(true)));
        println!("| {name} | {check} | {reading} | {strict} | {listed} | {writing} | {question} |");
    }
}
