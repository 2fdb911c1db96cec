//! Reads a message by a table, both from files, and prints its entries, each with its own bytes, and whether each is
//! spelled the shortest way: `count TABLE MESSAGE`.
use std::{env, fs};

fn main() {
    let files: Vec<String> = env::args().skip(1).collect();
    let [table, message] = files.as_slice() else {
        return println!("count TABLE MESSAGE");
    };
    let table = fs::read(table).expect("the table's file");
    let message = fs::read(message).expect("the message's file");
    let mut store = [0u64; 64 * reystavem::WORDS];
    match reystavem::read(&table, &message, &mut store) {
        Ok(read) => {
            let entries: Vec<_> = reystavem::entries(&store).take(read.count).collect();
            // An item's own bytes end where the next item begins, the last one's at the rest.
            let ends = entries.iter().skip(1).map(|next| next.place);
            for (entry, end) in entries.iter().zip(ends.chain([message.len() - read.rest.len()])) {
                let bytes = &message[entry.place..end];
                println!("{} {} at {}: {bytes:02x?}", entry.first as i64, entry.second, entry.place);
            }
            println!("rest {:02x?}", read.rest);
        }
        Err(refused) => println!("{refused:?}"),
    }
    match reystavem::read_strict(&table, &message, &mut store) {
        Ok(_) => println!("read strictly: the same"),
        Err(strict) => println!("read strictly: {:?} at {}", strict.refused.why, strict.refused.place),
    }
}
