//! One field of a message of 200 by its path, beside a full read of the message.
use crate::messages;
use crate::timing::{race, side};
use oracle_driver::WORDS;
use std::hint::black_box;

pub fn report() {
    let (table, value) = messages::fields();
    let (file, message) = (table.file(), messages::written(&value));
    let mut store = vec![0u64; WORDS * 201];
    println!("| One of 200 fields | by its path, ns | a full read, ns | ratio |\n|---|---|---|---|");
    for (name, field) in [("the first", 0), ("the middle one", 99), ("the last", 199)] {
        let path = [field as u64];
        reystavem::read(&file, &message, &mut store).expect("a good message");
        let entry = reystavem::entries(&store).nth(field + 1).expect("the field's entry");
        assert_eq!(reystavem::find(&file, &path, &message), Ok(entry), "{name}");
        let [found, full] = race([
            side(|| reystavem::find(black_box(&file), black_box(&path), black_box(&message)).is_ok()),
            side(|| reystavem::read(black_box(&file), black_box(&message), &mut store).is_ok()),
        ]);
        println!("| {name} | {found:.0} | {full:.0} | {:.2} |", found / full);
    }
}
