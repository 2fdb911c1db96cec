//! Two messages of 1,000 T side by side, beside a full read of one of them.
use crate::messages;
use crate::timing::{race, side};
use oracle_driver::WORDS;
use std::hint::black_box;

pub fn report() {
    let (table, stocks) = messages::stocks();
    let (file, one) = (table.file(), messages::written(&stocks[..]));
    let mut store = vec![0u64; WORDS * (1 + 4 * stocks.len())];
    println!("| Two messages of 1,000 T | compared, ns | a full read of one, ns | ratio |\n|---|---|---|---|");
    for (name, changed) in [("equal", 0..0), ("one count changed", 500..501), ("every count changed", 0..1_000)] {
        let mut others = stocks.clone();
        others[changed.clone()].iter_mut().for_each(|stock| stock.count -= 1);
        let other = messages::written(&others[..]);
        let mut list = vec![0u64; 2 * stocks.len()];
        assert_eq!(reystavem::compare(&file, &one, &other, &mut list), Ok(changed.len()), "{name}");
        let [compared, read] = race([
            side(|| reystavem::compare(black_box(&file), black_box(&one), black_box(&other), &mut list).is_ok()),
            side(|| reystavem::read(black_box(&file), black_box(&one), &mut store).is_ok()),
        ]);
        println!("| {name} | {compared:.0} | {read:.0} | {:.2} |", compared / read);
    }
}
