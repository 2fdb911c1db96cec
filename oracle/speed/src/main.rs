//! Times the proved library beside the crate postcard 1.1.3: same machine, same input, same driver,
//! both built for release with checks off. Each figure is the best of many runs, stores and outputs warm.
//!
//!   speed leaves     varints and texts
//!   speed messages   reading and writing
//!   speed checks     the table's check, beside plain Rust
//!   speed open       reading with a lent list of open items, beside the first reader
//!   speed paths      one field by its path, beside a full read
//!   speed pairs      two messages side by side, beside a read of one
//!   speed batch      night batches of a million messages, beside plain Rust
//!   speed question   the append question on shapes that grow by doubling
//!   speed warehouse  tables of the second form: small, full, and the worst pairs; the last takes minutes
//!   speed stack      how deep the stack is under the longest chain
//!   speed frames     the accumulator
//!   speed sending    messages sent as frames, beside plain Rust
//!   speed csv        CSV rows exported and imported, beside plain Rust

mod batch;
mod checks;
mod csv;
mod frames;
mod leaves;
mod messages;
mod open;
mod pairs;
mod paths;
mod question;
mod rows;
mod sending;
mod stack;
mod timing;
mod warehouse;

fn main() {
    let wanted = std::env::args().nth(1);
    for (name, report) in [
        ("leaves", leaves::report as fn()),
        ("messages", messages::report),
        ("checks", checks::report),
        ("open", open::report),
        ("paths", paths::report),
        ("pairs", pairs::report),
        ("batch", batch::report),
        ("question", question::report),
        ("warehouse", warehouse::report),
        ("stack", stack::report),
        ("frames", frames::report),
        ("sending", sending::report),
        ("csv", csv::report),
    ] {
        if wanted.as_deref().is_none_or(|w| w == name) {
            report();
            println!();
        }
    }
}
