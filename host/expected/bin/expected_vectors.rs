//! What the program `vectors` has to print, worked out a second time from document 01: the
//! stored output is compared with this.

#[path = "../expected_disabled.rs"]
mod expected_disabled;
#[path = "../expected_fresh.rs"]
mod expected_fresh;
#[path = "../expected_list.rs"]
mod expected_list;
#[path = "../expected_operations.rs"]
mod expected_operations;
#[path = "../expected_ranges.rs"]
mod expected_ranges;
#[path = "../expected_readers.rs"]
mod expected_readers;
#[path = "../expected_unreached.rs"]
mod expected_unreached;
#[path = "../expected_writer_refusals.rs"]
mod expected_writer_refusals;
#[path = "../../reference/reference_record.rs"]
mod reference_record;
#[path = "../../reference/reference_table.rs"]
mod reference_table;
#[path = "../../reference/reference_writer.rs"]
mod reference_writer;

use reference_table::z;

const WORDS: [&str; 14] = [
    "misfit", "address", "reader", "engaged", "idle", "no perch", "unknown", "length", "map",
    "station", "turn", "altered", "code", "short",
];

/// A refusal as an answer.
fn refused(number: u32) -> String {
    format!(" ! {number} {}", WORDS[number as usize - 1])
}

fn main() {
    println!("z 10000 {}", z(10000));
    println!("refusal 14 {}", WORDS[13]);
    expected_fresh::run();
    expected_readers::run();
    expected_ranges::run();
    expected_disabled::run();
    expected_writer_refusals::run();
    expected_unreached::run();
    expected_list::run();
}
