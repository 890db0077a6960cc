//! What the program `step_speed` has to print for the input given, worked out with the reference. It
//! is also the Rust side of the benchmark of single calls.

// Of the reference, only readers, writer and turns are used.
#[allow(dead_code)]
#[path = "../../reference/reference_record.rs"]
mod reference_record;
#[allow(dead_code)]
#[path = "../../reference/reference_table.rs"]
mod reference_table;
#[allow(dead_code)]
#[path = "../../reference/reference_writer.rs"]
mod reference_writer;

#[path = "../../reference/reference_turn.rs"]
mod reference_turn;
#[path = "../step_workload.rs"]
mod step_workload;

use std::io::stdin;

fn main() {
    for line in stdin().lines() {
        let line = line.expect("an input of text");
        let tally = step_workload::made(&line).expect("a line that asks for calls");
        println!("{} {}", tally.calls, tally.sum);
    }
}
