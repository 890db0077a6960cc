//! Bench programs to compare the proved one with: the same input, the same output. The argument
//! chooses the table: `direct` (ordinary code), `steps` (the step machine), or `map` (the standard
//! library's hash table, whose output has 0 for slot, index, reach and steps).

#[path = "../../bench/bench_line.rs"]
mod bench_line;
#[path = "../../bench/bench_protocol.rs"]
mod bench_protocol;
#[path = "../../reference/direct_table.rs"]
mod direct_table;
#[path = "../map_table.rs"]
mod map_table;
#[path = "../../reference/point_table.rs"]
mod point_table;

// Walks, changes, commands and disabled points are no part of the bench, and nobody asks here for the
// steps of all operations together.
#[allow(dead_code)]
#[path = "../../reference/reference_operations.rs"]
mod reference_operations;
#[allow(dead_code)]
#[path = "../../reference/reference_record.rs"]
mod reference_record;
#[allow(dead_code)]
#[path = "../../reference/reference_table.rs"]
mod reference_table;
#[allow(dead_code)]
#[path = "../../reference/reference_writer.rs"]
mod reference_writer;
#[allow(dead_code)]
#[path = "../../reference/step_table.rs"]
mod step_table;

use direct_table::DirectTable;
use map_table::MapTable;
use point_table::PointTable;
use std::io::{stdin, stdout, BufReader, BufWriter, Error, Result};
use std::process::ExitCode;
use step_table::StepTable;

const BUFFER: usize = 1 << 16;

fn run<T: PointTable>() -> Result<()> {
    let input = BufReader::with_capacity(BUFFER, stdin().lock());
    let output = BufWriter::with_capacity(BUFFER, stdout().lock());
    bench_protocol::run::<T>(input, output).map(|_| ())
}

fn main() -> ExitCode {
    let table = std::env::args().nth(1);
    let done = match table.as_deref() {
        Some("direct") => run::<DirectTable>(),
        Some("steps") => run::<StepTable>(),
        Some("map") => run::<MapTable>(),
        _ => Err(Error::other("one argument: direct, steps or map")),
    };
    match done {
        Ok(()) => ExitCode::SUCCESS,
        Err(reason) => {
            eprintln!("reference_bench: {reason}");
            ExitCode::FAILURE
        }
    }
}
