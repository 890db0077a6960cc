//! Compares the proved bench program, whose path is the argument, with the reference: whole
//! outputs for fixed and pseudorandom inputs. Exit status 1 on any difference, if the program
//! cannot be run, and if a case that must occur in the histories never did.

#[path = "../bench_cases.rs"]
mod bench_cases;
#[path = "../bench_commands.rs"]
mod bench_commands;
#[path = "../bench_edges.rs"]
mod bench_edges;
#[path = "../bench_garbage.rs"]
mod bench_garbage;
#[path = "../bench_histories.rs"]
mod bench_histories;
#[path = "../bench_line.rs"]
mod bench_line;
#[path = "../bench_protocol.rs"]
mod bench_protocol;
#[path = "../bench_workload.rs"]
mod bench_workload;
#[path = "../../common/child_program.rs"]
mod child_program;
#[path = "../../common/comparison.rs"]
mod comparison;
#[path = "../../reference/direct_table.rs"]
mod direct_table;
#[path = "../../reference/point_table.rs"]
mod point_table;
#[path = "../../common/random.rs"]
mod random;

// The plain list's changes are no commands of the bench.
#[allow(dead_code)]
#[path = "../../reference/plain_list.rs"]
mod plain_list;
// Of these, only the hash functions, the words, the ranges and the endings are used.
#[allow(dead_code)]
#[path = "../../reference/reference_record.rs"]
mod reference_record;
#[allow(dead_code)]
#[path = "../../reference/reference_table.rs"]
mod reference_table;

use bench_cases::{feed, Case};
use bench_histories::History;
use comparison::Comparison;
use direct_table::DirectTable;
use plain_list::PlainList;
use random::Random;
use std::process::ExitCode;

const GARBAGE: usize = 600;
const HISTORIES: usize = 1500;

/// Document 01's example, with the steps of document 02.
const EXAMPLE: &str = "8 4\nP 1 5\nP 9 6\nP 17 7\nL 17\nR 9\nL 9\n";
const EXAMPLE_PRINTED: &str = "\
panel 8 4
P 1 0 1 4
P 9 2 2 6
P 17 3 3 8
L 17 7 4
R 9 3 4
L 9 ! 7 4
reach 3 points 2
";

/// m, k, points and commands of histories on larger panels.
const LARGER: [[u32; 4]; 6] = [
    [4096, 64, 6000, 30_000],
    [4096, 1, 6000, 30_000],
    [4095, 4, 6000, 30_000],
    [257, 33, 400, 10_000],
    [64, 64, 100, 10_000],
    [1, 64, 3, 1000],
];

/// What the reference prints.
fn reference(input: &[u8]) -> Vec<u8> {
    let mut output = Vec::new();
    bench_protocol::run::<DirectTable>(input, &mut output).expect("a vector takes every byte");
    output
}

/// Small histories; gives the cases that never occurred.
fn compare_histories(
    comparison: &mut Comparison,
    random: &mut Random,
) -> Result<Vec<Case>, String> {
    let mut missing = Case::ALL.to_vec();
    for _ in 0..HISTORIES {
        let history = History::small(random);
        let mut list = PlainList::new(history.m, history.k);
        for &command in &history.commands {
            let case = feed(&mut list, command);
            missing.retain(|&other| other != case);
        }
        comparison.compare(history.to_string().as_bytes())?;
    }
    Ok(missing)
}

/// Compares all inputs, and gives the cases that never occurred.
fn compare_all(comparison: &mut Comparison) -> Result<Vec<Case>, String> {
    comparison.compare(EXAMPLE.as_bytes())?;
    for input in bench_edges::inputs() {
        comparison.compare(&input)?;
    }
    let mut random = Random(1);
    for _ in 0..GARBAGE {
        comparison.compare(&bench_garbage::any(&mut random))?;
    }
    for [m, k, points, length] in LARGER {
        let history = History::of(&mut random, m, k, points, length);
        comparison.compare(history.to_string().as_bytes())?;
    }
    comparison.compare(bench_workload::input(50_000).as_bytes())?;
    compare_histories(comparison, &mut random)
}

fn run() -> Result<(), String> {
    if reference(EXAMPLE.as_bytes()) != EXAMPLE_PRINTED.as_bytes() {
        return Err("the reference does not print the example's output".to_string());
    }
    let mut comparison = Comparison::new(reference)?;
    let missing = compare_all(&mut comparison)?;
    println!(
        "bench_compare: {} inputs compared, {} differences",
        comparison.inputs, comparison.differences
    );
    match (comparison.differences, missing.as_slice()) {
        (0, []) => Ok(()),
        (0, missing) => Err(format!("never occurred: {missing:?}")),
        _ => Err("the outputs differ".to_string()),
    }
}

fn main() -> ExitCode {
    match run() {
        Ok(()) => ExitCode::SUCCESS,
        Err(reason) => {
            eprintln!("bench_compare: {reason}");
            ExitCode::FAILURE
        }
    }
}
