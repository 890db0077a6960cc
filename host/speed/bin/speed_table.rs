//! The speed table: the proved bench program beside independent ones, for panels of several sizes and
//! loads. Arguments: the proved program, the program `reference_bench`, and a folder for the inputs.
//! Exit status 1 if a program cannot be run, or prints other answers than the proved one.

#[path = "../../bench/bench_commands.rs"]
mod bench_commands;
#[path = "../../bench/bench_protocol.rs"]
mod bench_protocol;
#[path = "../../bench/bench_workload.rs"]
mod bench_workload;
#[path = "../speed_sides.rs"]
mod speed_sides;
#[path = "../speed_workload.rs"]
mod speed_workload;
#[path = "../../reference/step_table.rs"]
mod step_table;
#[path = "../timing.rs"]
mod timing;

// Of these, only what the bench's commands need is used.
#[allow(dead_code)]
#[path = "../../bench/bench_line.rs"]
mod bench_line;
#[allow(dead_code)]
#[path = "../../reference/point_table.rs"]
mod point_table;
#[allow(dead_code)]
#[path = "../../common/random.rs"]
mod random;
#[allow(dead_code)]
#[path = "../../reference/reference_operations.rs"]
mod reference_operations;
#[allow(dead_code)]
#[path = "../../reference/reference_record.rs"]
mod reference_record;
#[allow(dead_code)]
#[path = "../../reference/reference_table.rs"]
mod reference_table;
#[allow(dead_code)]
#[path = "../../reference/reference_writer.rs"]
mod reference_writer;

use point_table::PointTable;
use speed_sides::{agree, work_times, Inputs, Side, ROUNDS};
use speed_workload::{Load, Panel, Work, Workload};
use std::path::Path;
use std::process::ExitCode;
use step_table::StepTable;

const SIZES: [u32; 3] = [16, 256, 4096];
const FUNCTIONS: [u32; 3] = [4, 16, 64];
const LOADS: [Load; 2] = [
    Load {
        name: "1/2",
        tenths: 5,
    },
    Load {
        name: "9/10",
        tenths: 9,
    },
];
const WORKS: [Work; 2] = [Work::Lookups, Work::Puts];

const HEAD: &str = "\
The proved bench program beside three independent ones with the same input:
  machine  a step machine: record altered in place, its ranges judged at every start and every step
           (the proved program judges them once an operation)
  direct   a table without steps
  HashMap  the standard library's, for orientation
The proved program, machine and direct print the same. Under / machine and so on: the proved program's
time over the other's. Stored: the points that found a place, of those that were to be stored; the
others got refusal 6. What the lines that fill the panel take, and the start of the program, is taken
off. A step is one access of document 01. Mlines, Msteps: millions. Mixed: puts, removals, lookups and
lines that cannot be read.
";

const COLUMNS: [(&str, usize); 11] = [
    ("m", 4),
    ("k", 3),
    ("load", 4),
    ("stored", 12),
    ("work", 7),
    ("steps/line", 10),
    ("/ machine", 9),
    ("/ direct", 8),
    ("/ HashMap", 9),
    ("Mlines/s", 8),
    ("Msteps/s", 8),
];

/// How many sides must print the same. The last, for orientation, cannot.
const ALIKE: usize = 3;

struct SpeedTable {
    /// The proved program first.
    sides: [Side; 4],
    inputs: Inputs,
    /// Of each row so far, the proved program's time over that of each other side.
    ratios: Vec<[f64; 3]>,
}

/// What the step machine does with an input: its table at the end.
fn carried_out(input: &str) -> StepTable {
    let table = bench_protocol::run(input.as_bytes(), std::io::sink());
    let table = table.expect("a sink takes every byte");
    table.expect("the first line has a panel's sizes")
}

fn print_cells(cells: [String; 11]) {
    let cells = cells.iter().zip(COLUMNS);
    let line: Vec<String> = cells
        .map(|(cell, (_, width))| format!("{cell:>width$}"))
        .collect();
    println!("{}", line.join(" "));
}

impl SpeedTable {
    fn new(program: String, reference: String, folder: &Path) -> Self {
        let side = |name, table| Side {
            name,
            program: reference.clone(),
            table: Some(table),
        };
        SpeedTable {
            sides: [
                Side {
                    name: "proved",
                    program,
                    table: None,
                },
                side("step machine", "steps"),
                side("direct table", "direct"),
                side("HashMap", "map"),
            ],
            inputs: Inputs {
                fill: folder.join("speed_fill.stdin"),
                whole: folder.join("speed_whole.stdin"),
            },
            ratios: Vec::new(),
        }
    }

    fn add_row(&mut self, workload: &Workload) -> Result<(), String> {
        let after = carried_out(&workload.whole);
        let steps = (after.steps - carried_out(&workload.fill).steps) as f64;
        self.inputs.write(workload)?;
        agree(&self.sides[..ALIKE], &self.inputs)?;
        let [proved, others @ ..] = work_times(&self.sides, &self.inputs)?;
        let ratios @ [machine, direct, map] = others.map(|other| proved / other);
        self.ratios.push(ratios);

        let stored = after.points().to_string();
        let stored = match workload.asked {
            Some(asked) => format!("{stored} of {asked}"),
            None => stored,
        };
        let lines = workload.lines as f64;
        print_cells([
            workload.m.to_string(),
            workload.k.to_string(),
            workload.load.to_string(),
            stored,
            workload.work.to_string(),
            format!("{:.1}", steps / lines),
            format!("{machine:.2}"),
            format!("{direct:.2}"),
            format!("{map:.2}"),
            format!("{:.2}", lines / proved / 1e6),
            format!("{:.2}", steps / proved / 1e6),
        ]);
        Ok(())
    }

    /// Over all rows, the ratios to each other side.
    fn print_ranges(&self) {
        println!();
        for (i, side) in self.sides[1..].iter().enumerate() {
            let mut ratios: Vec<f64> = self.ratios.iter().map(|ratios| ratios[i]).collect();
            ratios.sort_by(f64::total_cmp);
            let last = ratios.len() - 1;
            println!(
                "proved / {:<12} {:.2} to {:.2}, median {:.2}",
                side.name,
                ratios[0],
                ratios[last],
                ratios[last / 2]
            );
        }
    }
}

fn measure() -> Result<(), String> {
    let arguments: Vec<String> = std::env::args().skip(1).collect();
    let Ok([program, reference, folder]) = <[String; 3]>::try_from(arguments) else {
        return Err("three arguments: the program, the reference, a folder".to_string());
    };
    let mut table = SpeedTable::new(program, reference, Path::new(&folder));
    println!("speed_table: best of {ROUNDS} rounds by turns");
    println!("{HEAD}");
    print_cells(COLUMNS.map(|(name, _)| name.to_string()));
    for m in SIZES {
        for k in FUNCTIONS {
            for load in LOADS {
                let panel = Panel::filled(m, k, load);
                for work in WORKS {
                    table.add_row(&panel.workload(work))?;
                }
            }
        }
    }
    table.add_row(&Workload::mixed())?;
    table.print_ranges();
    Ok(())
}

fn main() -> ExitCode {
    match measure() {
        Ok(()) => ExitCode::SUCCESS,
        Err(reason) => {
            eprintln!("speed_table: {reason}");
            ExitCode::FAILURE
        }
    }
}
