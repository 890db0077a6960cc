//! Benchmark of a turn beside a step, both in place, in the program `step_speed`. Where its code lies
//! changes the time of a call by up to a third, so the same object file is linked behind a different number
//! of bytes each time; the arguments are the programs so made. Prints the mean of their times, the
//! best of several rounds each, and the least and the greatest ratio. Exit status 1 if one cannot be run.

#[path = "../../common/child_program.rs"]
mod child_program;
#[path = "../step_lines.rs"]
mod step_lines;
#[path = "../timing.rs"]
mod timing;

use std::env::args;
use std::process::ExitCode;
use step_lines::{calls, printed, SIZES};
use timing::timed;

const ROUNDS: usize = 9;

/// The letters of a turn and of the step that it is beside, the power of ten of their runs, and who is at
/// work.
const TURNS_AND_STEPS: [(char, char, u32, &str); 2] = [
    ('T', 'R', 4, "all 17, and all 16 readers"),
    ('O', 'S', 5, "one reader"),
];

/// Nanoseconds of a turn and of a step in one program.
#[derive(Clone, Copy)]
struct Pair {
    turn: f64,
    step: f64,
}

fn nanoseconds_a_call(program: &str, line: &str) -> Result<f64, String> {
    let (printed, seconds) = timed(|| printed(program, line));
    Ok(seconds * 1e9 / calls(&printed?)?)
}

/// The best times of each program. Each round runs all of them, the turn and then the step.
fn pairs(programs: &[String], turn: &str, step: &str) -> Result<Vec<Pair>, String> {
    let none = Pair {
        turn: f64::INFINITY,
        step: f64::INFINITY,
    };
    let mut pairs = vec![none; programs.len()];
    for _ in 0..ROUNDS {
        for (program, pair) in programs.iter().zip(&mut pairs) {
            pair.turn = nanoseconds_a_call(program, turn)?.min(pair.turn);
            pair.step = nanoseconds_a_call(program, step)?.min(pair.step);
        }
    }
    Ok(pairs)
}

fn row(at_work: &str, m: u32, pairs: &[Pair]) -> String {
    let turns: f64 = pairs.iter().map(|pair| pair.turn).sum();
    let steps: f64 = pairs.iter().map(|pair| pair.step).sum();
    let ratios = pairs.iter().map(|pair| pair.turn / pair.step);
    let (least, greatest) = ratios.fold((f64::INFINITY, 0.0), |(least, greatest), ratio| {
        (ratio.min(least), ratio.max(greatest))
    });
    let count = pairs.len() as f64;
    format!(
        "| {at_work} | {m} | {:.1} | {:.1} | {:.2} | {least:.2} to {greatest:.2} |",
        turns / count,
        steps / count,
        turns / steps
    )
}

fn bench(programs: &[String]) -> Result<(), String> {
    println!(
        "a turn beside a step in {} places, best of {ROUNDS} rounds:",
        programs.len()
    );
    println!();
    println!("| at work | slots | turn, ns | step, ns | turn / step | in single places |");
    println!("|---|---:|---:|---:|---:|---:|");
    for (turn, step, power, at_work) in TURNS_AND_STEPS {
        for (size, m) in SIZES {
            let line = |letter: char| format!("{letter}P{size}{power}\n");
            println!(
                "{}",
                row(at_work, m, &pairs(programs, &line(turn), &line(step))?)
            );
        }
    }
    Ok(())
}

fn main() -> ExitCode {
    let programs: Vec<String> = args().skip(1).collect();
    if programs.is_empty() {
        eprintln!("usage: turn_bench PROGRAM...");
        return ExitCode::FAILURE;
    }
    match bench(&programs) {
        Ok(()) => ExitCode::SUCCESS,
        Err(reason) => {
            eprintln!("turn_bench: {reason}");
            ExitCode::FAILURE
        }
    }
}
