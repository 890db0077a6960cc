//! Benchmark of single calls: the program `step_speed`, by value and in place, beside the step
//! machine in Rust, `expected_step_speed`, on the same lines. Prints a table: the ratio of times, best
//! of several rounds, and, where there is `valgrind`, the instructions of a call. Exit status 1 if the two
//! print different things or cannot be run.

#[path = "../../common/child_program.rs"]
mod child_program;
#[path = "../step_lines.rs"]
mod step_lines;
#[path = "../timing.rs"]
mod timing;

use std::fs::read_to_string;
use std::process::{Command, ExitCode, Stdio};
use step_lines::{calls, printed, SIZES};
use timing::timed;

const PROVED: &str = "crates/step_speed/out/step_speed";
const RUST: &str = "target/host/expected_step_speed";
const LOG: &str = "target/host/callgrind.log";
const ROUNDS: usize = 7;

/// A letter and what it stands for.
type Way = (char, &'static str);

/// A kind of call, the letter that asks for it, the ways in which it is made, and powers of ten: of the
/// runs that are timed, and of the shorter of the two runs whose instructions are counted.
struct Kind {
    name: &'static str,
    letter: char,
    ways: &'static [Way],
    timed: u32,
    counted: u32,
}

const BOTH_WAYS: &[Way] = &[('V', "by value"), ('P', "in place")];

/// For turns. Were they made by value too, the compiler would build a turn into neither loop; a main
/// loop has one call of it.
const IN_PLACE: &[Way] = &[('P', "in place")];

const KINDS: [Kind; 6] = [
    Kind {
        name: "reader's step",
        letter: 'R',
        ways: BOTH_WAYS,
        timed: 5,
        counted: 0,
    },
    Kind {
        name: "writer's step",
        letter: 'W',
        ways: BOTH_WAYS,
        timed: 5,
        counted: 0,
    },
    Kind {
        name: "start of a lookup",
        letter: 'L',
        ways: BOTH_WAYS,
        timed: 6,
        counted: 1,
    },
    Kind {
        name: "turn, all 17 at work",
        letter: 'T',
        ways: IN_PLACE,
        timed: 5,
        counted: 0,
    },
    Kind {
        name: "turn, one at work",
        letter: 'O',
        ways: IN_PLACE,
        timed: 6,
        counted: 1,
    },
    Kind {
        name: "step, one at work",
        letter: 'S',
        ways: BOTH_WAYS,
        timed: 6,
        counted: 1,
    },
];

/// The calls of a line, and the best times of the two programs in seconds.
struct Times {
    calls: f64,
    proved: f64,
    rust: f64,
}

fn times(line: &str) -> Result<Times, String> {
    let mut times = Times {
        calls: 0.0,
        proved: f64::INFINITY,
        rust: f64::INFINITY,
    };
    for _ in 0..ROUNDS {
        let (of_proved, seconds) = timed(|| printed(PROVED, line));
        times.proved = times.proved.min(seconds);
        let (of_rust, seconds) = timed(|| printed(RUST, line));
        times.rust = times.rust.min(seconds);
        let (of_proved, of_rust) = (of_proved?, of_rust?);
        if of_proved != of_rust {
            return Err(format!(
                "{line}: {PROVED} printed {of_proved:?}, {RUST} {of_rust:?}"
            ));
        }
        times.calls = calls(&of_proved)?;
    }
    Ok(times)
}

/// The instructions that callgrind counts in a run of a program.
fn instructions(program: &str, line: &str) -> Result<f64, String> {
    let log = format!("--log-file={LOG}");
    let words = [
        "--tool=callgrind",
        "--callgrind-out-file=/dev/null",
        &log,
        program,
    ];
    child_program::run_with("valgrind", &words, line.as_bytes())
        .map_err(|error| format!("valgrind {program}: {error}"))?;
    let said = read_to_string(LOG).map_err(|error| format!("{LOG}: {error}"))?;
    let count = said
        .lines()
        .find_map(|line| line.split("Collected :").nth(1));
    let count = count.and_then(|count| count.trim().parse().ok());
    count.ok_or_else(|| format!("{LOG}: no count"))
}

/// Those of one call: of a run ten times as long less those of the shorter, so that what is done once
/// is taken out.
fn per_call(program: &str, short: &str, long: &str) -> Result<f64, String> {
    let more = instructions(program, long)? - instructions(program, short)?;
    Ok(more / (calls(&printed(RUST, long)?)? - calls(&printed(RUST, short)?)?))
}

fn has_valgrind() -> bool {
    let mut valgrind = Command::new("valgrind");
    let run = valgrind.arg("--version").stdout(Stdio::null()).status();
    run.is_ok_and(|status| status.success())
}

/// One row of the table.
fn row(
    kind: &Kind,
    (size_letter, m): (char, u32),
    (way_letter, way_name): Way,
    counting: bool,
) -> Result<String, String> {
    let line = |digit: u32| format!("{}{way_letter}{size_letter}{digit}\n", kind.letter);
    let Times {
        calls,
        proved,
        rust,
    } = times(&line(kind.timed))?;
    let counts = if counting {
        let (short, long) = (line(kind.counted), line(kind.counted + 1));
        let of_proved = per_call(PROVED, &short, &long)?;
        let of_rust = per_call(RUST, &short, &long)?;
        format!("{of_proved:.0} / {of_rust:.0}")
    } else {
        String::from("–")
    };
    Ok(format!(
        "| {} | {m} | {way_name} | {:.2} | {counts} | {:.1} |",
        kind.name,
        proved / rust,
        calls / proved / 1e6
    ))
}

fn bench() -> Result<(), String> {
    let counting = has_valgrind();
    println!("single calls, best of {ROUNDS} rounds:");
    println!();
    println!("| call | slots | way | / step machine | instructions a call, proved / Rust | million calls/s |");
    println!("|---|---:|---|---:|---:|---:|");
    for kind in &KINDS {
        for size in SIZES {
            for way in kind.ways {
                println!("{}", row(kind, size, *way, counting)?);
            }
        }
    }
    Ok(())
}

fn main() -> ExitCode {
    match bench() {
        Ok(()) => ExitCode::SUCCESS,
        Err(reason) => {
            eprintln!("step_bench: {reason}");
            ExitCode::FAILURE
        }
    }
}
