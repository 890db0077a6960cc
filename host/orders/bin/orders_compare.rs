//! Compares the proved orders program, whose path is the argument, with the reference: whole
//! outputs for fixed and pseudorandom inputs. Exit status 1 on any difference, if the program
//! cannot be run, and if a text that must occur in the outputs never did.

#[path = "../../common/child_program.rs"]
mod child_program;
#[path = "../../common/comparison.rs"]
mod comparison;
#[path = "../../reference/drawn_commands.rs"]
mod drawn_commands;
#[path = "../orders_edges.rs"]
mod orders_edges;
#[path = "../orders_garbage.rs"]
mod orders_garbage;
#[path = "../orders_histories.rs"]
mod orders_histories;
#[path = "../orders_line.rs"]
mod orders_line;
#[path = "../orders_protocol.rs"]
mod orders_protocol;
#[path = "../orders_spelling.rs"]
mod orders_spelling;
#[path = "../orders_text.rs"]
mod orders_text;
#[path = "../../reference/plain_feeding.rs"]
mod plain_feeding;
#[path = "../../common/random.rs"]
mod random;
#[path = "../../reference/reference_calls.rs"]
mod reference_calls;
#[path = "../../reference/reference_command.rs"]
mod reference_command;
#[path = "../../reference/reference_frame.rs"]
mod reference_frame;
#[path = "../../reference/reference_record.rs"]
mod reference_record;
#[path = "../../reference/reference_turn.rs"]
mod reference_turn;
#[path = "../../reference/reference_writer.rs"]
mod reference_writer;

// The list's lookups are not printed.
#[allow(dead_code)]
#[path = "../../reference/plain_list.rs"]
mod plain_list;
// The disabled points are no calls of a list.
#[allow(dead_code)]
#[path = "../../reference/reference_table.rs"]
mod reference_table;

use comparison::Comparison;
use orders_histories::Sizes;
use random::Random;
use std::process::ExitCode;

const GARBAGE: usize = 1000;
const HISTORIES: usize = 3000;

/// The program's sample, and what it prints.
const SAMPLE: &[u8] = include_bytes!("../../../crates/orders/stdin");
const SAMPLE_PRINTED: &[u8] = include_bytes!("../../../crates/orders/stdout");

/// Histories on larger panels, and how many walks at least must come to their end in each.
const LARGER: [(Sizes, usize); 4] = [
    (sizes(4096, 64, 5000, 30_000), 1),
    (sizes(4096, 1, 3000, 20_000), 1),
    (sizes(257, 33, 300, 20_000), 10),
    (sizes(1, 64, 3, 3000), 50),
];

/// The same of all small histories.
const WALKS_OF_SMALL: usize = 10_000;

const fn sizes(m: u32, k: u32, points: u32, lines: u32) -> Sizes {
    Sizes {
        m,
        k,
        points,
        lines,
    }
}

/// What the reference must print somewhere behind a history: every answer and every message.
const OCCURRING: [&str; 64] = [
    ": made\n",
    ": started\n",
    ": underway\n",
    ": value ",
    ": placed in slot ",
    ": new value ",
    ": reach ",
    ": 6 no perch, steps ",
    ": 7 unknown, steps ",
    ": word of point ",
    ": empty slot\n",
    ": last: word of point ",
    ": last: empty slot\n",
    " turn: writer: underway\n",
    " turn: writer: placed in slot ",
    " turn: writer: new value ",
    " turn: writer: reach ",
    " turn: writer: 6 no perch, steps ",
    " turn: writer: 7 unknown, steps ",
    " turn: reader 0: underway\n",
    " turn: reader 14: value ",
    " turn: reader 0: 7 unknown, steps ",
    " turn: reader 14: word of point ",
    " turn: reader 15: last: word of point ",
    " turn: reader 15: last: empty slot\n",
    " turn: refused: 5 idle\n",
    // The fewest steps, and the most on a panel of five functions.
    " step reader 15: 7 unknown, steps 1\n",
    " turn: reader 15: 7 unknown, steps 1\n",
    " step reader 15: 7 unknown, steps 6\n",
    " step writer: 7 unknown, steps 1\n",
    " turn: writer: 7 unknown, steps 1\n",
    ", index 5, steps 12\n",
    " step writer: 6 no perch, steps 11\n",
    ": given again: new value ",
    ": given again: 7 unknown, steps 0\n",
    ": refused: 1 misfit\n",
    ": refused: 2 address\n",
    ": refused: 3 reader\n",
    ": refused: 4 engaged\n",
    ": refused: 5 idle\n",
    ": refused: 8 length\n",
    ": refused: 9 map\n",
    ": refused: 10 station\n",
    ": refused: 11 turn\n",
    ": refused: 12 altered\n",
    ": refused: 13 code\n",
    ": unknown word\n",
    ": word missing\n",
    ": number missing: reader\n",
    ": number missing: point\n",
    ": number missing: value\n",
    ": number missing: flip\n",
    ": not a number: reader\n",
    ": not a number: value\n",
    ": number above 4294967295: point\n",
    ": number above 4294967295: keep\n",
    ": something behind the last word\n",
    ": not a hexadecimal digit\n",
    ": odd count of hexadecimal digits\n",
    " | list: point ",
    "  place 0\n",
    "  place 2\n",
    "  place 16\n",
    "  the slots show the plain list\n",
];

/// What was seen in the outputs of the histories.
struct Seen {
    /// The texts that never occurred.
    missing: Vec<&'static str>,
    /// The walks that came to their end.
    walks: usize,
}

/// Compares all inputs.
fn compare_all(comparison: &mut Comparison) -> Result<Seen, String> {
    comparison.compare(SAMPLE)?;
    for input in orders_edges::inputs() {
        comparison.compare(&input)?;
    }
    let mut random = Random(1);
    for _ in 0..GARBAGE {
        comparison.compare(&orders_garbage::any(&mut random))?;
    }
    let walks_of_larger = compare_larger(comparison, &mut random)?;
    let small = compare_small(comparison, &mut random)?;
    Ok(Seen {
        walks: small.walks + walks_of_larger,
        ..small
    })
}

/// The walks that came to their end.
fn compare_larger(comparison: &mut Comparison, random: &mut Random) -> Result<usize, String> {
    let mut walks = 0;
    for (sizes, needed) in &LARGER {
        let printed = comparison.compare(&orders_histories::of(random, sizes))?;
        let ended = walks_ended(&String::from_utf8_lossy(&printed));
        enough_walks(ended, *needed)?;
        walks += ended;
    }
    Ok(walks)
}

fn compare_small(comparison: &mut Comparison, random: &mut Random) -> Result<Seen, String> {
    let mut missing = OCCURRING.to_vec();
    let mut walks = 0;
    for _ in 0..HISTORIES {
        let printed = comparison.compare(&orders_histories::small(random))?;
        let printed = String::from_utf8_lossy(&printed);
        missing.retain(|text| !printed.contains(text));
        walks += walks_ended(&printed);
    }
    enough_walks(walks, WALKS_OF_SMALL)?;
    Ok(Seen { missing, walks })
}

/// A walk's last step says so.
fn walks_ended(printed: &str) -> usize {
    printed.matches(": last: ").count()
}

fn enough_walks(ended: usize, needed: usize) -> Result<(), String> {
    if ended < needed {
        return Err(format!("{ended} walks came to their end, not {needed}"));
    }
    Ok(())
}

fn run() -> Result<(), String> {
    if orders_protocol::run(SAMPLE) != SAMPLE_PRINTED {
        return Err("the reference does not print the sample's output".to_string());
    }
    let mut comparison = Comparison::new(orders_protocol::run)?;
    let Seen { missing, walks } = compare_all(&mut comparison)?;
    println!(
        "orders_compare: {} inputs compared, {} differences; {walks} walks to their end",
        comparison.inputs, comparison.differences
    );
    match (comparison.differences, missing.as_slice()) {
        (0, []) => Ok(()),
        (0, missing) => Err(format!("never occurred: {missing:?}")),
        _ => Err("the outputs differ".to_string()),
    }
}

fn main() -> ExitCode {
    match run() {
        Ok(()) => ExitCode::SUCCESS,
        Err(reason) => {
            eprintln!("orders_compare: {reason}");
            ExitCode::FAILURE
        }
    }
}
