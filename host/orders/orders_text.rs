//! Calls and answers as the orders program prints them.

use crate::reference_calls::{Answer, Call};
use crate::reference_command::Entry;
use crate::reference_table::{point_of, value_of, Ended, Ending, Step};
use crate::reference_turn::Served;
use crate::reference_writer::WriterStep;

/// The refusal table's words, from number 1 on.
const WORDS: [&str; 14] = [
    "misfit", "address", "reader", "engaged", "idle", "no perch", "unknown", "length", "map",
    "station", "turn", "altered", "code", "short",
];

/// The call in its normal form.
pub fn call(call: Call, frame: &[u8]) -> String {
    match call {
        Call::StartLookup { reader, point } => format!("start lookup {reader} {point}"),
        Call::StartWalk { reader } => format!("start walk {reader}"),
        Call::StepReader { reader } => format!("step reader {reader}"),
        Call::StartPut { point, value } => format!("put {point} {value}"),
        Call::StartChange { point, keep, flip } => format!("change {point} {keep} {flip}"),
        Call::StartRemoval { point } => format!("remove {point}"),
        Call::StartCommand => {
            let bytes = frame.iter().map(|byte| format!(" {byte:02X}"));
            format!("command{}", bytes.collect::<String>())
        }
        Call::StepWriter => "step writer".to_string(),
        Call::Turn => "turn".to_string(),
    }
}

pub fn answer(answer: Answer) -> String {
    let given = match answer {
        Answer::Start(started) => started.map(|()| "started".to_string()),
        Answer::Entry(entry) => entry.map(entered),
        Answer::Reader(step) => step.map(read),
        Answer::Writer(step) => step.map(written),
        Answer::Turn(turn) => turn.map(served),
    };
    given.unwrap_or_else(refused)
}

pub fn refused(number: u32) -> String {
    format!("refused: {}", refusal(number))
}

/// A refusal's number and word.
fn refusal(number: u32) -> String {
    format!("{number} {}", WORDS[number as usize - 1])
}

fn entered(entry: Entry) -> String {
    match entry {
        Entry::Started => "started".to_string(),
        Entry::GivenAgain { answer, steps } => {
            let ending = answer.map_or(Ending::Unknown, Ending::Changed);
            format!("given again: {}", ended(ending.after(steps)))
        }
    }
}

/// The party, and what its own step would print.
fn served(turn: Served) -> String {
    match turn {
        Served::Writer(step) => format!("writer: {}", written(step)),
        Served::Reader { reader, step } => format!("reader {reader}: {}", read(step)),
    }
}

fn read(step: Step) -> String {
    match step {
        Step::Underway => "underway".to_string(),
        Step::Ended(lookup) => ended(lookup),
        Step::Word(word) => slot(word),
        Step::LastWord(word) => format!("last: {}", slot(word)),
    }
}

fn slot(word: u64) -> String {
    if word == 0 {
        "empty slot".to_string()
    } else {
        format!("word of {}", row(word))
    }
}

/// A word's point and value.
pub fn row(word: u64) -> String {
    format!("point {}, value {}", point_of(word), value_of(word))
}

fn written(step: WriterStep) -> String {
    match step {
        WriterStep::Underway => "underway".to_string(),
        WriterStep::Ended(operation) => ended(operation),
    }
}

fn ended(Ended { ending, steps }: Ended) -> String {
    let ending = match ending {
        Ending::Found(value) => format!("value {value}"),
        Ending::Put { slot, index } => format!("placed in slot {slot}, index {index}"),
        Ending::Changed(value) => format!("new value {value}"),
        Ending::Removed(reach) => format!("reach {reach}"),
        Ending::NoPerch => refusal(6),
        Ending::Unknown => refusal(7),
    };
    format!("{ending}, steps {steps}")
}
