//! Any call of the second table as a value, and what it answers.

use crate::reference_command::{start_command, Entry};
use crate::reference_record::Record;
use crate::reference_table::{start_lookup, start_walk, step_reader, Refusal, Step};
use crate::reference_turn::{turn, Served};
use crate::reference_writer::{start_change, start_put, start_removal, step_writer, WriterStep};

#[derive(Clone, Copy, Debug)]
pub enum Call {
    StartLookup { reader: u32, point: u32 },
    StartWalk { reader: u32 },
    StepReader { reader: u32 },
    StartPut { point: u32, value: u32 },
    StartChange { point: u32, keep: u32, flip: u32 },
    StartRemoval { point: u32 },
    StartCommand,
    StepWriter,
    Turn,
}

/// What a call answers by its kind, or the number of the refusal.
#[derive(Clone, Copy, Debug)]
pub enum Answer {
    Start(Result<(), u32>),
    Entry(Result<Entry, u32>),
    Reader(Result<Step, u32>),
    Writer(Result<WriterStep, u32>),
    Turn(Result<Served, u32>),
}

/// Carries out a call. A command takes the frame; the other calls do not look at it.
pub fn apply(record: &mut Record, slots: &mut [u64], call: Call, frame: &[u8]) -> Answer {
    match call {
        Call::StartLookup { reader, point } => started(start_lookup(record, slots, reader, point)),
        Call::StartWalk { reader } => started(start_walk(record, slots, reader)),
        Call::StepReader { reader } => {
            Answer::Reader(step_reader(record, slots, reader).map_err(number))
        }
        Call::StartPut { point, value } => started(start_put(record, slots, point, value)),
        Call::StartChange { point, keep, flip } => {
            started(start_change(record, slots, point, keep, flip))
        }
        Call::StartRemoval { point } => started(start_removal(record, slots, point)),
        Call::StartCommand => Answer::Entry(start_command(record, slots, frame)),
        Call::StepWriter => Answer::Writer(step_writer(record, slots).map_err(number)),
        Call::Turn => Answer::Turn(turn(record, slots).map_err(number)),
    }
}

fn started(answer: Result<(), Refusal>) -> Answer {
    Answer::Start(answer.map_err(number))
}

fn number(refusal: Refusal) -> u32 {
    refusal as u32
}
