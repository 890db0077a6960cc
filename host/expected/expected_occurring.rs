//! What the drawn calls must bring about, so that a comparison of their digests means something: every
//! call, and the answers listed here, each many times.

use crate::reference_calls::{Answer, Call};
use crate::reference_command::Entry;
use crate::reference_table::{Ended, Ending, Step};
use crate::reference_turn::Served;
use crate::reference_writer::WriterStep;
use std::collections::BTreeMap;

/// Each must occur so often.
const TIMES: u32 = 10;

const MUST_OCCUR: [&str; 43] = [
    "start of a lookup",
    "start of a walk",
    "reader's step",
    "start of a put",
    "start of a change",
    "start of a removal",
    "command",
    "writer's step",
    "turn",
    "started",
    "value given again",
    "7 given again",
    "found",
    "reader's 7",
    "walk's word",
    "walk's last word",
    "placed",
    "changed",
    "removed",
    "no perch",
    "writer's 7",
    "reader underway under a turn",
    "found under a turn",
    "reader's 7 under a turn",
    "walk's word under a turn",
    "walk's last word under a turn",
    "writer underway under a turn",
    "placed under a turn",
    "changed under a turn",
    "removed under a turn",
    "no perch under a turn",
    "writer's 7 under a turn",
    "refusal 5 under a turn",
    "refusal 2",
    "refusal 3",
    "refusal 4",
    "refusal 5",
    "refusal 8",
    "refusal 9",
    "refusal 10",
    "refusal 11",
    "refusal 12",
    "refusal 13",
];

#[derive(Default)]
pub struct Occurring(BTreeMap<String, u32>);

impl Occurring {
    pub fn note(&mut self, call: Call, answer: Answer) {
        self.count(call_name(call).to_string());
        self.count(answer_name(answer));
    }

    fn count(&mut self, name: String) {
        *self.0.entry(name).or_default() += 1;
    }

    pub fn check(&self) {
        for name in MUST_OCCUR {
            let times = self.0.get(name).copied().unwrap_or_default();
            assert!(times >= TIMES, "{name} occurred {times} times");
        }
    }
}

fn call_name(call: Call) -> &'static str {
    match call {
        Call::StartLookup { .. } => "start of a lookup",
        Call::StartWalk { .. } => "start of a walk",
        Call::StepReader { .. } => "reader's step",
        Call::StartPut { .. } => "start of a put",
        Call::StartChange { .. } => "start of a change",
        Call::StartRemoval { .. } => "start of a removal",
        Call::StartCommand => "command",
        Call::StepWriter => "writer's step",
        Call::Turn => "turn",
    }
}

fn answer_name(answer: Answer) -> String {
    let name = match answer {
        Answer::Start(Ok(())) | Answer::Entry(Ok(Entry::Started)) => "started",
        Answer::Entry(Ok(Entry::GivenAgain { answer, .. })) => match answer {
            Some(_) => "value given again",
            None => "7 given again",
        },
        Answer::Reader(Ok(step)) => reader_step_name(step),
        Answer::Writer(Ok(step)) => writer_step_name(step),
        Answer::Turn(turn) => return turn_name(turn),
        Answer::Start(Err(refusal))
        | Answer::Entry(Err(refusal))
        | Answer::Reader(Err(refusal))
        | Answer::Writer(Err(refusal)) => return format!("refusal {refusal}"),
    };
    name.to_string()
}

fn turn_name(turn: Result<Served, u32>) -> String {
    let name = match turn {
        Ok(Served::Writer(step)) => writer_step_name(step).to_string(),
        Ok(Served::Reader { step, .. }) => reader_step_name(step).to_string(),
        Err(refusal) => format!("refusal {refusal}"),
    };
    name + " under a turn"
}

fn reader_step_name(step: Step) -> &'static str {
    match step {
        Step::Underway => "reader underway",
        Step::Ended(ended) => ended_name(ended, "reader's 7"),
        Step::Word(_) => "walk's word",
        Step::LastWord(_) => "walk's last word",
    }
}

fn writer_step_name(step: WriterStep) -> &'static str {
    match step {
        WriterStep::Underway => "writer underway",
        WriterStep::Ended(ended) => ended_name(ended, "writer's 7"),
    }
}

/// The name of 7 says whose it is.
fn ended_name(ended: Ended, unknown: &'static str) -> &'static str {
    match ended.ending {
        Ending::Found(_) => "found",
        Ending::Put { .. } => "placed",
        Ending::Changed(_) => "changed",
        Ending::Removed(_) => "removed",
        Ending::NoPerch => "no perch",
        Ending::Unknown => unknown,
    }
}
