//! The writer of the second table: puts, changes and removals by single steps, written from
//! documents 01 and 02 and not from the library.

use crate::reference_record::{
    is_point, Alteration, ChangeStage, Operation, PutStage, Record, RemovalStage, Search, Station,
    Writer,
};
use crate::reference_table::{
    fit, position, search_step, word_of, Ended, Ending, Refusal, Searched,
};
use std::ops::ControlFlow::{self, Break, Continue};

/// What a writer's step answers.
#[derive(Clone, Copy, Debug, PartialEq, Eq)]
pub enum WriterStep {
    Underway,
    Ended(Ended),
}

pub fn start_put(
    record: &mut Record,
    slots: &[u64],
    point: u32,
    value: u32,
) -> Result<(), Refusal> {
    let work = Writer::Putting {
        point,
        value,
        stage: PutStage::Searching(Search::Unread),
        steps: 0,
    };
    start(record, slots, point, work)
}

pub fn start_change(
    record: &mut Record,
    slots: &[u64],
    point: u32,
    keep: u32,
    flip: u32,
) -> Result<(), Refusal> {
    let alteration = Alteration::Given { keep, flip };
    start(record, slots, point, change_before_steps(point, alteration))
}

/// A change that is given or commanded, before its first step.
pub fn change_before_steps(point: u32, alteration: Alteration) -> Writer {
    Writer::Changing {
        point,
        alteration,
        stage: ChangeStage::Searching(Search::Unread),
        steps: 0,
    }
}

pub fn start_removal(record: &mut Record, slots: &[u64], point: u32) -> Result<(), Refusal> {
    let work = Writer::Removing {
        point,
        stage: RemovalStage::Searching(Search::Unread),
        steps: 0,
    };
    start(record, slots, point, work)
}

/// Refusals 1, 2 and 4, else the writer has its new work.
fn start(record: &mut Record, slots: &[u64], point: u32, work: Writer) -> Result<(), Refusal> {
    fit(record, slots)?;
    if !is_point(point) {
        return Err(Refusal::Address);
    }
    if record.writer != Writer::Idle {
        return Err(Refusal::Engaged);
    }
    record.writer = work;
    Ok(())
}

/// One access of the writer's work.
pub fn step_writer(record: &mut Record, slots: &mut [u64]) -> Result<WriterStep, Refusal> {
    fit(record, slots)?;
    step_fitting_writer(record, slots)
}

/// The same where record and slots are known to fit.
pub fn step_fitting_writer(record: &mut Record, slots: &mut [u64]) -> Result<WriterStep, Refusal> {
    count_step(&mut record.writer, record.k);
    let (answer, after) = match record.writer {
        Writer::Idle => return Err(Refusal::Idle),
        Writer::Putting {
            point,
            value,
            stage,
            steps,
        } => {
            let next = step_put(record, slots, point, value, stage);
            stepped(next, steps, |stage| Writer::Putting {
                point,
                value,
                stage,
                steps,
            })
        }
        Writer::Changing {
            point,
            alteration,
            stage,
            steps,
        } => {
            let next = step_change(record, slots, point, alteration, stage);
            stepped(next, steps, |stage| Writer::Changing {
                point,
                alteration,
                stage,
                steps,
            })
        }
        Writer::Removing {
            point,
            stage,
            steps,
        } => {
            let next = step_removal(record, slots, point, stage);
            stepped(next, steps, |stage| Writer::Removing {
                point,
                stage,
                steps,
            })
        }
    };
    record.writer = after;
    Ok(answer)
}

/// The step that is being made is one more; an idle writer makes none.
fn count_step(work: &mut Writer, k: u32) {
    let (operation, steps) = match work {
        Writer::Idle => return,
        Writer::Putting { steps, .. } => (Operation::Put, steps),
        Writer::Changing { steps, .. } => (Operation::Change, steps),
        Writer::Removing { steps, .. } => (Operation::Removal, steps),
    };
    *steps = operation.counted(*steps, k);
}

/// What a step answers, and the work behind it: an operation goes on in a stage, or ends after so
/// many steps.
fn stepped<S>(
    next: ControlFlow<Ending, S>,
    steps: u32,
    work: impl FnOnce(S) -> Writer,
) -> (WriterStep, Writer) {
    match next {
        Continue(stage) => (WriterStep::Underway, work(stage)),
        Break(ending) => (WriterStep::Ended(ending.after(steps)), Writer::Idle),
    }
}

fn step_put(
    record: &mut Record,
    slots: &mut [u64],
    point: u32,
    value: u32,
    stage: PutStage,
) -> ControlFlow<Ending, PutStage> {
    match stage {
        PutStage::Searching(search) => {
            Continue(match search_step(slots, record.reach, point, search) {
                Searched::Going(search) => PutStage::Searching(search),
                Searched::Found(place) => PutStage::Found(place),
                Searched::Absent => PutStage::Scanning(1),
            })
        }
        PutStage::Scanning(next) if slots[position(record.m, point, next)] == 0 => {
            Continue(PutStage::Chosen(next))
        }
        PutStage::Scanning(next) if next < record.k => Continue(PutStage::Scanning(next + 1)),
        PutStage::Scanning(_) => Break(Ending::NoPerch),
        PutStage::Found(place) => Break(store_put(slots, point, value, place.index)),
        // The reach goes first: a lookup that begins in between must come as far as the new slot.
        PutStage::Chosen(index) if index > record.reach => {
            record.reach = index;
            Continue(stage)
        }
        PutStage::Chosen(index) => {
            count(record, index);
            Break(store_put(slots, point, value, index))
        }
    }
}

fn step_change(
    record: &mut Record,
    slots: &mut [u64],
    point: u32,
    alteration: Alteration,
    stage: ChangeStage,
) -> ControlFlow<Ending, ChangeStage> {
    match stage {
        ChangeStage::Searching(search) => match search_step(slots, record.reach, point, search) {
            Searched::Going(search) => Continue(ChangeStage::Searching(search)),
            Searched::Found(place) => Continue(ChangeStage::Found(place)),
            Searched::Absent => {
                keep_command(record, point, alteration, None);
                Break(Ending::Unknown)
            }
        },
        ChangeStage::Found(place) => {
            let (keep, flip) = masks(alteration);
            let value = (place.value & keep) ^ flip;
            store(slots, point, place.index, word_of(point, value));
            keep_command(record, point, alteration, Some(value));
            Break(Ending::Changed(value))
        }
    }
}

fn step_removal(
    record: &mut Record,
    slots: &mut [u64],
    point: u32,
    stage: RemovalStage,
) -> ControlFlow<Ending, RemovalStage> {
    match stage {
        RemovalStage::Searching(search) => match search_step(slots, record.reach, point, search) {
            Searched::Going(search) => Continue(RemovalStage::Searching(search)),
            Searched::Found(place) => Continue(RemovalStage::Found(place)),
            Searched::Absent => Break(Ending::Unknown),
        },
        RemovalStage::Found(place) => {
            store(slots, point, place.index, 0);
            if uncount(record, place.index) == 0 && place.index == record.reach {
                Continue(RemovalStage::Lowering)
            } else {
                Break(Ending::Removed(record.reach))
            }
        }
        RemovalStage::Lowering => {
            record.reach = largest_counted(record);
            Break(Ending::Removed(record.reach))
        }
    }
}

/// Stores without a look at what is there, and gives the slot.
fn store(slots: &mut [u64], point: u32, index: u32, word: u64) -> u32 {
    let slot = position(slots.len() as u32, point, index);
    slots[slot] = word;
    slot as u32
}

fn store_put(slots: &mut [u64], point: u32, value: u32, index: u32) -> Ending {
    let slot = store(slots, point, index, word_of(point, value));
    Ending::Put { slot, index }
}

/// One more stored point uses the index; a count at the end of its range stays there.
fn count(record: &mut Record, index: u32) {
    let count = &mut record.counts[index as usize - 1];
    *count = (*count + 1).min(record.m);
}

/// One less, likewise; gives the count after.
fn uncount(record: &mut Record, index: u32) -> u32 {
    let count = &mut record.counts[index as usize - 1];
    *count = count.saturating_sub(1);
    *count
}

/// The largest index from 1 to k that a stored point uses, or 0.
fn largest_counted(record: &Record) -> u32 {
    let mut indices = (1..=record.k).rev();
    indices
        .find(|&index| record.counts[index as usize - 1] > 0)
        .unwrap_or(0)
}

/// What a change keeps of the value and what it flips. A command's follow from its action.
pub fn masks(alteration: Alteration) -> (u32, u32) {
    match alteration {
        Alteration::Given { keep, flip } => (keep, flip),
        Alteration::Commanded { action: 0, .. } => (0xFFFF_FFFE, 0),
        Alteration::Commanded { action: 1, .. } => (0xFFFF_FFFE, 1),
        Alteration::Commanded { .. } => (0xFFFF_FFFF, 1),
    }
}

/// A command that ends becomes its station's last, with its answer.
fn keep_command(record: &mut Record, point: u32, alteration: Alteration, answer: Option<u32>) {
    if let Alteration::Commanded {
        station,
        number,
        action,
    } = alteration
    {
        record.stations[station as usize - 1] = Station {
            number,
            point,
            action,
            answer,
        };
    }
}
