//! The work of the program `step_speed`, done with the reference, which alters its record in place.

use crate::reference_record::Record;
use crate::reference_table::{
    position, start_lookup, start_walk, step_reader, word_of, Ended, Ending, Refusal, Step,
};
use crate::reference_turn::{turn, Served};
use crate::reference_writer::{start_change, start_put, start_removal, step_writer, WriterStep};
use std::hint::black_box;

const K: u32 = 8;
const READERS: u32 = 16;

/// The point that is put, changed and removed.
const POINT: u32 = 17;

/// The reader that alone is at work, and how many calls a run makes then: no more than its walk takes
/// on the smallest panel.
const LONE_READER: u32 = 5;
const LONE_CALLS: u32 = 16;

/// So many turns of all seventeen parties that each makes the steps of a lookup.
const BUSY_TURNS: u32 = 17 * (K + 1);

/// A sum cannot have it by mistake.
const WORTH_OF_REFUSAL: u64 = 1_000_000;

/// The calls made, and a sum of what they answered.
#[derive(Default)]
pub struct Tally {
    pub calls: u64,
    pub sum: u64,
}

impl Tally {
    fn count(&mut self, worth: u64) {
        self.calls += 1;
        self.sum += worth;
    }
}

/// The calls that a line asks for, or none if there is no such work. Its second letter does not
/// matter here.
pub fn made(line: &str) -> Option<Tally> {
    let letters: Vec<char> = line.chars().collect();
    let &[what, _, size, digit] = letters.as_slice() else {
        return None;
    };
    let m = if size == 'L' { 4096 } else { 16 };
    let runs = 10_u32.pow(digit.to_digit(10)?);
    match what {
        'R' => Some(reader_runs(m, runs)),
        'W' => Some(writer_runs(m, runs)),
        'L' => Some(lookup_runs(m, runs)),
        'T' => Some(busy_turn_runs(m, runs)),
        'O' => Some(lone_turn_runs(m, runs)),
        'S' => Some(lone_step_runs(m, runs)),
        _ => None,
    }
}

/// Every slot is taken, but for the one at the last position of `POINT`.
fn filled(m: u32) -> Vec<u64> {
    let mut slots: Vec<u64> = (0..m).map(|slot| word_of(1000, slot)).collect();
    slots[position(m, POINT, K)] = 0;
    slots
}

fn panel(m: u32, reach: u32) -> Record {
    let mut record = Record::fresh(m, K);
    record.reach = reach;
    record
}

/// Every other reader looks up, the rest walk.
fn readers_at_work(m: u32, slots: &[u64]) -> Record {
    let mut begun = panel(m, K);
    for reader in (0..READERS).step_by(2) {
        start_lookup(&mut begun, slots, reader, reader + 1).expect("the reader is idle");
        start_walk(&mut begun, slots, reader + 1).expect("the reader is idle");
    }
    begun
}

/// All readers at work, one after the other, as long as all have work.
fn reader_runs(m: u32, runs: u32) -> Tally {
    let slots = filled(m);
    let begun = readers_at_work(m, &slots);
    let steps = READERS * m.min(K + 1);
    step_runs(&slots, begun, runs, (0..steps).map(|step| step % READERS))
}

/// The only reader at work.
fn lone_step_runs(m: u32, runs: u32) -> Tally {
    let slots = filled(m);
    let begun = lone_reader_at_work(m, &slots);
    step_runs(&slots, begun, runs, (0..LONE_CALLS).map(|_| LONE_READER))
}

fn lone_reader_at_work(m: u32, slots: &[u64]) -> Record {
    let mut begun = panel(m, K);
    start_walk(&mut begun, slots, LONE_READER).expect("the reader is idle");
    begun
}

/// Runs of these readers' steps, each from the same record.
fn step_runs(
    slots: &[u64],
    begun: Record,
    runs: u32,
    readers: impl Iterator<Item = u32> + Clone,
) -> Tally {
    let mut tally = Tally::default();
    for _ in 0..runs {
        let mut record = begun;
        for reader in readers.clone() {
            // Nothing is known of the record and the slots from one call to the next.
            let step = step_reader(black_box(&mut record), black_box(slots), reader);
            tally.count(reader_worth(step.expect("the reader has work")));
        }
    }
    tally
}

/// Turns of the writer and all readers, all of them at work.
fn busy_turn_runs(m: u32, runs: u32) -> Tally {
    let slots = filled(m);
    let mut begun = readers_at_work(m, &slots);
    start_put(&mut begun, &slots, POINT, 7).expect("the writer is idle");
    turn_runs(slots, begun, runs, BUSY_TURNS)
}

/// Turns where sixteen parties are passed over.
fn lone_turn_runs(m: u32, runs: u32) -> Tally {
    let slots = filled(m);
    let begun = lone_reader_at_work(m, &slots);
    turn_runs(slots, begun, runs, LONE_CALLS)
}

/// Runs of turns, each from the same record. None of them comes as far as to store a slot.
fn turn_runs(mut slots: Vec<u64>, begun: Record, runs: u32, turns: u32) -> Tally {
    let mut tally = Tally::default();
    for _ in 0..runs {
        let mut record = begun;
        for _ in 0..turns {
            let served = turn(black_box(&mut record), black_box(&mut slots));
            tally.count(turn_worth(served));
        }
    }
    tally
}

/// The step's and the party's number.
fn turn_worth(served: Result<Served, Refusal>) -> u64 {
    match served {
        Ok(Served::Writer(step)) => writer_worth(step),
        Ok(Served::Reader { reader, step }) => reader_worth(step) + u64::from(reader + 1),
        Err(_) => WORTH_OF_REFUSAL,
    }
}

fn reader_worth(step: Step) -> u64 {
    match step {
        Step::Underway => 1,
        Step::Ended(ended) => ended_worth(ended),
        Step::Word(word) | Step::LastWord(word) => word % (1 << 32),
    }
}

/// A start of each reader's lookup.
fn lookup_runs(m: u32, runs: u32) -> Tally {
    let slots = filled(m);
    let idle = panel(m, K);
    let mut tally = Tally::default();
    for _ in 0..runs {
        let mut record = idle;
        for reader in 0..READERS {
            let record = black_box(&mut record);
            let start = start_lookup(record, black_box(slots.as_slice()), reader, reader + 1);
            start.expect("the reader is idle");
            tally.count(1);
        }
    }
    tally
}

/// A put, a change and a removal of the same point, each from a record of its own.
fn writer_runs(m: u32, runs: u32) -> Tally {
    let mut slots = filled(m);
    let mut putting = panel(m, K - 1);
    let mut changing = panel(m, K);
    let mut removing = panel(m, K);
    start_put(&mut putting, &slots, POINT, 7).expect("the writer is idle");
    start_change(&mut changing, &slots, POINT, u32::MAX, 1).expect("the writer is idle");
    start_removal(&mut removing, &slots, POINT).expect("the writer is idle");
    let mut tally = Tally::default();
    for _ in 0..runs {
        for mut record in [putting, changing, removing] {
            while writer_call(&mut record, &mut slots, &mut tally) {}
        }
    }
    tally
}

/// One step; whether the work goes on.
fn writer_call(record: &mut Record, slots: &mut [u64], tally: &mut Tally) -> bool {
    let step = step_writer(black_box(record), black_box(slots)).expect("the writer has work");
    tally.count(writer_worth(step));
    step == WriterStep::Underway
}

fn writer_worth(step: WriterStep) -> u64 {
    match step {
        WriterStep::Underway => 1,
        WriterStep::Ended(ended) => ended_worth(ended),
    }
}

/// What the operation gave, and its steps.
fn ended_worth(Ended { ending, steps }: Ended) -> u64 {
    let given = match ending {
        Ending::Put { slot, .. } => slot,
        Ending::Found(number) | Ending::Changed(number) | Ending::Removed(number) => number,
        Ending::NoPerch => 6,
        Ending::Unknown => 7,
    };
    u64::from(given) + u64::from(steps)
}
