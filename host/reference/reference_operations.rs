//! Whole operations of the second table: each starts, and takes its steps to the end.

use crate::reference_record::Record;
use crate::reference_table::{start_lookup, step_reader, Ended, Refusal, Step};
use crate::reference_writer::{start_change, start_put, start_removal, step_writer, WriterStep};

pub fn lookup(
    record: &mut Record,
    slots: &[u64],
    reader: u32,
    point: u32,
) -> Result<Ended, Refusal> {
    start_lookup(record, slots, reader, point)?;
    loop {
        match step_reader(record, slots, reader)? {
            Step::Underway => {}
            Step::Ended(ended) => return Ok(ended),
            word => panic!("a lookup's step gave {word:?}"),
        }
    }
}

pub fn put(
    record: &mut Record,
    slots: &mut [u64],
    point: u32,
    value: u32,
) -> Result<Ended, Refusal> {
    start_put(record, slots, point, value)?;
    finish(record, slots)
}

pub fn change(
    record: &mut Record,
    slots: &mut [u64],
    point: u32,
    keep: u32,
    flip: u32,
) -> Result<Ended, Refusal> {
    start_change(record, slots, point, keep, flip)?;
    finish(record, slots)
}

pub fn removal(record: &mut Record, slots: &mut [u64], point: u32) -> Result<Ended, Refusal> {
    start_removal(record, slots, point)?;
    finish(record, slots)
}

/// The writer's steps to the end of the work that it has.
pub fn finish(record: &mut Record, slots: &mut [u64]) -> Result<Ended, Refusal> {
    loop {
        if let WriterStep::Ended(ended) = step_writer(record, slots)? {
            return Ok(ended);
        }
    }
}
