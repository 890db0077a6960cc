//! The dispatcher above the second table, written from document 02 (N1) and not from the library:
//! the writer and the readers take turns in a fixed circle.

use crate::reference_record::{Reader, Record, Writer, PARTIES};
use crate::reference_table::{fit, step_fitting_reader, Refusal, Step};
use crate::reference_writer::{step_fitting_writer, WriterStep};

/// The party that a turn served, and what its step gave, 6 and 7 included.
#[derive(Clone, Copy, Debug, PartialEq, Eq)]
pub enum Served {
    Writer(WriterStep),
    Reader { reader: u32, step: Step },
}

/// Refusals 1 and 5, else a step of the first party at work from the place on.
pub fn turn(record: &mut Record, slots: &mut [u64]) -> Result<Served, Refusal> {
    fit(record, slots)?;
    let party = next_at_work(record).ok_or(Refusal::Idle)?;
    let served = match party.checked_sub(1) {
        None => Served::Writer(step_fitting_writer(record, slots)?),
        Some(reader) => {
            let step = step_fitting_reader(record, slots, reader)?;
            Served::Reader { reader, step }
        }
    };
    record.place = (party + 1) % PARTIES;
    Ok(served)
}

/// Around the circle from the place on; none if all are idle.
fn next_at_work(record: &Record) -> Option<u32> {
    let mut circle = (record.place..PARTIES).chain(0..record.place);
    circle.find(|&party| is_at_work(record, party))
}

fn is_at_work(record: &Record, party: u32) -> bool {
    match party.checked_sub(1) {
        None => record.writer != Writer::Idle,
        Some(reader) => record.readers[reader as usize] != Reader::Idle,
    }
}
