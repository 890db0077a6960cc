//! A second table: its fresh panel, its readers and its disabled points, written from documents 01
//! and 02 and not from the library. Its writer is in `reference_writer`.

use crate::reference_record::{is_point, Operation, Place, Reader, Record, Search};

const P: u64 = 2_147_483_647;

/// z(0) to z(128), all that the functions 1 to 64 need.
static Z: [u64; 129] = z_table();

/// The refusals that these calls can give, with their numbers in the refusal table.
#[derive(Clone, Copy, Debug, PartialEq, Eq)]
pub enum Refusal {
    Misfit = 1,
    Address = 2,
    Reader = 3,
    Engaged = 4,
    Idle = 5,
    Unknown = 7,
}

/// What a lookup, a put, a change or a removal ends with.
#[derive(Clone, Copy, Debug, PartialEq, Eq)]
pub enum Ending {
    /// The value looked up.
    Found(u32),
    Put {
        slot: u32,
        index: u32,
    },
    /// The new value.
    Changed(u32),
    /// The reach after.
    Removed(u32),
    /// Refusal 6.
    NoPerch,
    /// Refusal 7.
    Unknown,
}

/// An operation's ending, and the number of steps that it took.
#[derive(Clone, Copy, Debug, PartialEq, Eq)]
pub struct Ended {
    pub ending: Ending,
    pub steps: u32,
}

impl Ending {
    pub fn after(self, steps: u32) -> Ended {
        Ended {
            ending: self,
            steps,
        }
    }
}

/// What a reader's step answers. All but `Underway` and `Word` end its work.
#[derive(Clone, Copy, Debug, PartialEq, Eq)]
pub enum Step {
    Underway,
    /// Of a lookup.
    Ended(Ended),
    Word(u64),
    LastWord(u64),
}

/// How a search stands after one of its accesses.
pub enum Searched {
    Going(Search),
    Found(Place),
    Absent,
}

const fn next_z(z: u64) -> u64 {
    16807 * z % P
}

const fn z_table() -> [u64; 129] {
    let mut table = [1; 129];
    let mut j = 0;
    while j < 128 {
        table[j + 1] = next_z(table[j]);
        j += 1;
    }
    table
}

/// z(n) by its recurrence, for any n.
pub fn z(n: u32) -> u64 {
    (0..n).fold(1, |value, _| next_z(value))
}

/// Position `index` of a point, for an index from 1 to 64.
pub fn position(m: u32, point: u32, index: u32) -> usize {
    let i = index as usize;
    let hash = (Z[2 * i - 1] * u64::from(point) + Z[2 * i]) % P;
    (hash % u64::from(m)) as usize
}

/// The slot that holds a point with its value.
pub fn word_of(point: u32, value: u32) -> u64 {
    u64::from(point) << 32 | u64::from(value)
}

pub fn point_of(word: u64) -> u32 {
    (word >> 32) as u32
}

pub fn value_of(word: u64) -> u32 {
    word as u32
}

/// Refusal 1.
pub fn fit(record: &Record, slots: &[u64]) -> Result<(), Refusal> {
    if record.in_range() && slots.len() == record.m as usize {
        Ok(())
    } else {
        Err(Refusal::Misfit)
    }
}

/// Refusal 3, else the reader's work.
fn work_of(record: &mut Record, reader: u32) -> Result<&mut Reader, Refusal> {
    let work = record.readers.get_mut(reader as usize);
    work.ok_or(Refusal::Reader)
}

/// Empties the slots and gives a fresh record. If refused, the slots stay and the record is all
/// zeros.
pub fn fresh(slots: &mut [u64], m: u32, k: u32) -> (Result<(), Refusal>, Record) {
    let record = Record::fresh(m, k);
    match fit(&record, slots) {
        Ok(()) => {
            slots.fill(0);
            (Ok(()), record)
        }
        refused => (refused, Record::fresh(0, 0)),
    }
}

pub fn start_lookup(
    record: &mut Record,
    slots: &[u64],
    reader: u32,
    point: u32,
) -> Result<(), Refusal> {
    fit(record, slots)?;
    let work = work_of(record, reader)?;
    if !is_point(point) {
        return Err(Refusal::Address);
    }
    let new = Reader::LookingUp {
        point,
        search: Search::Unread,
        steps: 0,
    };
    start(work, new)
}

pub fn start_walk(record: &mut Record, slots: &[u64], reader: u32) -> Result<(), Refusal> {
    fit(record, slots)?;
    start(work_of(record, reader)?, Reader::Walking { next: 0 })
}

/// Refusal 4, else the reader has its new work.
fn start(work: &mut Reader, new: Reader) -> Result<(), Refusal> {
    if *work != Reader::Idle {
        return Err(Refusal::Engaged);
    }
    *work = new;
    Ok(())
}

/// One access of a reader's work.
pub fn step_reader(record: &mut Record, slots: &[u64], reader: u32) -> Result<Step, Refusal> {
    fit(record, slots)?;
    step_fitting_reader(record, slots, reader)
}

/// The same where record and slots are known to fit.
pub fn step_fitting_reader(
    record: &mut Record,
    slots: &[u64],
    reader: u32,
) -> Result<Step, Refusal> {
    let Record { reach, k, .. } = *record;
    let work = work_of(record, reader)?;
    let (answer, after) = match *work {
        Reader::Idle => return Err(Refusal::Idle),
        Reader::LookingUp {
            point,
            search,
            steps,
        } => {
            let steps = Operation::Lookup.counted(steps, k);
            look_up(slots, reach, point, search, steps)
        }
        Reader::Walking { next } => walk(slots, next),
    };
    *work = after;
    Ok(answer)
}

/// One access of a lookup that has made so many steps with this one.
fn look_up(
    slots: &[u64],
    reach_now: u32,
    point: u32,
    search: Search,
    steps: u32,
) -> (Step, Reader) {
    let end = |ending: Ending| (Step::Ended(ending.after(steps)), Reader::Idle);
    match search_step(slots, reach_now, point, search) {
        Searched::Going(search) => {
            let work = Reader::LookingUp {
                point,
                search,
                steps,
            };
            (Step::Underway, work)
        }
        Searched::Found(place) => end(Ending::Found(place.value)),
        Searched::Absent => end(Ending::Unknown),
    }
}

/// One access of a search: it reads the reach, or one position.
pub fn search_step(slots: &[u64], reach_now: u32, point: u32, search: Search) -> Searched {
    match search {
        Search::Unread => search_on(reach_now, 1),
        Search::Probing { reach, next } => probe(slots, point, reach, next),
    }
}

/// A point that is not found yet: to position `next`, unless that is beyond the reach.
fn search_on(reach: u32, next: u32) -> Searched {
    if next > reach {
        Searched::Absent
    } else {
        Searched::Going(Search::Probing { reach, next })
    }
}

fn probe(slots: &[u64], point: u32, reach: u32, next: u32) -> Searched {
    let word = slots[position(slots.len() as u32, point, next)];
    if point_of(word) == point {
        let value = value_of(word);
        Searched::Found(Place { index: next, value })
    } else {
        search_on(reach, next + 1)
    }
}

fn walk(slots: &[u64], next: u32) -> (Step, Reader) {
    let word = slots[next as usize];
    let next = next + 1;
    if next as usize == slots.len() {
        (Step::LastWord(word), Reader::Idle)
    } else {
        (Step::Word(word), Reader::Walking { next })
    }
}

/// How many slots hold a disabled point.
pub fn disabled_total(record: &Record, slots: &[u64]) -> Result<usize, Refusal> {
    fit(record, slots)?;
    Ok(disabled(slots).count())
}

/// The disabled point of the lowest address; document 01 leaves the choice free.
pub fn disabled_point(record: &Record, slots: &[u64]) -> Result<u32, Refusal> {
    fit(record, slots)?;
    disabled(slots).min().ok_or(Refusal::Unknown)
}

fn disabled(slots: &[u64]) -> impl Iterator<Item = u32> + '_ {
    let words = slots.iter().filter(|&&word| value_of(word) & 1 == 1);
    words
        .map(|&word| point_of(word))
        .filter(|&point| is_point(point))
}
