//! The point table by steps: the second table's whole operations, on a record that is altered in
//! place. Every start and every step judges the ranges of the whole record.

use crate::point_table::PointTable;
use crate::reference_operations::{lookup, put, removal};
use crate::reference_record::{Record, SLOTS};
use crate::reference_table::{fresh, Ended, Refusal};

/// The reader that looks up.
const READER: u32 = 0;

pub struct StepTable {
    pub record: Record,
    pub slots: Vec<u64>,
    /// Those of all operations so far.
    pub steps: u64,
}

impl PointTable for StepTable {
    fn new(m: u32, k: u32) -> Option<Self> {
        // No more memory than the largest panel's is lent; with another number `fresh` refuses.
        let mut slots = vec![0; m.min(*SLOTS.end()) as usize];
        let (made, record) = fresh(&mut slots, m, k);
        made.is_ok().then_some(StepTable {
            record,
            slots,
            steps: 0,
        })
    }

    fn put(&mut self, point: u32, value: u32) -> Result<Ended, Refusal> {
        let ended = put(&mut self.record, &mut self.slots, point, value);
        self.add_steps(ended)
    }

    fn lookup(&mut self, point: u32) -> Result<Ended, Refusal> {
        let ended = lookup(&mut self.record, &self.slots, READER, point);
        self.add_steps(ended)
    }

    fn remove(&mut self, point: u32) -> Result<Ended, Refusal> {
        let ended = removal(&mut self.record, &mut self.slots, point);
        self.add_steps(ended)
    }

    fn reach(&self) -> u32 {
        self.record.reach
    }

    fn points(&self) -> u32 {
        self.record.counts.iter().sum()
    }
}

impl StepTable {
    /// Gives what it is given.
    fn add_steps(&mut self, ended: Result<Ended, Refusal>) -> Result<Ended, Refusal> {
        self.steps += ended.map_or(0, |ended| u64::from(ended.steps));
        ended
    }
}
