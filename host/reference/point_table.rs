//! A table of points by its whole operations: all that the bench of documents 01 and 02 asks of one.

use crate::reference_record::{is_point, FUNCTIONS, SLOTS};
use crate::reference_table::{Ended, Refusal};

/// Its operations give how they ended, unless the start is refused.
pub trait PointTable: Sized {
    /// An empty table, unless a size is out of range.
    fn new(m: u32, k: u32) -> Option<Self>;

    fn put(&mut self, point: u32, value: u32) -> Result<Ended, Refusal>;

    fn lookup(&mut self, point: u32) -> Result<Ended, Refusal>;

    fn remove(&mut self, point: u32) -> Result<Ended, Refusal>;

    fn reach(&self) -> u32;

    /// How many points are stored.
    fn points(&self) -> u32;
}

pub fn are_sizes(m: u32, k: u32) -> bool {
    SLOTS.contains(&m) && FUNCTIONS.contains(&k)
}

/// Refusal 2.
pub fn judge(point: u32) -> Result<(), Refusal> {
    if is_point(point) {
        Ok(())
    } else {
        Err(Refusal::Address)
    }
}
