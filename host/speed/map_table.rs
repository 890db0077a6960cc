//! Points in the standard library's hash table, for orientation: it has no slots, indices, reach and
//! steps, for which 0 stands, and no put is refused for want of a place.

use crate::point_table::{are_sizes, judge, PointTable};
use crate::reference_table::{Ended, Ending, Refusal};
use std::collections::HashMap;

pub struct MapTable(HashMap<u32, u32>);

impl PointTable for MapTable {
    fn new(m: u32, k: u32) -> Option<Self> {
        are_sizes(m, k).then(|| MapTable(HashMap::new()))
    }

    fn put(&mut self, point: u32, value: u32) -> Result<Ended, Refusal> {
        judge(point)?;
        self.0.insert(point, value);
        Ok(Ending::Put { slot: 0, index: 0 }.after(0))
    }

    fn lookup(&mut self, point: u32) -> Result<Ended, Refusal> {
        judge(point)?;
        let value = self.0.get(&point);
        let ending = value.map_or(Ending::Unknown, |&value| Ending::Found(value));
        Ok(ending.after(0))
    }

    fn remove(&mut self, point: u32) -> Result<Ended, Refusal> {
        judge(point)?;
        let value = self.0.remove(&point);
        let ending = value.map_or(Ending::Unknown, |_| Ending::Removed(0));
        Ok(ending.after(0))
    }

    fn reach(&self) -> u32 {
        0
    }

    fn points(&self) -> u32 {
        self.0.len() as u32
    }
}
