//! The plain list of document 01: rows of point, value and place. It knows nothing of reach, counts
//! or steps.

use crate::reference_table::{position, word_of};

#[derive(Clone, Copy, Debug, PartialEq, Eq)]
pub struct Row {
    pub point: u32,
    pub value: u32,
    pub place: usize,
}

pub struct PlainList {
    m: u32,
    k: u32,
    rows: Vec<Row>,
}

impl PlainList {
    pub fn new(m: u32, k: u32) -> Self {
        PlainList {
            m,
            k,
            rows: Vec::new(),
        }
    }

    /// The row's place and index, or none for refusal 6.
    pub fn put(&mut self, point: u32, value: u32) -> Option<(u32, u32)> {
        let place = match self.row(point) {
            Some(row) => row.place,
            None => self.free_place(point)?,
        };
        self.rows.retain(|row| row.point != point);
        self.rows.push(Row {
            point,
            value,
            place,
        });
        Some((place as u32, self.index_of(point, place)))
    }

    /// The new value, or none for refusal 7.
    pub fn change(&mut self, point: u32, keep: u32, flip: u32) -> Option<u32> {
        let row = self.rows.iter_mut().find(|row| row.point == point)?;
        row.value = (row.value & keep) ^ flip;
        Some(row.value)
    }

    /// The largest index of a row left or 0, or none for refusal 7.
    pub fn remove(&mut self, point: u32) -> Option<u32> {
        self.row(point)?;
        self.rows.retain(|row| row.point != point);
        Some(self.largest_index())
    }

    /// The value, or none for refusal 7.
    pub fn lookup(&self, point: u32) -> Option<u32> {
        self.row(point).map(|row| row.value)
    }

    pub fn row(&self, point: u32) -> Option<&Row> {
        self.rows.iter().find(|row| row.point == point)
    }

    /// The lowest index whose position is the place.
    pub fn index_of(&self, point: u32, place: usize) -> u32 {
        let mut indices = 1..=self.k;
        indices
            .find(|&index| position(self.m, point, index) == place)
            .expect("the place is one of the point's positions")
    }

    /// Of a row left, or 0.
    pub fn largest_index(&self) -> u32 {
        self.rows
            .iter()
            .map(|row| self.index_of(row.point, row.place))
            .max()
            .unwrap_or(0)
    }

    /// The first of the point's positions that is no row's place.
    pub fn free_place(&self, point: u32) -> Option<usize> {
        let mut places = (1..=self.k).map(|index| position(self.m, point, index));
        places.find(|&place| self.rows.iter().all(|row| row.place != place))
    }

    /// The slots that hold these rows: 0 except for each row's word at its place.
    pub fn slots(&self) -> Vec<u64> {
        let mut slots = vec![0; self.m as usize];
        for row in &self.rows {
            slots[row.place] = word_of(row.point, row.value);
        }
        slots
    }
}
