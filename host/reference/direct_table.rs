//! The point table as ordinary code, written from documents 01 and 02 and not from the library: whole
//! operations that alter it in place, with nobody's work underway. It makes no steps, and counts
//! where one would be: each time that it reads or stores a slot or the reach.

use crate::point_table::{are_sizes, judge, PointTable};
use crate::reference_table::{point_of, position, value_of, word_of, Ended, Ending, Refusal};

pub struct DirectTable {
    m: u32,
    k: u32,
    reach: u32,
    /// At i - 1, how many stored points use index i.
    counts: [u32; 64],
    pub slots: Vec<u64>,
    /// Those of the operation that is carried out.
    steps: u32,
}

/// Where a point sits: the slot, and the index of the function that leads there.
#[derive(Clone, Copy)]
struct Place {
    slot: usize,
    index: u32,
}

impl PointTable for DirectTable {
    fn new(m: u32, k: u32) -> Option<Self> {
        are_sizes(m, k).then(|| DirectTable {
            m,
            k,
            reach: 0,
            counts: [0; 64],
            slots: vec![0; m as usize],
            steps: 0,
        })
    }

    fn put(&mut self, point: u32, value: u32) -> Result<Ended, Refusal> {
        // The whole reach is searched first: behind a hole the point may be stored already.
        let found = self.search(point)?;
        let Some(place) = found.or_else(|| self.take(point)) else {
            return self.end(Ending::NoPerch);
        };
        self.store(place, word_of(point, value));
        self.end(Ending::Put {
            slot: place.slot as u32,
            index: place.index,
        })
    }

    fn lookup(&mut self, point: u32) -> Result<Ended, Refusal> {
        match self.search(point)? {
            None => self.end(Ending::Unknown),
            // The search has read this slot.
            Some(place) => self.end(Ending::Found(value_of(self.slots[place.slot]))),
        }
    }

    fn remove(&mut self, point: u32) -> Result<Ended, Refusal> {
        let Some(place) = self.search(point)? else {
            return self.end(Ending::Unknown);
        };
        self.store(place, 0);
        self.counts[place.index as usize - 1] -= 1;
        let counted = self.largest_counted();
        if counted < self.reach {
            self.store_reach(counted);
        }
        self.end(Ending::Removed(self.reach))
    }

    fn reach(&self) -> u32 {
        self.reach
    }

    fn points(&self) -> u32 {
        self.counts.iter().sum()
    }
}

impl DirectTable {
    fn read(&mut self, place: Place) -> u64 {
        self.steps += 1;
        self.slots[place.slot]
    }

    fn store(&mut self, place: Place, word: u64) {
        self.steps += 1;
        self.slots[place.slot] = word;
    }

    fn read_reach(&mut self) -> u32 {
        self.steps += 1;
        self.reach
    }

    fn store_reach(&mut self, reach: u32) {
        self.steps += 1;
        self.reach = reach;
    }

    fn end(&self, ending: Ending) -> Result<Ended, Refusal> {
        Ok(ending.after(self.steps))
    }

    /// Refusal 2, else an operation begins with the search for its point.
    fn search(&mut self, point: u32) -> Result<Option<Place>, Refusal> {
        judge(point)?;
        self.steps = 0;
        let reach = self.read_reach();
        Ok(self.first_place(point, reach, |word| point_of(word) == point))
    }

    /// Reads the point's positions up to the index `last`, to the first word that is wanted.
    fn first_place(
        &mut self,
        point: u32,
        last: u32,
        is_wanted: impl Fn(u64) -> bool,
    ) -> Option<Place> {
        let m = self.m;
        let mut places = (1..=last).map(|index| Place {
            slot: position(m, point, index),
            index,
        });
        places.find(|&place| is_wanted(self.read(place)))
    }

    /// The first empty place of the point, counted as taken and within the reach.
    fn take(&mut self, point: u32) -> Option<Place> {
        let place = self.first_place(point, self.k, |word| word == 0)?;
        if place.index > self.reach {
            self.store_reach(place.index);
        }
        self.counts[place.index as usize - 1] += 1;
        Some(place)
    }

    /// The largest index up to the reach that a stored point uses, or 0.
    fn largest_counted(&self) -> u32 {
        let mut indices = (1..=self.reach).rev();
        indices
            .find(|&index| self.counts[index as usize - 1] > 0)
            .unwrap_or(0)
    }
}
