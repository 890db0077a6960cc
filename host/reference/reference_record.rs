//! A second model of the record and of the ranges of its fields, written from document 01 ("What
//! the panel holds") and document 02, and not from the library.

use std::ops::RangeInclusive;

pub const SLOTS: RangeInclusive<u32> = 1..=4096;
pub const FUNCTIONS: RangeInclusive<u32> = 1..=64;
const POINTS: RangeInclusive<u32> = 1..=2_147_483_646;
const STATIONS: RangeInclusive<u32> = 1..=32;
const ACTIONS: RangeInclusive<u32> = 0..=2;
const LAST_NUMBER: u32 = 16_777_215;

/// The writer and the readers, who take turns: the writer is 0, reader n is n + 1.
pub const PARTIES: u32 = 17;

/// The one value that every step changes.
#[derive(Clone, Copy, Debug, PartialEq, Eq)]
pub struct Record {
    pub m: u32,
    pub k: u32,
    pub reach: u32,
    /// The party that the next turn tries first.
    pub place: u32,
    /// At i - 1, how many stored points use index i. Those above k are no field.
    pub counts: [u32; 64],
    pub writer: Writer,
    pub readers: [Reader; 16],
    /// At n - 1, the last command of station n.
    pub stations: [Station; 32],
}

/// How far the search for a point is.
#[derive(Clone, Copy, Debug, PartialEq, Eq)]
pub enum Search {
    /// The reach is still to be read.
    Unread,
    Probing {
        reach: u32,
        next: u32,
    },
}

/// The operations whose steps are counted.
#[derive(Clone, Copy, Debug, PartialEq, Eq)]
pub enum Operation {
    Lookup,
    Put,
    Change,
    Removal,
}

#[derive(Clone, Copy, Debug, PartialEq, Eq)]
pub enum Reader {
    Idle,
    LookingUp {
        point: u32,
        search: Search,
        /// How many were made.
        steps: u32,
    },
    Walking {
        next: u32,
    },
}

#[derive(Clone, Copy, Debug, PartialEq, Eq)]
pub enum Writer {
    Idle,
    Putting {
        point: u32,
        value: u32,
        stage: PutStage,
        steps: u32,
    },
    Changing {
        point: u32,
        alteration: Alteration,
        stage: ChangeStage,
        steps: u32,
    },
    Removing {
        point: u32,
        stage: RemovalStage,
        steps: u32,
    },
}

/// Where a search found its point, and the value it read there.
#[derive(Clone, Copy, Debug, PartialEq, Eq)]
pub struct Place {
    pub index: u32,
    pub value: u32,
}

#[derive(Clone, Copy, Debug, PartialEq, Eq)]
pub enum PutStage {
    Searching(Search),
    /// The second search, with the next index.
    Scanning(u32),
    Found(Place),
    /// The index of the empty position to take.
    Chosen(u32),
}

#[derive(Clone, Copy, Debug, PartialEq, Eq)]
pub enum ChangeStage {
    Searching(Search),
    Found(Place),
}

#[derive(Clone, Copy, Debug, PartialEq, Eq)]
pub enum RemovalStage {
    Searching(Search),
    Found(Place),
    /// The slot is emptied, the reach still to be stored.
    Lowering,
}

#[derive(Clone, Copy, Debug, PartialEq, Eq)]
pub enum Alteration {
    Given {
        keep: u32,
        flip: u32,
    },
    Commanded {
        station: u32,
        number: u32,
        action: u32,
    },
}

/// A station's last command; number 0 if there was none.
#[derive(Clone, Copy, Debug, PartialEq, Eq)]
pub struct Station {
    pub number: u32,
    pub point: u32,
    pub action: u32,
    /// The new value, or none for refusal 7.
    pub answer: Option<u32>,
}

pub fn is_point(number: u32) -> bool {
    POINTS.contains(&number)
}

impl Record {
    /// Everyone idle, and all other numbers 0. The sizes are not judged.
    pub fn fresh(m: u32, k: u32) -> Self {
        let station = Station {
            number: 0,
            point: 0,
            action: 0,
            answer: Some(0),
        };
        Record {
            m,
            k,
            reach: 0,
            place: 0,
            counts: [0; 64],
            writer: Writer::Idle,
            readers: [Reader::Idle; 16],
            stations: [station; 32],
        }
    }

    /// Whether every field is in its range.
    pub fn in_range(&self) -> bool {
        SLOTS.contains(&self.m)
            && FUNCTIONS.contains(&self.k)
            && self.reach <= self.k
            && self.used_counts().all(|&count| count <= self.m)
            && self.place < PARTIES
            && self.writer.in_range(self.k)
            && self.readers.iter().all(|r| r.in_range(self.m, self.k))
            && self.stations.iter().all(Station::in_range)
    }

    /// The counts of the indices 1 to k.
    fn used_counts(&self) -> impl Iterator<Item = &u32> {
        self.counts.iter().take(self.k as usize)
    }
}

impl Operation {
    /// The most steps that it takes.
    fn step_bound(self, k: u32) -> u32 {
        match self {
            Operation::Lookup => k + 1,
            Operation::Put => 2 * k + 2,
            Operation::Change => k + 2,
            Operation::Removal => k + 3,
        }
    }

    fn steps_in_range(self, steps: u32, k: u32) -> bool {
        steps <= self.step_bound(k)
    }

    /// The count with one step more. On a record that no history leads to it stays at the bound.
    pub fn counted(self, steps: u32, k: u32) -> u32 {
        (steps + 1).min(self.step_bound(k))
    }
}

impl Search {
    fn in_range(&self, k: u32) -> bool {
        match *self {
            Search::Unread => true,
            Search::Probing { reach, next } => reach <= k && (1..=reach).contains(&next),
        }
    }
}

impl Place {
    fn in_range(&self, k: u32) -> bool {
        (1..=k).contains(&self.index)
    }
}

impl Reader {
    fn in_range(&self, m: u32, k: u32) -> bool {
        match self {
            Reader::Idle => true,
            Reader::LookingUp {
                point,
                search,
                steps,
            } => {
                is_point(*point)
                    && search.in_range(k)
                    && Operation::Lookup.steps_in_range(*steps, k)
            }
            Reader::Walking { next } => *next < m,
        }
    }
}

impl Writer {
    fn in_range(&self, k: u32) -> bool {
        match self {
            Writer::Idle => true,
            Writer::Putting {
                point,
                stage,
                steps,
                ..
            } => is_point(*point) && stage.in_range(k) && Operation::Put.steps_in_range(*steps, k),
            Writer::Changing {
                point,
                alteration,
                stage,
                steps,
            } => {
                is_point(*point)
                    && alteration.in_range()
                    && stage.in_range(k)
                    && Operation::Change.steps_in_range(*steps, k)
            }
            Writer::Removing {
                point,
                stage,
                steps,
            } => {
                is_point(*point)
                    && stage.in_range(k)
                    && Operation::Removal.steps_in_range(*steps, k)
            }
        }
    }
}

impl PutStage {
    fn in_range(&self, k: u32) -> bool {
        match self {
            PutStage::Searching(search) => search.in_range(k),
            PutStage::Found(place) => place.in_range(k),
            PutStage::Scanning(index) | PutStage::Chosen(index) => (1..=k).contains(index),
        }
    }
}

impl ChangeStage {
    fn in_range(&self, k: u32) -> bool {
        match self {
            ChangeStage::Searching(search) => search.in_range(k),
            ChangeStage::Found(place) => place.in_range(k),
        }
    }
}

impl RemovalStage {
    fn in_range(&self, k: u32) -> bool {
        match self {
            RemovalStage::Searching(search) => search.in_range(k),
            RemovalStage::Found(place) => place.in_range(k),
            RemovalStage::Lowering => true,
        }
    }
}

impl Alteration {
    fn in_range(&self) -> bool {
        match self {
            Alteration::Given { .. } => true,
            Alteration::Commanded {
                station,
                number,
                action,
            } => {
                STATIONS.contains(station)
                    && (1..=LAST_NUMBER).contains(number)
                    && ACTIONS.contains(action)
            }
        }
    }
}

impl Station {
    fn in_range(&self) -> bool {
        let sent = (1..=LAST_NUMBER).contains(&self.number);
        self.number == 0 || (sent && is_point(self.point) && ACTIONS.contains(&self.action))
    }
}
