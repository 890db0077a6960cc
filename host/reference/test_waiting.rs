//! Drawn calls of all seventeen parties, most of them turns: whoever is at work is served by the
//! seventeenth turn, a turn leaves what the party's own step leaves, but for the place, and an
//! operation that ends tells the steps that it made, by turns or not.

use crate::random::Random;
use crate::reference_record::{Reader, Record, Writer};
use crate::reference_table::{fresh, start_lookup, start_walk, step_reader, Refusal, Step};
use crate::reference_turn::{turn, Served};
use crate::reference_writer::{start_put, start_removal, step_writer, WriterStep};

const PANELS: u32 = 300;
const CALLS: u32 = 1000;
const LAST_POINT: u32 = 30;
const READERS: u32 = 16;
const PARTIES: usize = 17;

/// The longest wait: all other parties are served once.
const LONGEST_WAIT: u32 = 16;

/// What was seen of a party's work since it was started.
#[derive(Clone, Copy, Default)]
struct Work {
    turns: u32,
    steps: u32,
    /// The turns since it was started or last stepped.
    waited: u32,
}

#[derive(Default)]
pub struct Seen {
    pub turns: u32,
    /// The lookups that ended.
    pub lookups: u32,
    longest_wait: u32,
}

struct World {
    record: Record,
    slots: Vec<u64>,
    works: [Work; PARTIES],
    seen: Seen,
}

pub fn run() -> Seen {
    let mut random = Random(4);
    let mut all = Seen::default();
    for _ in 0..PANELS {
        let mut world = World::new(random.within(1, 40), random.within(1, 6));
        for _ in 0..CALLS {
            world.call(&mut random);
            world.check();
        }
        all.turns += world.seen.turns;
        all.lookups += world.seen.lookups;
        all.longest_wait = all.longest_wait.max(world.seen.longest_wait);
    }
    assert_eq!(all.longest_wait, LONGEST_WAIT);
    all
}

impl World {
    fn new(m: u32, k: u32) -> Self {
        let mut slots = vec![0; m as usize];
        let (_, record) = fresh(&mut slots, m, k);
        World {
            record,
            slots,
            works: [Work::default(); PARTIES],
            seen: Seen::default(),
        }
    }

    /// One call, which may be refused. Only a turn moves the place.
    fn call(&mut self, random: &mut Random) {
        let before = self.record;
        let reader = random.within(0, READERS - 1);
        match random.within(0, 9) {
            0 | 1 => self.start_reader(reader, random),
            2 => self.start_writer(random),
            3 => self.step(reader as usize + 1),
            4 => self.step(0),
            _ => return self.turn(),
        }
        assert_eq!(self.record.place, before.place);
    }

    /// What holds after each call.
    fn check(&mut self) {
        for (party, work) in self.works.iter().enumerate() {
            if is_at_work(&self.record, party) {
                self.seen.longest_wait = self.seen.longest_wait.max(work.waited);
            }
        }
        assert!(self.seen.longest_wait <= LONGEST_WAIT);
    }

    fn start_reader(&mut self, reader: u32, random: &mut Random) {
        let (record, slots) = (&mut self.record, &self.slots);
        let started = match random.within(0, 1) {
            0 => start_lookup(record, slots, reader, random.within(1, LAST_POINT)),
            _ => start_walk(record, slots, reader),
        };
        if started.is_ok() {
            self.works[reader as usize + 1] = Work::default();
        }
    }

    fn start_writer(&mut self, random: &mut Random) {
        let (record, slots) = (&mut self.record, &self.slots);
        let point = random.within(1, LAST_POINT);
        let started = match random.within(0, 3) {
            0 => start_removal(record, slots, point),
            _ => start_put(record, slots, point, 5),
        };
        if started.is_ok() {
            self.works[0] = Work::default();
        }
    }

    /// A party's own step.
    fn step(&mut self, party: usize) {
        let before = self.record;
        if let Ok(served) = own_step(&mut self.record, &mut self.slots, party) {
            self.stepped(&before, party, served);
        }
    }

    fn turn(&mut self) {
        let before = self.record;
        let Some(party) = next_served(&before) else {
            let refused = turn(&mut self.record, &mut self.slots);
            assert_eq!((refused, self.record), (Err(Refusal::Idle), before));
            return;
        };
        let (mut record, mut slots) = (before, self.slots.clone());
        let own = own_step(&mut record, &mut slots, party).expect("the party is at work");
        record.place = (party as u32 + 1) % 17;
        assert_eq!(turn(&mut self.record, &mut self.slots), Ok(own));
        assert_eq!((self.record, &self.slots), (record, &slots));
        for (other, work) in self.works.iter_mut().enumerate() {
            if is_at_work(&before, other) {
                work.turns += 1;
                work.waited += 1;
            }
        }
        self.seen.turns += 1;
        self.stepped(&before, party, own);
    }

    /// The party has made a step, with which its work may have ended.
    fn stepped(&mut self, before: &Record, party: usize, served: Served) {
        let work = &mut self.works[party];
        work.steps += 1;
        work.waited = 0;
        let is_walk = party > 0 && matches!(before.readers[party - 1], Reader::Walking { .. });
        let ends = !is_at_work(&self.record, party);
        let told = (ends && !is_walk).then_some(work.steps);
        assert_eq!(steps_told(served), told);
        if !ends {
            return;
        }
        assert!(work.turns <= 17 * work.steps);
        if party > 0 && !is_walk {
            assert!(work.turns <= 17 * (before.k + 1));
            self.seen.lookups += 1;
        }
    }
}

fn own_step(record: &mut Record, slots: &mut [u64], party: usize) -> Result<Served, Refusal> {
    if party == 0 {
        return step_writer(record, slots).map(Served::Writer);
    }
    let reader = party as u32 - 1;
    let step = step_reader(record, slots, reader)?;
    Ok(Served::Reader { reader, step })
}

/// Only an answer that ends an operation tells them.
fn steps_told(served: Served) -> Option<u32> {
    match served {
        Served::Writer(WriterStep::Ended(ended)) => Some(ended.steps),
        Served::Reader {
            step: Step::Ended(ended),
            ..
        } => Some(ended.steps),
        _ => None,
    }
}

fn is_at_work(record: &Record, party: usize) -> bool {
    match party {
        0 => record.writer != Writer::Idle,
        _ => record.readers[party - 1] != Reader::Idle,
    }
}

/// Of those at work, the one that is the fewest places from the record's place on.
fn next_served(record: &Record) -> Option<usize> {
    let at_work = (0..PARTIES).filter(|&party| is_at_work(record, party));
    at_work.min_by_key(|party| (party + PARTIES - record.place as usize) % PARTIES)
}
