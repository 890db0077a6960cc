//! Steps of the writer and of readers in any order, by turns too, against the plain list: document
//! 01's claim about every list of calls, walks, the bounds on steps, and the number of steps that each
//! operation tells, which is counted here from the calls.

use crate::answer_of;
use crate::drawn_commands::Sent;
use crate::plain_feeding::{feed, stores_slot, Answer};
use crate::plain_list::PlainList;
use crate::random::Random;
use crate::reference_command;
use crate::reference_record::{Reader, Record, Writer};
use crate::reference_table::{fresh, start_lookup, start_walk, step_reader, Ending, Refusal, Step};
use crate::reference_turn::{turn, Served};
use crate::reference_writer::{start_change, start_put, start_removal, step_writer, WriterStep};
use crate::test_commands::Notes;
use crate::test_step_counts::bounds;
use crate::test_walks::{Ended, Walk};
use std::collections::HashSet;

const PANELS: u32 = 1500;
const CALLS: u32 = 400;
const READERS: u32 = 3;

/// More walks than these must come to their end, and more while the list is altered.
const WALKS: u32 = 10_000;
const WALKS_ALTERED: u32 = 5_000;

/// Of each, one must take as many steps as it may.
const OPERATIONS: [&str; 4] = ["lookup", "put", "change", "removal"];

/// Points and one that is refused, so few that the same one is often looked up and altered.
const LAST_POINT: u32 = 7;

/// A reader's lookup.
#[derive(Clone, Default)]
struct Lookup {
    point: u32,
    steps: u32,
    /// What the plain list gave after each call since the first step.
    moments: Vec<Option<u32>>,
}

struct World {
    record: Record,
    slots: Vec<u64>,
    list: PlainList,
    lookups: Vec<Lookup>,
    walks: Vec<Walk>,
    walks_ended: Ended,
    writer_steps: u32,
    /// The operations that took as many steps as they may.
    longest: HashSet<&'static str>,
    /// What the plain list answered when it was fed the writer's operation.
    fed: Option<Answer>,
    commands: Notes,
}

/// The number of calls made, and the walks that came to their end.
pub fn run() -> (u32, Ended) {
    let mut random = Random(3);
    let mut ended = Ended::default();
    let mut longest = HashSet::new();
    for _ in 0..PANELS {
        let mut world = World::new(random.within(1, 6), random.within(1, 5));
        for _ in 0..CALLS {
            world.call(&mut random);
            world.check();
        }
        ended.walks += world.walks_ended.walks;
        ended.altered += world.walks_ended.altered;
        longest.extend(world.longest);
    }
    assert_eq!(longest, HashSet::from(OPERATIONS));
    assert!(ended.walks > WALKS && ended.altered > WALKS_ALTERED);
    (PANELS * CALLS, ended)
}

impl World {
    fn new(m: u32, k: u32) -> Self {
        let mut slots = vec![0; m as usize];
        let (_, record) = fresh(&mut slots, m, k);
        World {
            record,
            slots,
            list: PlainList::new(m, k),
            lookups: vec![Lookup::default(); READERS as usize],
            walks: vec![Walk::default(); READERS as usize],
            walks_ended: Ended::default(),
            writer_steps: 0,
            longest: HashSet::new(),
            fed: None,
            commands: Notes::default(),
        }
    }

    /// One call, which may be refused.
    fn call(&mut self, random: &mut Random) {
        let reader = random.within(0, READERS - 1);
        match random.within(0, 13) {
            0 => self.start_lookup(reader, random.within(0, LAST_POINT)),
            10 => self.start_walk(reader),
            1..=4 => self.step_reader(reader),
            5 => self.start_writer(random),
            6 => self.start_command(random),
            7..=9 => self.step_writer(),
            _ => self.turn(),
        }
    }

    /// What holds after each call.
    fn check(&mut self) {
        assert!(self.record.in_range());
        assert_eq!(self.slots, self.list.slots());
        for (work, lookup) in self.record.readers.iter().zip(&mut self.lookups) {
            if let Reader::LookingUp { steps, .. } = *work {
                assert_eq!(steps, lookup.steps);
                if steps > 0 {
                    lookup.moments.push(self.list.lookup(lookup.point));
                }
            }
        }
        if let Writer::Putting { steps, .. }
        | Writer::Changing { steps, .. }
        | Writer::Removing { steps, .. } = self.record.writer
        {
            assert_eq!(steps, self.writer_steps);
        }
        for walk in &mut self.walks {
            walk.moment(&self.list);
        }
    }

    fn start_lookup(&mut self, reader: u32, point: u32) {
        if start_lookup(&mut self.record, &self.slots, reader, point).is_ok() {
            self.lookups[reader as usize] = Lookup {
                point,
                ..Lookup::default()
            };
        }
    }

    fn start_walk(&mut self, reader: u32) {
        if start_walk(&mut self.record, &self.slots, reader).is_ok() {
            self.walks[reader as usize] = Walk::default();
        }
    }

    fn step_reader(&mut self, reader: u32) {
        let work = self.record.readers[reader as usize];
        let answer = step_reader(&mut self.record, &self.slots, reader);
        self.reader_stepped(reader, work, answer);
    }

    fn turn(&mut self) {
        let before = self.record;
        match turn(&mut self.record, &mut self.slots) {
            Ok(Served::Writer(step)) => self.writer_stepped(&before, Ok(step)),
            Ok(Served::Reader { reader, step }) => {
                let work = before.readers[reader as usize];
                self.reader_stepped(reader, work, Ok(step));
            }
            Err(refusal) => {
                assert_eq!((refusal, before.writer), (Refusal::Idle, Writer::Idle));
                assert_eq!(before.readers, [Reader::Idle; 16]);
            }
        }
    }

    /// The reader had this work before the step.
    fn reader_stepped(&mut self, reader: u32, work: Reader, answer: Result<Step, Refusal>) {
        match work {
            Reader::Idle => assert_eq!(answer, Err(Refusal::Idle)),
            Reader::LookingUp { .. } => self.lookup_stepped(reader, answer),
            Reader::Walking { .. } => self.walk_stepped(reader, answer),
        }
    }

    fn walk_stepped(&mut self, reader: u32, answer: Result<Step, Refusal>) {
        let (word, is_last) = match answer {
            Ok(Step::Word(word)) => (word, false),
            Ok(Step::LastWord(word)) => (word, true),
            other => panic!("a walk's step gave {other:?}"),
        };
        let walk = &mut self.walks[reader as usize];
        walk.stepped(word, is_last, &self.list, &mut self.walks_ended);
    }

    fn lookup_stepped(&mut self, reader: u32, answer: Result<Step, Refusal>) {
        let lookup = &mut self.lookups[reader as usize];
        lookup.steps += 1;
        let ended = match answer {
            Ok(Step::Underway) => return,
            Ok(Step::Ended(ended)) => ended,
            other => panic!("a lookup's step gave {other:?}"),
        };
        let value = match ended.ending {
            Ending::Found(value) => Some(value),
            Ending::Unknown => None,
            other => panic!("a lookup ended with {other:?}"),
        };
        let now = self.list.lookup(lookup.point);
        assert!(value == now || lookup.moments.contains(&value));
        assert_eq!(ended.steps, lookup.steps);
        let [bound, ..] = bounds(self.record.k);
        self.ended_in_time(ended.steps, ("lookup", bound));
    }

    /// An operation that may take so many steps at most took these.
    fn ended_in_time(&mut self, steps: u32, (operation, bound): (&'static str, u32)) {
        assert!(steps <= bound);
        if steps == bound {
            self.longest.insert(operation);
        }
    }

    fn start_writer(&mut self, random: &mut Random) {
        let point = random.within(0, LAST_POINT);
        let value = random.within(0, u32::MAX);
        let (record, slots) = (&mut self.record, &self.slots);
        // A refused start has no answer to be checked.
        let _ = match random.within(0, 3) {
            0 | 1 => start_put(record, slots, point, value),
            2 => start_change(record, slots, point, value, value.rotate_left(9)),
            _ => start_removal(record, slots, point),
        };
    }

    fn start_command(&mut self, random: &mut Random) {
        let work = self.record.writer;
        let sent = Sent::draw(&self.record, LAST_POINT, random);
        let (record, slots) = (&mut self.record, &self.slots);
        let answer = reference_command::start_command(record, slots, &sent.frame());
        self.commands.answered(sent, answer, work);
    }

    fn step_writer(&mut self) {
        let before = self.record;
        let answer = step_writer(&mut self.record, &mut self.slots);
        self.writer_stepped(&before, answer);
    }

    fn writer_stepped(&mut self, before: &Record, answer: Result<WriterStep, Refusal>) {
        let ended = match answer {
            Ok(WriterStep::Underway) => None,
            Ok(WriterStep::Ended(ended)) => Some(ended),
            Err(refusal) => {
                assert_eq!((refusal, before.writer), (Refusal::Idle, Writer::Idle));
                return;
            }
        };
        self.writer_steps += 1;
        if stores_slot(before) || (ended.is_some() && self.fed.is_none()) {
            assert_eq!(self.fed, None);
            self.fed = Some(feed(&mut self.list, before.writer));
        }
        if stores_slot(before) {
            self.commands.slot_stored();
        }
        if let Some(ended) = ended {
            let answer = answer_of(ended.ending);
            assert_eq!(Some(answer), self.fed.take());
            assert_eq!(ended.steps, self.writer_steps);
            self.ended_in_time(ended.steps, bound(before));
            self.writer_steps = 0;
            self.commands.operation_ended(answer, &self.record);
        }
    }
}

/// The writer's operation, and the most steps that it may take.
fn bound(record: &Record) -> (&'static str, u32) {
    let [_, put, change, removal] = bounds(record.k);
    match record.writer {
        Writer::Idle => panic!("no operation is underway"),
        Writer::Putting { .. } => ("put", put),
        Writer::Changing { .. } => ("change", change),
        Writer::Removing { .. } => ("removal", removal),
    }
}
