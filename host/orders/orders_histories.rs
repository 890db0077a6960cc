//! Lists of calls for the orders program, drawn while the second table carries them out, so that
//! steps and commands fit what is underway.

use crate::drawn_commands::Sent;
use crate::orders_spelling::Spelling;
use crate::random::Random;
use crate::reference_calls::{apply, Call};
use crate::reference_record::{Reader, Record, Writer};
use crate::reference_table::fresh;

/// The readers out of sixteen that are given work: the first and the last two, so that the place in
/// the circle of turns comes to 16 and back to 0.
const READERS: [u32; 3] = [0, 14, WALKER];
const WALKER: u32 = 15;

/// A history's panel, and what is drawn for it.
pub struct Sizes {
    pub m: u32,
    pub k: u32,
    /// Points from 1 on, so few that the same one is often looked up and altered.
    pub points: u32,
    pub lines: u32,
}

struct Drawing<'a> {
    random: &'a mut Random,
    record: Record,
    slots: Vec<u64>,
    points: u32,
}

/// A small panel, at times another one behind it.
pub fn small(random: &mut Random) -> Vec<u8> {
    let mut input = Vec::new();
    for _ in 0..random.within(1, 3) {
        let m = random.within(1, 10);
        let sizes = Sizes {
            m,
            k: random.within(1, 5),
            points: random.within(2, m + 3),
            lines: random.within(1, 250),
        };
        input.extend(of(random, &sizes));
    }
    if random.within(0, 3) == 0 {
        input.pop();
    }
    input
}

/// The lines of a history, its panel's first.
pub fn of(random: &mut Random, sizes: &Sizes) -> Vec<u8> {
    let &Sizes { m, k, points, .. } = sizes;
    let mut input = Spelling(random).panel(m, k);
    let mut slots = vec![0; m as usize];
    let (made, record) = fresh(&mut slots, m, k);
    assert_eq!(made, Ok(()));
    let mut drawing = Drawing {
        random,
        record,
        slots,
        points,
    };
    for _ in 0..sizes.lines {
        input.extend(drawing.line());
    }
    input
}

impl Drawing<'_> {
    fn line(&mut self) -> Vec<u8> {
        match self.random.within(0, 30) {
            0 => return Spelling(self.random).show(),
            1 => return Spelling(self.random).comment(),
            2 => return Spelling(self.random).unreadable(),
            3 => return Spelling(self.random).panel(0, 65),
            _ => {}
        }
        let (call, frame) = self.call();
        let line = Spelling(self.random).call(call, &frame);
        // The answer is worked out where the input is run.
        let _ = apply(&mut self.record, &mut self.slots, call, &frame);
        line
    }

    fn call(&mut self) -> (Call, Vec<u8>) {
        let reader = self.reader();
        let point = self.point();
        let call = match self.random.within(0, 24) {
            0 | 1 => Call::StartLookup { reader, point },
            2 if self.may_walk(reader) => Call::StartWalk { reader },
            2..=8 => Call::StepReader {
                reader: self.busy_reader(reader),
            },
            9 => return (Call::StartCommand, self.frame()),
            10 | 11 if self.record.writer == Writer::Idle => self.operation(point),
            12 => self.operation(point),
            20..=24 => Call::Turn,
            _ if self.record.writer != Writer::Idle => Call::StepWriter,
            13 | 14 => return (Call::StartCommand, self.frame()),
            15 => Call::StepWriter,
            _ => self.operation(point),
        };
        (call, Vec::new())
    }

    fn operation(&mut self, point: u32) -> Call {
        let value = self.random.within(0, 9);
        match self.random.within(0, 4) {
            0..=2 => Call::StartPut { point, value },
            3 => Call::StartChange {
                point,
                keep: !value,
                flip: value.rotate_right(2),
            },
            _ => Call::StartRemoval { point },
        }
    }

    /// Now and then one that is refused.
    fn point(&mut self) -> u32 {
        match self.random.within(0, 40) {
            0 => 0,
            1 => 2_147_483_647,
            2 => 2_147_483_646,
            _ => self.random.within(1, self.points),
        }
    }

    /// One of the three readers, and now and then one that is refused.
    fn reader(&mut self) -> u32 {
        match self.random.within(0, 30) {
            0 => 16,
            1 => u32::MAX,
            _ => self.random.one_of(&READERS),
        }
    }

    /// Where a walk is long only one reader walks, so that the others' lookups go on beside it.
    fn may_walk(&self, reader: u32) -> bool {
        self.slots.len() < 20 || reader == WALKER
    }

    /// Mostly a reader with work.
    fn busy_reader(&mut self, reader: u32) -> u32 {
        let works = self.record.readers.iter().enumerate();
        let busy = works.filter(|(_, work)| **work != Reader::Idle);
        let busy: Vec<u32> = busy.map(|(reader, _)| reader as u32).collect();
        if busy.is_empty() || self.random.within(0, 5) == 0 {
            reader
        } else {
            self.random.one_of(&busy)
        }
    }

    /// Mostly a command in its turn, and at times bytes that are none.
    fn frame(&mut self) -> Vec<u8> {
        let sent = Sent::draw(&self.record, self.points, self.random);
        let mut frame = sent.frame().to_vec();
        match self.random.within(0, 20) {
            0 => frame.truncate(self.random.within(0, 9) as usize),
            1 => frame.resize(self.random.within(11, 32) as usize, 0),
            2 => {
                let place = self.random.within(0, 9) as usize;
                frame[place] = self.random.byte();
            }
            _ => {}
        }
        frame
    }
}
