//! Turns one by one: refusals, the circle, the place, and the longest that a lookup may take.

use crate::reference_operations::put;
use crate::reference_record::{Reader, Record};
use crate::reference_table::{fresh, start_lookup, start_walk, step_reader, Ending, Refusal, Step};
use crate::reference_turn::{turn, Served};
use crate::reference_writer::{start_put, step_writer, WriterStep};

const READERS: u32 = 16;
const PARTIES: u32 = 17;

struct Panel {
    record: Record,
    slots: Vec<u64>,
}

impl Panel {
    fn new(m: u32, k: u32) -> Self {
        let mut slots = vec![0; m as usize];
        let (made, record) = fresh(&mut slots, m, k);
        assert_eq!(made, Ok(()));
        Panel { record, slots }
    }

    /// All seventeen parties have work that takes more than one step.
    fn busy(m: u32, k: u32) -> Self {
        let mut panel = Panel::new(m, k);
        panel.begin_put(1);
        for reader in 0..READERS {
            panel.begin_walk(reader);
        }
        panel
    }

    fn begin_put(&mut self, point: u32) {
        assert_eq!(start_put(&mut self.record, &self.slots, point, 5), Ok(()));
    }

    fn begin_walk(&mut self, reader: u32) {
        assert_eq!(start_walk(&mut self.record, &self.slots, reader), Ok(()));
    }

    fn begin_lookup(&mut self, reader: u32, point: u32) {
        let started = start_lookup(&mut self.record, &self.slots, reader, point);
        assert_eq!(started, Ok(()));
    }

    fn turn(&mut self) -> Result<Served, Refusal> {
        turn(&mut self.record, &mut self.slots)
    }

    /// A turn that serves the party, and the place behind it.
    fn serves(&mut self, party: u32, place: u32) {
        let served = self.turn().expect("a party is at work");
        assert_eq!((party_of(served), self.record.place), (party, place));
    }
}

fn party_of(served: Served) -> u32 {
    match served {
        Served::Writer(_) => 0,
        Served::Reader { reader, .. } => reader + 1,
    }
}

pub fn run() {
    refusals();
    circle();
    idle_passed_over();
    place_stays();
    endings();
    longest_lookup();
}

/// 1 goes before 5, and 1 covers the place; neither alters anything.
fn refusals() {
    for (place, lent, refusal) in [
        (17, 8, Refusal::Misfit),
        (u32::MAX, 8, Refusal::Misfit),
        (0, 7, Refusal::Misfit),
        (0, 8, Refusal::Idle),
        (16, 8, Refusal::Idle),
    ] {
        let mut record = Panel::new(8, 4).record;
        record.place = place;
        let before = record;
        assert_eq!(turn(&mut record, &mut [0; 8][..lent]), Err(refusal));
        assert_eq!(record, before);
    }
    let mut panel = Panel::busy(8, 4);
    panel.record.place = 17;
    assert_eq!(panel.turn(), Err(Refusal::Misfit));
    let (_, zeros) = fresh(&mut [], 0, 0);
    assert_eq!((zeros.place, Record::fresh(8, 4).place), (0, 0));
}

fn circle() {
    let mut panel = Panel::busy(8, 4);
    for _ in 0..2 {
        for party in 0..PARTIES {
            panel.serves(party, (party + 1) % PARTIES);
        }
    }
}

fn idle_passed_over() {
    let mut panel = Panel::new(8, 4);
    for reader in [3, 15] {
        panel.begin_walk(reader);
    }
    for _ in 0..2 {
        panel.serves(4, 5);
        panel.serves(16, 0);
    }
    // The place is 5 when parties 3 and 5 begin: 5 is served at once, 3 only behind 16.
    panel.serves(4, 5);
    panel.begin_walk(2);
    panel.begin_walk(4);
    panel.serves(5, 6);
    panel.serves(16, 0);
    panel.serves(3, 4);
    panel.serves(4, 5);
}

/// Neither a start nor a direct step nor a refusal moves the place.
fn place_stays() {
    let mut panel = Panel::busy(8, 4);
    panel.serves(0, 1);
    panel.serves(1, 2);
    let Panel { record, slots } = &mut panel;
    assert_eq!(step_writer(record, slots), Ok(WriterStep::Underway));
    assert_eq!(step_reader(record, slots, 1), Ok(Step::Word(0)));
    assert_eq!(step_reader(record, slots, 16), Err(Refusal::Reader));
    assert_eq!(start_put(record, slots, 9, 6), Err(Refusal::Engaged));
    assert_eq!(start_walk(record, slots, 1), Err(Refusal::Engaged));
    assert_eq!(record.place, 2);
    panel.serves(2, 3);
}

/// 6 and 7 come with the party that they end, and with its own steps alone.
fn endings() {
    let mut panel = Panel::new(1, 1);
    assert!(put(&mut panel.record, &mut panel.slots, 1, 5).is_ok());
    assert_eq!(panel.record.place, 0);
    panel.begin_put(2);
    panel.begin_lookup(15, 2);
    panel.begin_walk(7);
    let underway = Served::Writer(WriterStep::Underway);
    let reader = |reader, step| Ok(Served::Reader { reader, step });
    assert_eq!(panel.turn(), Ok(underway));
    assert_eq!(panel.turn(), reader(7, Step::LastWord(panel.slots[0])));
    assert_eq!(panel.turn(), reader(15, Step::Underway));
    assert_eq!(panel.turn(), Ok(underway));
    let unknown = Step::Ended(Ending::Unknown.after(2));
    assert_eq!(panel.turn(), reader(15, unknown));
    let no_perch = WriterStep::Ended(Ending::NoPerch.after(3));
    assert_eq!(panel.turn(), Ok(Served::Writer(no_perch)));
    let ended = panel.record;
    assert_eq!(panel.turn(), Err(Refusal::Idle));
    assert_eq!((panel.record, ended.place), (ended, 1));
}

/// All others are served between any two of its steps: 17(k + 1) turns, and not one more.
fn longest_lookup() {
    let mut panel = Panel::busy(64, 4);
    panel.record.reach = 4;
    panel.record.readers[3] = Reader::Idle;
    panel.record.place = 5;
    panel.begin_lookup(3, 1);
    for _ in 1..17 * 5 {
        let served = panel.turn().expect("all are at work");
        let ends = matches!(
            served,
            Served::Reader {
                step: Step::Ended(_),
                ..
            }
        );
        assert!(!ends);
    }
    let unknown = Served::Reader {
        reader: 3,
        step: Step::Ended(Ending::Unknown.after(5)),
    };
    assert_eq!(panel.turn(), Ok(unknown));
}
