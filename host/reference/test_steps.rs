//! The writer's steps one by one, with the record after each. The points 1, 9 and 17 have the
//! positions 0 4 2 6, 0 2 7 7 and 0 0 3 7 at m = 8.

use crate::reference_operations::{change, finish, lookup, put, removal};
use crate::reference_record::{
    Alteration, ChangeStage, Place, PutStage, Record, RemovalStage, Search, Station, Writer,
};
use crate::reference_table::{fresh, word_of, Ending, Refusal};
use crate::reference_writer::{
    change_before_steps, start_change, start_put, start_removal, step_writer, WriterStep,
};

const UNDERWAY: Result<WriterStep, Refusal> = Ok(WriterStep::Underway);

pub struct Panel {
    pub record: Record,
    pub slots: [u64; 8],
}

impl Panel {
    pub fn new(k: u32) -> Self {
        let mut slots = [0; 8];
        let (made, record) = fresh(&mut slots, 8, k);
        assert_eq!(made, Ok(()));
        Panel { record, slots }
    }

    /// Points 1, 9 and 17 on their positions 1, 2 and 3, with the values 5, 6 and 7.
    pub fn filled() -> Self {
        let mut panel = Panel::new(4);
        for (point, value, slot, index, steps) in
            [(1, 5, 0, 1, 4), (9, 6, 2, 2, 6), (17, 7, 3, 3, 8)]
        {
            let answer = put(&mut panel.record, &mut panel.slots, point, value);
            assert_eq!(answer, Ok(Ending::Put { slot, index }.after(steps)));
        }
        panel
    }

    fn step(&mut self) -> Result<WriterStep, Refusal> {
        step_writer(&mut self.record, &mut self.slots)
    }

    /// A step that leaves the slots and says underway.
    fn step_to(&mut self, after: Writer) {
        let slots = self.slots;
        assert_eq!(self.step(), UNDERWAY);
        assert_eq!(self.record.writer, after);
        assert_eq!(self.slots, slots);
    }

    /// The last step, which leaves the writer idle.
    fn end_with(&mut self, ending: Ending, steps: u32) {
        assert_eq!(self.step(), Ok(WriterStep::Ended(ending.after(steps))));
        assert_eq!(self.record.writer, Writer::Idle);
        assert_eq!(self.step(), Err(Refusal::Idle));
    }
}

pub fn run() {
    first_put();
    put_of_stored_point();
    put_without_perch();
    put_stores_without_look();
    remembered_reach();
    given_change();
    commands();
    removals();
    removal_on_other_records();
    refusals();
    marked_values();
}

fn probing(reach: u32, next: u32) -> Search {
    Search::Probing { reach, next }
}

/// With reach 0 the first step ends only the search; the reach is stored before the slot.
fn first_put() {
    let mut panel = Panel::new(4);
    let at = |stage, steps| Writer::Putting {
        point: 1,
        value: 5,
        stage,
        steps,
    };
    assert_eq!(start_put(&mut panel.record, &panel.slots, 1, 5), Ok(()));
    let begun = at(PutStage::Searching(Search::Unread), 0);
    assert_eq!(panel.record.writer, begun);
    panel.step_to(at(PutStage::Scanning(1), 1));
    panel.step_to(at(PutStage::Chosen(1), 2));
    assert_eq!(panel.record.reach, 0);
    panel.step_to(at(PutStage::Chosen(1), 3));
    assert_eq!((panel.record.reach, panel.record.counts[0]), (1, 0));
    panel.end_with(Ending::Put { slot: 0, index: 1 }, 4);
    assert_eq!((panel.record.reach, panel.record.counts[0]), (1, 1));
    assert_eq!(panel.slots, [word_of(1, 5), 0, 0, 0, 0, 0, 0, 0]);
}

fn put_of_stored_point() {
    let mut panel = Panel::filled();
    let counts = panel.record.counts;
    let at = |stage, steps| Writer::Putting {
        point: 9,
        value: 8,
        stage,
        steps,
    };
    assert_eq!(start_put(&mut panel.record, &panel.slots, 9, 8), Ok(()));
    panel.step_to(at(PutStage::Searching(probing(3, 1)), 1));
    panel.step_to(at(PutStage::Searching(probing(3, 2)), 2));
    panel.step_to(at(PutStage::Found(Place { index: 2, value: 6 }), 3));
    panel.end_with(Ending::Put { slot: 2, index: 2 }, 4);
    assert_eq!(panel.slots[2], word_of(9, 8));
    assert_eq!((panel.record.reach, panel.record.counts), (3, counts));
}

/// With k = 2 and point 1 stored, 17 has no empty position though seven slots are empty.
fn put_without_perch() {
    let mut panel = Panel::new(2);
    assert!(put(&mut panel.record, &mut panel.slots, 1, 5).is_ok());
    let at = |stage, steps| Writer::Putting {
        point: 17,
        value: 7,
        stage,
        steps,
    };
    assert_eq!(start_put(&mut panel.record, &panel.slots, 17, 7), Ok(()));
    panel.step_to(at(PutStage::Searching(probing(1, 1)), 1));
    panel.step_to(at(PutStage::Scanning(1), 2));
    panel.step_to(at(PutStage::Scanning(2), 3));
    panel.end_with(Ending::NoPerch, 4);
    assert_eq!(panel.record.reach, 1);
}

/// Records that no history leads to: the step stores all the same, and a count stays in its range.
fn put_stores_without_look() {
    let putting = |stage| Writer::Putting {
        point: 17,
        value: 9,
        stage,
        steps: 0,
    };
    let mut panel = Panel::filled();
    panel.record.counts[0] = 8;
    panel.record.writer = putting(PutStage::Chosen(1));
    panel.end_with(Ending::Put { slot: 0, index: 1 }, 1);
    assert_eq!(
        (panel.record.counts[0], panel.slots[0]),
        (8, word_of(17, 9))
    );

    let mut panel = Panel::filled();
    let place = Place { index: 4, value: 1 };
    panel.record.writer = putting(PutStage::Found(place));
    panel.end_with(Ending::Put { slot: 7, index: 4 }, 1);
    assert_eq!((panel.record.reach, panel.slots[7]), (3, word_of(17, 9)));
}

/// A search ends by the reach that it read, whatever the record's reach is by then.
fn remembered_reach() {
    let at = |remembered, next, steps| Writer::Removing {
        point: 17,
        stage: RemovalStage::Searching(probing(remembered, next)),
        steps,
    };
    for (remembered, now) in [(1, 3), (2, 1)] {
        let mut panel = Panel::filled();
        panel.record.reach = now;
        panel.record.writer = at(remembered, 1, 1);
        for next in 2..=remembered {
            panel.step_to(at(remembered, next, next));
        }
        panel.end_with(Ending::Unknown, remembered + 1);
    }
}

/// The value stored follows from the one read in the search.
fn given_change() {
    let mut panel = Panel::filled();
    let at = |stage, steps| Writer::Changing {
        point: 1,
        alteration: Alteration::Given {
            keep: 0xFFFF_FFFE,
            flip: 0x8000_0002,
        },
        stage,
        steps,
    };
    let started = start_change(&mut panel.record, &panel.slots, 1, 0xFFFF_FFFE, 0x8000_0002);
    assert_eq!(started, Ok(()));
    panel.step_to(at(ChangeStage::Searching(probing(3, 1)), 1));
    panel.step_to(at(ChangeStage::Found(Place { index: 1, value: 5 }), 2));
    panel.slots[0] = word_of(99, 99);
    panel.end_with(Ending::Changed(0x8000_0006), 3);
    assert_eq!(panel.slots[0], word_of(1, 0x8000_0006));

    let mut empty = Panel::new(4);
    let answer = change(&mut empty.record, &mut empty.slots, 1, 0, 0);
    assert_eq!(answer, Ok(Ending::Unknown.after(1)));
}

/// A command is kept in the step that ends it, and not before.
fn commands() {
    for (action, before, after) in [
        (0, 5, 4),
        (0, 4, 4),
        (1, 4, 5),
        (1, 5, 5),
        (2, 4, 5),
        (2, 5, 4),
    ] {
        command(9, before, action, Some(after));
    }
    command(25, 0, 2, None);
}

fn command(point: u32, before: u32, action: u32, kept: Option<u32>) {
    let mut panel = Panel::filled();
    panel.slots[2] = word_of(9, before);
    let alteration = Alteration::Commanded {
        station: 32,
        number: 7,
        action,
    };
    panel.record.writer = change_before_steps(point, alteration);
    let mut expected = panel.record.stations;
    for _ in 0..3 {
        assert_eq!(panel.step(), UNDERWAY);
        assert_eq!(panel.record.stations, expected);
    }
    panel.end_with(kept.map_or(Ending::Unknown, Ending::Changed), 4);
    expected[31] = Station {
        number: 7,
        point,
        action,
        answer: kept,
    };
    assert_eq!(panel.record.stations, expected);
}

/// The reach is lowered in a step behind the one that empties the slot, if at all.
fn removals() {
    let mut panel = Panel::filled();
    let answer = removal(&mut panel.record, &mut panel.slots, 9);
    assert_eq!(answer, Ok(Ending::Removed(3).after(4)));
    let at = |stage, steps| Writer::Removing {
        point: 17,
        stage,
        steps,
    };
    assert_eq!(start_removal(&mut panel.record, &panel.slots, 17), Ok(()));
    panel.step_to(at(RemovalStage::Searching(probing(3, 1)), 1));
    panel.step_to(at(RemovalStage::Searching(probing(3, 2)), 2));
    panel.step_to(at(RemovalStage::Searching(probing(3, 3)), 3));
    panel.step_to(at(RemovalStage::Found(Place { index: 3, value: 7 }), 4));
    assert_eq!(panel.step(), UNDERWAY);
    assert_eq!(panel.record.writer, at(RemovalStage::Lowering, 5));
    assert_eq!(
        (panel.slots[3], panel.record.reach, panel.record.counts[2]),
        (0, 3, 0)
    );
    panel.end_with(Ending::Removed(1), 6);
    let answer = removal(&mut panel.record, &mut panel.slots, 1);
    assert_eq!(answer, Ok(Ending::Removed(0).after(4)));
    assert_eq!((panel.slots, panel.record.reach), ([0; 8], 0));
    let answer = removal(&mut panel.record, &mut panel.slots, 1);
    assert_eq!(answer, Ok(Ending::Unknown.after(1)));
}

/// Records that no history leads to: a count of 0 stays, and the largest index counted is looked
/// for in all of 1 to k. A reach whose count is not 0 stays.
fn removal_on_other_records() {
    let found = |index| Writer::Removing {
        point: 17,
        stage: RemovalStage::Found(Place { index, value: 7 }),
        steps: 0,
    };
    let mut panel = Panel::filled();
    panel.record.counts = [0; 64];
    panel.record.counts[3] = 1;
    panel.record.counts[4] = 1;
    panel.record.writer = found(2);
    panel.end_with(Ending::Removed(3), 1);
    assert_eq!((panel.slots[0], panel.record.counts[1]), (0, 0));
    panel.record.counts[2] = 2;
    panel.record.writer = found(3);
    panel.end_with(Ending::Removed(3), 1);
    panel.record.writer = found(3);
    assert_eq!(panel.step(), UNDERWAY);
    panel.end_with(Ending::Removed(4), 2);
    assert_eq!(panel.record.reach, 4);
}

/// Each call with the faults that are judged later too.
fn refusals() {
    let mut panel = Panel::filled();
    let (record, slots) = (&mut panel.record, &mut panel.slots);
    assert_eq!(start_removal(record, slots, 1), Ok(()));
    let mut broken = Record {
        reach: 5,
        ..*record
    };
    assert_eq!(start_put(&mut broken, slots, 0, 5), Err(Refusal::Misfit));
    assert_eq!(step_writer(&mut broken, slots), Err(Refusal::Misfit));
    let engaged = *record;
    for point in [0, 2_147_483_647, u32::MAX] {
        assert_eq!(
            start_put(record, &slots[..7], point, 5),
            Err(Refusal::Misfit)
        );
        assert_eq!(start_put(record, slots, point, 5), Err(Refusal::Address));
        assert_eq!(
            start_change(record, slots, point, 0, 0),
            Err(Refusal::Address)
        );
        assert_eq!(start_removal(record, slots, point), Err(Refusal::Address));
    }
    assert_eq!(
        start_put(record, slots, 2_147_483_646, 5),
        Err(Refusal::Engaged)
    );
    assert_eq!(start_change(record, slots, 1, 0, 0), Err(Refusal::Engaged));
    assert_eq!(start_removal(record, slots, 1), Err(Refusal::Engaged));
    assert_eq!(*record, engaged);
    assert_eq!(finish(record, slots), Ok(Ending::Removed(3).after(3)));
    let mut idle = Record { k: 65, ..*record };
    assert_eq!(step_writer(&mut idle, slots), Err(Refusal::Misfit));
    assert_eq!(step_writer(record, slots), Err(Refusal::Idle));
}

/// Document 01's, as far as they are about whole operations.
fn marked_values() {
    let mut panel = Panel::filled();
    let found = lookup(&mut panel.record, &panel.slots, 15, 17);
    assert_eq!(found, Ok(Ending::Found(7).after(4)));
    let answer = put(&mut panel.record, &mut panel.slots, 2_147_483_646, 1);
    assert!(answer.is_ok());

    let mut slots = [0];
    let (_, mut record) = fresh(&mut slots, 1, 64);
    let answer = put(&mut record, &mut slots, 1, 5);
    assert_eq!(answer, Ok(Ending::Put { slot: 0, index: 1 }.after(4)));
    let answer = put(&mut record, &mut slots, 2, 5);
    assert_eq!(answer, Ok(Ending::NoPerch.after(66)));
    assert_eq!(slots, [word_of(1, 5)]);
}
