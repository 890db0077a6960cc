//! The count of steps in work: its range, the longest operations, the count at its bound, and what
//! does not count. Points 1, 9 and 17 have the positions 0 4 2 6, 0 2 7 7 and 0 0 3 7 at m = 8.

use crate::reference_operations::{change, finish, lookup, put, removal};
use crate::reference_record::{
    Alteration, ChangeStage, PutStage, Reader, Record, RemovalStage, Search, Writer,
};
use crate::reference_table::{start_lookup, step_reader, word_of, Ending, Refusal, Step};
use crate::reference_turn::turn;
use crate::reference_writer::{start_put, step_writer, WriterStep};
use crate::test_steps::Panel;

/// The most steps that a lookup, a put, a change and a removal may take, by document 01.
pub fn bounds(k: u32) -> [u32; 4] {
    [k + 1, 2 * k + 2, k + 2, k + 3]
}

fn looking_up(steps: u32) -> Reader {
    Reader::LookingUp {
        point: 17,
        search: Search::Unread,
        steps,
    }
}

fn putting(steps: u32) -> Writer {
    Writer::Putting {
        point: 17,
        value: 7,
        stage: PutStage::Searching(Search::Unread),
        steps,
    }
}

fn changing(alteration: Alteration, steps: u32) -> Writer {
    Writer::Changing {
        point: 17,
        alteration,
        stage: ChangeStage::Searching(Search::Unread),
        steps,
    }
}

fn removing(steps: u32) -> Writer {
    Writer::Removing {
        point: 17,
        stage: RemovalStage::Searching(Search::Unread),
        steps,
    }
}

const GIVEN: Alteration = Alteration::Given { keep: 0, flip: 9 };

const COMMANDED: Alteration = Alteration::Commanded {
    station: 32,
    number: 1,
    action: 2,
};

impl Panel {
    fn with_writer(k: u32, writer: Writer) -> Self {
        let mut panel = Panel::new(k);
        panel.record.writer = writer;
        panel
    }

    fn with_reader(k: u32, work: Reader) -> Self {
        let mut panel = Panel::new(k);
        panel.record.readers[15] = work;
        panel
    }

    /// All positions of point 17 but the fourth are taken, by a point that nobody asks for.
    fn crowded(reach: u32) -> Self {
        let mut panel = Panel::new(4);
        panel.slots[0] = word_of(99, 0);
        panel.slots[3] = word_of(99, 0);
        panel.record.reach = reach;
        panel
    }
}

pub fn run() {
    ranges();
    longest();
    unaltered_lookups();
    writer_at_bound();
    reader_at_bound();
    starts_and_refusals();
}

/// Each operation with as many steps made as it may have, and with more.
fn ranges() {
    for k in [1, 4, 64] {
        let [lookup, put, change, removal] = bounds(k);
        range(lookup, |steps| Panel::with_reader(k, looking_up(steps)));
        range(put, |steps| Panel::with_writer(k, putting(steps)));
        range(change, |steps| {
            Panel::with_writer(k, changing(GIVEN, steps))
        });
        range(change, |steps| {
            Panel::with_writer(k, changing(COMMANDED, steps))
        });
        range(removal, |steps| Panel::with_writer(k, removing(steps)));
    }
}

fn range(bound: u32, panel: impl Fn(u32) -> Panel) {
    for (steps, fits) in [
        (0, true),
        (bound, true),
        (bound + 1, false),
        (u32::MAX, false),
    ] {
        let Panel { record, mut slots } = panel(steps);
        let mut after = record;
        let answer = turn(&mut after, &mut slots);
        assert_eq!(answer.is_ok(), fits, "{steps} steps: {answer:?}");
        if !fits {
            assert_eq!((answer, after), (Err(Refusal::Misfit), record));
        }
    }
}

/// Those that take as many steps as they may.
fn longest() {
    for reach in [3, 4] {
        let mut panel = Panel::crowded(reach);
        let Panel { record, slots } = &mut panel;
        let placed = Ending::Put { slot: 7, index: 4 };
        // With a reach of 4 one position more is searched, and the reach is not stored.
        assert_eq!(put(record, slots, 17, 7), Ok(placed.after(10)));
        assert_eq!(lookup(record, slots, 0, 17), Ok(Ending::Found(7).after(5)));
        assert_eq!(lookup(record, slots, 0, 9), Ok(Ending::Unknown.after(5)));
        let changed = change(record, slots, 17, 0, 9);
        assert_eq!(changed, Ok(Ending::Changed(9).after(6)));
        assert_eq!(removal(record, slots, 17), Ok(Ending::Removed(0).after(7)));
    }
}

/// Found on position i: i + 1. Not found: the reach and one more.
fn unaltered_lookups() {
    let mut panel = Panel::filled();
    let Panel { record, slots } = &mut panel;
    for (point, ending, steps) in [
        (1, Ending::Found(5), 2),
        (9, Ending::Found(6), 3),
        (17, Ending::Found(7), 4),
        (25, Ending::Unknown, 4),
    ] {
        assert_eq!(lookup(record, slots, 8, point), Ok(ending.after(steps)));
    }
}

/// Records that no history leads to: the count comes to its bound and stays there.
fn writer_at_bound() {
    let [_, put, change, removal] = bounds(4);
    let placed = Ending::Put { slot: 7, index: 4 };
    for left in [0, 1] {
        let mut panel = Panel::crowded(3);
        for (work, ending, bound) in [
            (putting(put - left), placed, put),
            (
                changing(COMMANDED, change - left),
                Ending::Changed(6),
                change,
            ),
            (removing(removal - left), Ending::Removed(0), removal),
        ] {
            panel.record.writer = work;
            let ended = finish(&mut panel.record, &mut panel.slots);
            assert_eq!(ended, Ok(ending.after(bound)));
        }
    }
}

/// The same of a lookup, and in its work too.
fn reader_at_bound() {
    let [bound, ..] = bounds(4);
    for left in [0, 1] {
        let Panel { mut record, slots } = Panel::crowded(4);
        record.readers[15] = looking_up(bound - left);
        for next in 1..=4 {
            assert_eq!(step_reader(&mut record, &slots, 15), Ok(Step::Underway));
            let work = Reader::LookingUp {
                point: 17,
                search: Search::Probing { reach: 4, next },
                steps: bound,
            };
            assert_eq!(record.readers[15], work);
        }
        let unknown = Step::Ended(Ending::Unknown.after(bound));
        assert_eq!(step_reader(&mut record, &slots, 15), Ok(unknown));
    }
}

/// A start sets 0 and is no step; neither is a step that is refused.
fn starts_and_refusals() {
    let mut panel = Panel::filled();
    let Panel { record, slots } = &mut panel;
    for _ in 0..2 {
        assert_eq!(start_lookup(record, slots, 15, 17), Ok(()));
        assert_eq!(record.readers[15], looking_up(0));
        assert_eq!(start_put(record, slots, 17, 7), Ok(()));
        assert_eq!(record.writer, putting(0));
        for _ in 0..3 {
            refused_steps(record, slots);
            assert_eq!(step_reader(record, slots, 15), Ok(Step::Underway));
            assert_eq!(step_writer(record, slots), Ok(WriterStep::Underway));
        }
        refused_steps(record, slots);
        let found = Step::Ended(Ending::Found(7).after(4));
        assert_eq!(step_reader(record, slots, 15), Ok(found));
        let placed = Ending::Put { slot: 3, index: 3 };
        assert_eq!(finish(record, slots), Ok(placed.after(5)));
    }
}

fn refused_steps(record: &mut Record, slots: &mut [u64; 8]) {
    let before = *record;
    let short = &mut slots[..7];
    assert_eq!(step_reader(record, short, 15), Err(Refusal::Misfit));
    assert_eq!(step_writer(record, short), Err(Refusal::Misfit));
    assert_eq!(turn(record, short), Err(Refusal::Misfit));
    assert_eq!(start_put(record, slots, 17, 7), Err(Refusal::Engaged));
    assert_eq!(*record, before);
}
