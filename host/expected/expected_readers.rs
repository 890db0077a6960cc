//! Lookups and walks over slots that no history leads to, and refusal 1 before the others.

use crate::reference_record::{Reader, Record, Search};
use crate::reference_table::{
    start_lookup, start_walk, step_reader, word_of, Ended, Ending, Refusal, Step,
};
use crate::refused;

pub fn run() {
    below_the_reach();
    refusal_order();
    nobodys_points();
    steps_at_their_bound();
    let mut panel = Record::fresh(1, 1);
    let begun = begin_walk(&mut panel, &[u64::MAX], 7);
    println!("{begun}{}", steps(&mut panel, &[u64::MAX], 7, 2));
}

fn panel_of(reach: u32) -> Record {
    Record {
        reach,
        ..Record::fresh(8, 4)
    }
}

/// Points 1, 9 and 17 on their positions 1, 2 and 3.
fn stored() -> [u64; 8] {
    let mut slots = [0; 8];
    slots[0] = word_of(1, 5);
    slots[2] = word_of(9, 6);
    slots[3] = word_of(17, 7);
    slots
}

pub fn start_answer(started: Result<(), Refusal>) -> String {
    match started {
        Ok(()) => " started".to_string(),
        Err(refusal) => refused(refusal as u32),
    }
}

pub fn ended_answer(Ended { ending, steps }: Ended) -> String {
    let ending = match ending {
        Ending::Found(value) => format!(" found {value}"),
        Ending::Put { slot, index } => format!(" placed {slot} {index}"),
        Ending::Changed(value) => format!(" changed {value}"),
        Ending::Removed(reach) => format!(" removed {reach}"),
        Ending::NoPerch => " ended".to_string() + &refused(6),
        Ending::Unknown => " ended".to_string() + &refused(7),
    };
    format!("{ending} steps {steps}")
}

fn step(panel: &mut Record, slots: &[u64], reader: u32) -> String {
    match step_reader(panel, slots, reader) {
        Ok(Step::Underway) => " underway".to_string(),
        Ok(Step::Ended(ended)) => ended_answer(ended),
        Ok(Step::Word(word)) => format!(" word {word}"),
        Ok(Step::LastWord(word)) => format!(" last {word}"),
        Err(refusal) => refused(refusal as u32),
    }
}

fn steps(panel: &mut Record, slots: &[u64], reader: u32, count: u32) -> String {
    (0..count).map(|_| step(panel, slots, reader)).collect()
}

fn begin_lookup(panel: &mut Record, slots: &[u64], reader: u32, point: u32) -> String {
    let answer = start_answer(start_lookup(panel, slots, reader, point));
    format!("lookup {reader} {point}:{answer}")
}

fn begin_walk(panel: &mut Record, slots: &[u64], reader: u32) -> String {
    let answer = start_answer(start_walk(panel, slots, reader));
    format!("walk {reader}:{answer}")
}

/// A lookup by this reach, with steps behind its end.
fn lookup(reach: u32, slots: &[u64], point: u32) {
    let mut panel = panel_of(reach);
    let begun = begin_lookup(&mut panel, slots, 0, point);
    println!("{begun}{}", steps(&mut panel, slots, 0, 6));
}

/// Points are stored above the reach, and none up to it.
fn below_the_reach() {
    let slots = stored();
    for (reach, point) in [(2, 17), (0, 1), (4, 2_147_483_646)] {
        lookup(reach, &slots, point);
    }
}

fn nobodys_points() {
    let mut slots = [0; 8];
    slots[0] = word_of(0, 5);
    slots[4] = word_of(2_147_483_647, 5);
    slots[2] = word_of(4_294_967_295, 5);
    lookup(4, &slots, 1);
    lookup(4, &slots, 9);
}

/// As many steps made as a lookup may take, though it has read nothing yet: the count stays.
fn steps_at_their_bound() {
    let mut panel = panel_of(3);
    panel.readers[0] = Reader::LookingUp {
        point: 17,
        search: Search::Unread,
        steps: 5,
    };
    let answers = steps(&mut panel, &stored(), 0, 6);
    println!("lookup at its bound:{answers}");
}

/// A record out of range, one in range, and a slot too few, each with the faults that are judged later.
fn refusal_order() {
    let slots = stored();
    for (reach, slots) in [(5, &slots[..]), (3, &slots[..]), (3, &[0; 7])] {
        println!("{}", begin_lookup(&mut panel_of(reach), slots, 16, 0));
        println!("{}", begin_walk(&mut panel_of(reach), slots, u32::MAX));
        println!("step:{}", step(&mut panel_of(reach), slots, 16));
    }
}
