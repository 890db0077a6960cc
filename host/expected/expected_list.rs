//! The plain list beside slots that do not show it, and in slices too short for it.

use crate::expected_operations::spaced;
use crate::reference_record::Record;
use crate::reference_table::word_of;
use crate::reference_writer::{start_put, step_writer};

/// The words of the list's rows, and their places.
const PLACES: [usize; 2] = [0, 2];

pub fn run() {
    let shown = [word_of(1, 5), 0, word_of(9, 6), 0];
    let mut other_value = shown;
    other_value[2] = word_of(9, 7);
    let mut no_row = shown;
    no_row[3] = word_of(17, 7);
    for slots in [shown, other_value, no_row] {
        for rows in 0..3 {
            verdict(&slots, rows);
        }
    }
    no_room();
}

/// "the slots are 0 except for each row's word at its place"
fn verdict(slots: &[u64], rows: usize) {
    let words = [word_of(1, 5), word_of(9, 6)];
    let listed = |place| {
        let row = PLACES[..rows].iter().position(|&there| there == place);
        row.map_or(0, |row| words[row])
    };
    let shows = (0..slots.len()).all(|slot| slots[slot] == listed(slot));
    let answer = if shows { "yes" } else { "no" };
    println!("shown: {answer} {} {}", listed(0), listed(2));
}

/// A put on a panel of one slot, beside slices without an entry: the list gets no row.
fn no_room() {
    let mut panel = Record::fresh(1, 1);
    let mut slots = [0];
    start_put(&mut panel, &slots, 1, 5).expect("a put is started");
    println!("rows 0 slots{}", spaced(&slots));
    for _ in 0..4 {
        step_writer(&mut panel, &mut slots).expect("a step is made");
        println!("rows 0 slots{}", spaced(&slots));
    }
}
