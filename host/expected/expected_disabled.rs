//! The disabled total and the one-line display.

use crate::reference_record::Record;
use crate::reference_table::{disabled_point, disabled_total, word_of, Refusal};
use crate::refused;
use std::fmt::Display;

pub fn run() {
    let panel = Record::fresh(8, 4);
    let mut slots = [0; 8];
    disabled(&panel, &slots);
    slots[0] = word_of(0, 1);
    slots[1] = word_of(2_147_483_647, 1);
    slots[2] = word_of(20, 4_294_967_294);
    disabled(&panel, &slots);
    slots[3] = word_of(2_147_483_646, 1);
    disabled(&panel, &slots);
    slots[4] = word_of(9, 9);
    slots[5] = word_of(7, 4_294_967_295);
    slots[7] = word_of(8, 3);
    disabled(&panel, &slots);
    disabled(&Record::fresh(8, 0), &slots);
    disabled(&panel, &slots[..7]);
}

fn disabled(panel: &Record, slots: &[u64]) {
    let total = answer(disabled_total(panel, slots));
    let point = answer(disabled_point(panel, slots));
    println!("disabled:{total}{point}");
}

fn answer(number: Result<impl Display, Refusal>) -> String {
    match number {
        Ok(number) => format!(" {number}"),
        Err(refusal) => refused(refusal as u32),
    }
}
