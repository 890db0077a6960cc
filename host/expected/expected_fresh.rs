//! Fresh panels of which the number of slots lent or m is at fault: the slots stay as they were.

use crate::reference_table::{fresh, Refusal};
use crate::refused;

pub fn run() {
    for (lent, m, k) in [(3, 4, 4), (4, 3, 4), (4, 5, 4), (4, 4, 1)] {
        let mut slots = vec![7; lent];
        let made = show_fresh(&mut slots, m, k);
        let words: String = slots.iter().map(|word| format!(" {word}")).collect();
        println!("{made} slots{words}");
    }
    println!("{}", show_fresh(&mut [7; 4097], 4097, 64));
}

fn show_fresh(slots: &mut [u64], m: u32, k: u32) -> String {
    let (made, record) = fresh(slots, m, k);
    format!(
        "fresh {m} {k}:{} {} {} {}",
        answer(made),
        record.m,
        record.k,
        record.reach
    )
}

fn answer(made: Result<(), Refusal>) -> String {
    match made {
        Ok(()) => " made".to_string(),
        Err(refusal) => refused(refusal as u32),
    }
}
