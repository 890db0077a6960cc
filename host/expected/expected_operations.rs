//! The writer's operations by their steps: each line shows a call's answer, and the reach, the
//! counts and the slots that it leaves.

use crate::expected_readers::{ended_answer, start_answer};
use crate::reference_record::{Record, Writer};
use crate::reference_table::{fresh, Refusal};
use crate::reference_writer::{start_change, start_put, start_removal, step_writer, WriterStep};
use crate::refused;

/// A record and the slots lent to it.
#[derive(Clone)]
pub struct Panel {
    pub record: Record,
    pub slots: Vec<u64>,
}

impl Panel {
    pub fn fresh(m: u32, k: u32) -> Self {
        println!("panel {m} {k}");
        let mut slots = vec![0; m as usize];
        let record = fresh(&mut slots, m, k).1;
        Panel { record, slots }
    }

    /// The reach, the counts of indices 1 to k, and the slots.
    fn state(&self) -> String {
        let reach = self.record.reach;
        let counts = spaced(&self.record.counts[..self.record.k as usize]);
        let slots = spaced(&self.slots);
        format!(" reach {reach} counts{counts} slots{slots}")
    }

    /// Shows a record that the program altered, and not the writer.
    pub fn altered(&self) {
        println!("altered:{}", self.state());
    }

    fn begun(&self, call: &str, started: Result<(), Refusal>) {
        println!("{call}:{}{}", start_answer(started), self.state());
    }

    pub fn begin_put(&mut self, point: u32, value: u32) {
        let started = start_put(&mut self.record, &self.slots, point, value);
        self.begun(&format!("put {point} {value}"), started);
    }

    pub fn begin_change(&mut self, point: u32, keep: u32, flip: u32) {
        let started = start_change(&mut self.record, &self.slots, point, keep, flip);
        self.begun(&format!("change {point} {keep} {flip}"), started);
    }

    pub fn begin_removal(&mut self, point: u32) {
        let started = start_removal(&mut self.record, &self.slots, point);
        self.begun(&format!("removal {point}"), started);
    }

    pub fn step(&mut self) {
        let answer = writer_answer(step_writer(&mut self.record, &mut self.slots));
        println!("step:{answer}{}", self.state());
    }

    /// The steps to the end of the work underway.
    pub fn finish(&mut self) {
        while self.record.writer != Writer::Idle {
            self.step();
        }
    }

    pub fn put(&mut self, point: u32, value: u32) {
        self.begin_put(point, value);
        self.finish();
    }

    pub fn removal(&mut self, point: u32) {
        self.begin_removal(point);
        self.finish();
    }
}

/// Numbers, each behind a space.
pub fn spaced<T: ToString>(numbers: &[T]) -> String {
    let each = numbers
        .iter()
        .map(|number| " ".to_string() + &number.to_string());
    each.collect()
}

fn writer_answer(answer: Result<WriterStep, Refusal>) -> String {
    match answer {
        Ok(WriterStep::Underway) => " underway".to_string(),
        Ok(WriterStep::Ended(ended)) => ended_answer(ended),
        Err(refusal) => refused(refusal as u32),
    }
}
