//! The orders program over the second table and its plain list: calls in, their answers out.

use crate::orders_line::{read, Order};
use crate::orders_text as text;
use crate::plain_feeding::{feed, stores_slot};
use crate::plain_list::PlainList;
use crate::reference_calls::{apply, Answer, Call};
use crate::reference_record::{Record, Writer};
use crate::reference_table::fresh;
use crate::reference_turn::Served;
use crate::reference_writer::WriterStep;

/// The most slots that there are to lend.
const SLOTS: u32 = 4096;

struct Panel {
    record: Record,
    slots: Vec<u64>,
    list: PlainList,
    /// The writer's operation has fed the list.
    has_fed: bool,
}

/// What the program prints for an input.
pub fn run(input: &[u8]) -> Vec<u8> {
    let mut printed = String::new();
    let mut panel = None;
    let lines = input.split_inclusive(|&byte| byte == b'\n');
    for (line, number) in lines.zip(1..) {
        let line = line.strip_suffix(b"\n").unwrap_or(line);
        printed += &run_line(&mut panel, number, line);
    }
    printed.into_bytes()
}

fn run_line(panel: &mut Option<Panel>, number: usize, line: &[u8]) -> String {
    let order = match read(line) {
        Ok(order) => order,
        Err(reason) => return format!("line {number}: cannot be read: {reason}\n"),
    };
    match (order, panel) {
        (Order::Nothing, _) => String::new(),
        (Order::Panel { m, k }, panel) => {
            let answer = make(panel, m, k);
            format!("{number} panel {m} {k}: {answer}\n")
        }
        (_, None) => format!("line {number}: panel missing\n"),
        (Order::Call(call, frame), Some(panel)) => {
            let answer = text::answer(panel.carry_out(call, &frame));
            format!("{number} {}: {answer}\n", text::call(call, &frame))
        }
        (Order::Show, Some(panel)) => format!("{number} show\n{}", panel.show()),
    }
}

/// A new panel; if it is refused, the one before stays.
fn make(panel: &mut Option<Panel>, m: u32, k: u32) -> String {
    let mut slots = vec![0; m.min(SLOTS) as usize];
    match fresh(&mut slots, m, k) {
        (Err(refusal), _) => text::refused(refusal as u32),
        (Ok(()), record) => {
            *panel = Some(Panel {
                record,
                slots,
                list: PlainList::new(m, k),
                has_fed: false,
            });
            "made".to_string()
        }
    }
}

impl Panel {
    /// Carries out the call, and feeds the list where document 01 says. A writer's step is one under
    /// a turn too.
    fn carry_out(&mut self, call: Call, frame: &[u8]) -> Answer {
        let before = self.record;
        let answer = apply(&mut self.record, &mut self.slots, call, frame);
        if before.writer == Writer::Idle {
            self.has_fed = false;
        } else if let Answer::Writer(Ok(step)) | Answer::Turn(Ok(Served::Writer(step))) = answer {
            let ends = step != WriterStep::Underway;
            if stores_slot(&before) || (ends && !self.has_fed) {
                self.has_fed = true;
                // What the list answers is not printed.
                let _ = feed(&mut self.list, before.writer);
            }
        }
        answer
    }

    fn show(&self) -> String {
        let rows = self.list.slots();
        let both = self.slots.iter().zip(&rows);
        let mut printed = String::new();
        let mut empty = 0;
        for (slot, (&word, &row)) in both.enumerate() {
            if (word, row) == (0, 0) {
                empty += 1;
                continue;
            }
            let word = row_or(word, "empty");
            let row = row_or(row, "no row");
            printed += &format!("  slot {slot}: {word} | list: {row}\n");
        }
        let verdict = if self.slots == rows {
            "the slots show the plain list"
        } else {
            "DIFFERENT: the slots do not show the plain list"
        };
        let Record { reach, place, .. } = self.record;
        printed
            + &format!("  empty slots: {empty}\n  reach {reach}\n  place {place}\n  {verdict}\n")
    }
}

fn row_or(word: u64, none: &str) -> String {
    match word {
        0 => none.to_string(),
        word => text::row(word),
    }
}
