//! The command entry call by call: its refusals in document 01's order, and a station's commands one
//! behind the other.

use crate::drawn_commands::Sent;
use crate::reference_command::{start_command, Entry};
use crate::reference_operations::{finish, put};
use crate::reference_record::Record;
use crate::reference_table::{fresh, Ending};
use crate::reference_writer::start_put;

const STARTED: Result<Entry, u32> = Ok(Entry::Started);

struct Panel {
    record: Record,
    slots: [u64; 8],
}

impl Panel {
    /// Point 1 is stored with the value 4.
    fn new() -> Self {
        let mut slots = [0; 8];
        let (_, mut record) = fresh(&mut slots, 8, 4);
        assert!(put(&mut record, &mut slots, 1, 4).is_ok());
        Panel { record, slots }
    }

    /// The entry's answer. Only a start alters the record.
    fn take(&mut self, frame: &[u8]) -> Result<Entry, u32> {
        let before = self.record;
        let answer = start_command(&mut self.record, &self.slots, frame);
        if answer != STARTED {
            assert_eq!(self.record, before);
        }
        answer
    }

    fn send(&mut self, station: u32, number: u32, point: u32, action: u32) -> Result<Entry, u32> {
        let sent = Sent {
            station,
            number,
            point,
            action,
        };
        self.take(&sent.frame())
    }

    fn finish(&mut self) -> Ending {
        let ended = finish(&mut self.record, &mut self.slots);
        ended.expect("the writer has work").ending
    }
}

/// No step was made for it.
fn given_again(answer: Option<u32>) -> Result<Entry, u32> {
    Ok(Entry::GivenAgain { answer, steps: 0 })
}

pub fn run() {
    frames_in_order();
    misfit_first();
    turns();
    others_while_engaged();
    unknown_point();
    last_number();
}

/// Each frame has the faults that are judged later too.
fn frames_in_order() {
    let mut panel = Panel::new();
    for bytes in [&[0x04][..], &[0x27; 10], &[0x2F; 3], &[0]] {
        assert_eq!(panel.take(bytes), Err(9));
    }
    let faulty = [0x0F, 33, 0, 0, 0, 0, 0, 0, 0, 3, 0];
    for length in [1, 9, 11] {
        assert_eq!(panel.take(&faulty[..length]), Err(8));
    }
    assert_eq!(panel.take(&[]), Err(8));
    let mut bytes = [0x0F, 255, 0, 0, 0, 0, 0, 0, 0, 3];
    for (place, byte, refusal) in [
        (1, 33, 10),
        (1, 0, 10),
        (1, 32, 11),
        (4, 2, 2),
        (8, 1, 13),
        (9, 2, 11),
    ] {
        bytes[place] = byte;
        assert_eq!(panel.take(&bytes), Err(refusal));
    }
    bytes[4] = 1;
    assert_eq!(panel.take(&bytes), STARTED);
}

fn misfit_first() {
    let mut panel = Panel::new();
    let Panel { record, slots } = &mut panel;
    assert_eq!(start_command(record, &slots[..7], &[]), Err(1));
    record.reach = 5;
    assert_eq!(start_command(record, slots, &[]), Err(1));
}

/// A number is used up by the step that ends its command, and not before.
fn turns() {
    let mut panel = Panel::new();
    assert_eq!(panel.send(3, 2, 1, 1), Err(11));
    assert_eq!(panel.send(3, 1, 1, 1), STARTED);
    assert_eq!(panel.send(3, 1, 1, 1), Err(4));
    assert_eq!(panel.send(3, 1, 9, 2), Err(4));
    assert_eq!(panel.send(3, 2, 1, 0), Err(11));
    assert_eq!(panel.finish(), Ending::Changed(5));
    assert_eq!(panel.send(3, 1, 1, 1), given_again(Some(5)));
    assert_eq!(panel.send(3, 1, 9, 1), Err(12));
    assert_eq!(panel.send(3, 1, 1, 2), Err(12));
    assert_eq!(panel.send(3, 3, 1, 1), Err(11));
    assert_eq!(panel.send(3, 2, 1, 2), STARTED);
    assert_eq!(panel.finish(), Ending::Changed(4));
    assert_eq!(panel.send(3, 1, 1, 1), Err(11));
    assert_eq!(panel.send(3, 2, 1, 2), given_again(Some(4)));
}

/// The stored answer, 11 and 12 come before 4.
fn others_while_engaged() {
    let mut panel = Panel::new();
    assert_eq!(panel.send(1, 1, 1, 2), STARTED);
    assert_eq!(panel.finish(), Ending::Changed(5));
    assert_eq!(start_put(&mut panel.record, &panel.slots, 9, 6), Ok(()));
    assert_eq!(panel.send(1, 1, 1, 2), given_again(Some(5)));
    assert_eq!(panel.send(1, 1, 1, 0), Err(12));
    assert_eq!(panel.send(1, 3, 1, 2), Err(11));
    assert_eq!(panel.send(1, 2, 1, 2), Err(4));
    assert_eq!(panel.send(2, 1, 1, 2), Err(4));
}

/// The answer 7 is stored too, and stays when the point is put.
fn unknown_point() {
    let mut panel = Panel::new();
    assert_eq!(panel.send(32, 1, 9, 0), STARTED);
    assert_eq!(panel.finish(), Ending::Unknown);
    assert!(put(&mut panel.record, &mut panel.slots, 9, 6).is_ok());
    assert_eq!(panel.send(32, 1, 9, 0), given_again(None));
    assert_eq!(panel.send(32, 2, 9, 0), STARTED);
    assert_eq!(panel.finish(), Ending::Changed(6));
}

/// Behind 16777215 only the last command can be sent again.
fn last_number() {
    let mut panel = Panel::new();
    panel.record.stations[0].number = 16_777_214;
    panel.record.stations[0].point = 1;
    assert_eq!(panel.send(1, 16_777_215, 1, 1), STARTED);
    assert_eq!(panel.finish(), Ending::Changed(5));
    for number in [1, 16_777_214] {
        assert_eq!(panel.send(1, number, 1, 1), Err(11));
    }
    assert_eq!(panel.take(&[0x0F, 1, 0, 0, 0, 0, 0, 0, 1, 1]), Err(11));
    assert_eq!(panel.send(1, 16_777_215, 1, 0), Err(12));
    let again = panel.send(1, 16_777_215, 1, 1);
    assert_eq!(again, given_again(Some(5)));
}
