//! The command entry of the second table, written from document 01 ("Commands" and "Frames") and
//! document 02 (N2), and not from the library.

use crate::reference_frame::{self, Fields};
use crate::reference_record::{Alteration, Record, Writer};
use crate::reference_table::fit;
use crate::reference_writer::change_before_steps;

/// The only map that the entry takes.
const MAP: u8 = 0x0F;

const ENGAGED: u32 = 4;
const TURN: u32 = 11;
const ALTERED: u32 = 12;

/// What the entry answers.
#[derive(Clone, Copy, Debug, PartialEq, Eq)]
pub enum Entry {
    Started,
    /// The stored answer of the station's last command, for which no step was made.
    GivenAgain {
        /// The value, or none for refusal 7.
        answer: Option<u32>,
        steps: u32,
    },
}

/// Takes a command, or gives the number of the refusal.
pub fn start_command(record: &mut Record, slots: &[u64], frame: &[u8]) -> Result<Entry, u32> {
    fit(record, slots).map_err(|refusal| refusal as u32)?;
    let sent = read(frame).map_err(|refusal| refusal as u32)?;
    let last = record.stations[sent.station as usize - 1];
    if sent.number == last.number {
        return if (sent.point, sent.action) == (last.point, last.action) {
            Ok(Entry::GivenAgain {
                answer: last.answer,
                steps: 0,
            })
        } else {
            Err(ALTERED)
        };
    }
    if sent.number != last.number + 1 {
        return Err(TURN);
    }
    if record.writer != Writer::Idle {
        return Err(ENGAGED);
    }
    record.writer = work_of(&sent);
    Ok(Entry::Started)
}

/// Another map is refused whatever the length.
fn read(frame: &[u8]) -> Result<Fields, reference_frame::Refusal> {
    match frame.first() {
        Some(&map) if map != MAP => Err(reference_frame::Refusal::Map),
        _ => reference_frame::read(frame),
    }
}

/// The command's change before its first step.
fn work_of(sent: &Fields) -> Writer {
    let command = Alteration::Commanded {
        station: sent.station,
        number: sent.number,
        action: sent.action,
    };
    change_before_steps(sent.point, command)
}
