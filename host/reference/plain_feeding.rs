//! When the plain list is fed the writer's operation, and what it answers.

use crate::plain_list::PlainList;
use crate::reference_record::{ChangeStage, PutStage, Record, RemovalStage, Writer};
use crate::reference_writer::masks;

/// What an operation hands back, with 0 for a second number that it lacks, or the refusal.
pub type Answer = Result<(u32, u32), u32>;

/// Whether the writer's next step stores a slot.
pub fn stores_slot(record: &Record) -> bool {
    match record.writer {
        Writer::Idle => false,
        Writer::Putting { stage, .. } => match stage {
            PutStage::Searching(_) | PutStage::Scanning(_) => false,
            PutStage::Found(_) => true,
            PutStage::Chosen(index) => index <= record.reach,
        },
        Writer::Changing { stage, .. } => matches!(stage, ChangeStage::Found(_)),
        Writer::Removing { stage, .. } => matches!(stage, RemovalStage::Found(_)),
    }
}

pub fn feed(list: &mut PlainList, work: Writer) -> Answer {
    match work {
        Writer::Idle => panic!("nothing to feed"),
        Writer::Putting { point, value, .. } => list.put(point, value).ok_or(6),
        Writer::Changing {
            point, alteration, ..
        } => {
            let (keep, flip) = masks(alteration);
            let value = list.change(point, keep, flip);
            value.map(|value| (value, 0)).ok_or(7)
        }
        Writer::Removing { point, .. } => {
            let reach = list.remove(point);
            reach.map(|reach| (reach, 0)).ok_or(7)
        }
    }
}
