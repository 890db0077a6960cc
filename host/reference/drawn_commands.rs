//! Pseudorandom commands of a history.

use crate::random::Random;
use crate::reference_frame::{write, Fields};
use crate::reference_record::Record;

/// So few that each sends many commands.
const LAST_STATION: u32 = 3;

#[derive(Clone, Copy, Debug, PartialEq, Eq)]
pub struct Sent {
    pub station: u32,
    pub number: u32,
    pub point: u32,
    pub action: u32,
}

impl Sent {
    /// The station's next command, its last one again, or another number or content.
    pub fn draw(record: &Record, last_point: u32, random: &mut Random) -> Self {
        let station = random.within(1, LAST_STATION);
        let last = record.stations[station as usize - 1];
        let new_point = random.within(1, last_point);
        let new_action = random.within(0, 2);
        let (number, point, action) = match random.within(0, 7) {
            0 | 1 if last.number > 0 => (last.number, last.point, last.action),
            2 if last.number > 0 => (last.number, new_point, new_action),
            3 => (random.within(1, last.number + 3), new_point, new_action),
            _ => (last.number + 1, new_point, new_action),
        };
        Sent {
            station,
            number,
            point,
            action,
        }
    }

    pub fn frame(&self) -> [u8; 10] {
        let mut bytes = [0; 10];
        let fields = Fields {
            map: 0x0F,
            station: self.station,
            number: self.number,
            point: self.point,
            action: self.action,
            ..Fields::default()
        };
        assert_eq!(write(&mut bytes, &fields), Ok(10));
        bytes
    }
}
