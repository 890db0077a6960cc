//! The calls that `drawn_histories` draws, and the frames that it lends to them.

use crate::reference_calls::Call;
use crate::reference_record::Record;

/// The Park-Miller generator, by its last value.
pub struct Generator(pub u64);

impl Generator {
    pub fn draw(&mut self) -> u32 {
        self.0 = self.0 * 16807 % 2_147_483_647;
        self.0 as u32
    }
}

/// The numbers that a call is drawn by, in their order.
pub struct Draws {
    which: u32,
    party: u32,
    address: u32,
    content: u32,
    rest: u32,
    /// Most points are one of so many.
    points: u32,
}

impl Draws {
    pub fn new(generator: &mut Generator, points: u32) -> Self {
        Draws {
            which: generator.draw(),
            party: generator.draw(),
            address: generator.draw(),
            content: generator.draw(),
            rest: generator.draw(),
            points,
        }
    }

    pub fn call(&self) -> Call {
        let (reader, point) = (self.reader(), self.point());
        let value = joined(self.content, self.rest);
        match upper(self.which) % 64 {
            0..=4 => Call::StartPut { point, value },
            5 | 6 => Call::StartChange {
                point,
                keep: value,
                flip: joined(self.rest, self.party),
            },
            7..=9 => Call::StartRemoval { point },
            10..=16 => Call::StartCommand,
            17..=21 => Call::StartLookup { reader, point },
            22 | 23 => Call::StartWalk { reader },
            24..=39 => Call::StepWriter,
            40..=51 => Call::Turn,
            _ => Call::StepReader { reader },
        }
    }

    fn reader(&self) -> u32 {
        match upper(self.party) % 16 {
            0 => 16,
            1 => u32::MAX,
            2 | 3 => self.party % 16,
            _ => self.party % 3,
        }
    }

    fn point(&self) -> u32 {
        match upper(self.address) % 32 {
            0 => 0,
            1 => 2_147_483_647,
            2 => 2_147_483_646,
            _ => 1 + 8 * (self.address % self.points),
        }
    }

    fn station(&self) -> u32 {
        match upper(self.party) % 24 {
            0 => 0,
            1 => 33,
            2 => 32,
            _ => 1 + self.party % 4,
        }
    }

    fn action(&self) -> u32 {
        if upper(self.rest) % 24 == 0 {
            3
        } else {
            self.rest % 3
        }
    }

    fn map(&self) -> u8 {
        match upper(self.rest) % 32 {
            0 => 0x04,
            1 => 0x27,
            2 => 0x1F,
            _ => 0x0F,
        }
    }

    fn length(&self) -> usize {
        match self.which % 128 {
            length @ 0..=11 => length as usize,
            _ => 10,
        }
    }

    /// The frame lent: a command by its station's last one, which may be cut, or have a byte more.
    pub fn frame(&self, record: &Record) -> Vec<u8> {
        let station = self.station();
        let (last, last_point, last_action) = last_command(record, station);
        let (new_point, new_action) = (self.point(), self.action());
        let (number, point, action) = match upper(self.content) % 16 {
            0..=7 => (last + 1, new_point, new_action),
            8..=10 => (last, last_point, last_action),
            11 => (last, new_point, last_action),
            12 => (last, last_point, new_action),
            13 => (last + 2, new_point, new_action),
            14 => (last.wrapping_sub(1), new_point, new_action),
            _ => (self.content, new_point, new_action),
        };
        let mut bytes = vec![self.map(), station as u8];
        bytes.extend(&number.to_be_bytes()[1..]);
        bytes.extend(point.to_be_bytes());
        bytes.extend([action as u8, 0]);
        bytes.truncate(self.length());
        bytes
    }
}

/// Number, point and action; zeros of a station that there is not.
fn last_command(record: &Record, station: u32) -> (u32, u32, u32) {
    let place = station.checked_sub(1);
    let last = place.and_then(|place| record.stations.get(place as usize));
    last.map_or((0, 0, 0), |last| (last.number, last.point, last.action))
}

fn upper(drawn: u32) -> u32 {
    drawn >> 16
}

/// The lower halves of two numbers.
fn joined(high: u32, low: u32) -> u32 {
    high << 16 | (low & 0xFFFF)
}
