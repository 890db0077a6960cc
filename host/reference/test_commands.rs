//! What is noted of a history's commands, against document 01's claim: each acts at most once, and
//! an answer given again is the one that its change gave.

use crate::drawn_commands::Sent;
use crate::plain_feeding::Answer;
use crate::reference_command::Entry;
use crate::reference_record::{Record, Station, Writer};
use std::collections::{HashMap, HashSet};

/// A station and its command's number.
type Number = (u32, u32);

fn identity(sent: &Sent) -> Number {
    (sent.station, sent.number)
}

#[derive(Default)]
pub struct Notes {
    /// The command whose change is underway.
    underway: Option<Sent>,
    /// The commands whose change has stored a slot.
    acted: HashSet<Number>,
    /// The commands whose change has ended, with its answer: the value, or none for 7.
    ended: HashMap<Number, (Sent, Option<u32>)>,
}

impl Notes {
    /// What the entry answered to a command that arrived while the writer had this work.
    pub fn answered(&mut self, sent: Sent, answer: Result<Entry, u32>, work: Writer) {
        let last = self.last_number(sent.station);
        let expected = match self.ended.get(&identity(&sent)) {
            Some(&(same, stored)) if same == sent && sent.number == last => Ok(Entry::GivenAgain {
                answer: stored,
                steps: 0,
            }),
            Some(_) if sent.number == last => Err(12),
            _ if sent.number != last + 1 => Err(11),
            _ if work != Writer::Idle => Err(4),
            _ => Ok(Entry::Started),
        };
        assert_eq!(answer, expected, "{sent:?}");
        if answer == Ok(Entry::Started) {
            self.underway = Some(sent);
        }
    }

    fn last_number(&self, station: u32) -> u32 {
        let numbers = self.ended.keys().filter(|&&(from, _)| from == station);
        numbers.map(|&(_, number)| number).max().unwrap_or(0)
    }

    /// The writer has stored a slot.
    pub fn slot_stored(&mut self) {
        if let Some(sent) = self.underway {
            let is_first = self.acted.insert(identity(&sent));
            assert!(is_first, "{sent:?} acted twice");
        }
    }

    /// The writer's operation has ended. If it was a command's, that is its station's last now.
    pub fn operation_ended(&mut self, answer: Answer, after: &Record) {
        let Some(sent) = self.underway.take() else {
            return;
        };
        let value = answer.ok().map(|(value, _)| value);
        assert_eq!(self.acted.contains(&identity(&sent)), value.is_some());
        let before = self.ended.insert(identity(&sent), (sent, value));
        assert_eq!(before, None, "{sent:?} ended twice");
        let kept = Station {
            number: sent.number,
            point: sent.point,
            action: sent.action,
            answer: value,
        };
        assert_eq!(after.stations[sent.station as usize - 1], kept);
    }
}
