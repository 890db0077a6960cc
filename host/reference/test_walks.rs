//! A reader's walk between the calls of others, and what document 01 says of it: each word is that of
//! its slot at that moment, slot 0 first, the m-th step ends it, and a point that is on the list
//! throughout is reported exactly once.

use crate::plain_list::PlainList;
use crate::reference_table::point_of;

#[derive(Clone, Default)]
pub struct Walk {
    steps: usize,
    /// The list's slots at the first step.
    at_first: Vec<u64>,
    /// The points that were on the list at every moment since then.
    throughout: Vec<u32>,
    /// The points of the words given.
    reported: Vec<u32>,
}

/// The walks that came to their end, and those of them during which the list was altered.
#[derive(Clone, Copy, Default)]
pub struct Ended {
    pub walks: u32,
    pub altered: u32,
}

impl Walk {
    /// A step gave the word, as the last one or not.
    pub fn stepped(&mut self, word: u64, is_last: bool, list: &PlainList, ended: &mut Ended) {
        let slots = list.slots();
        assert_eq!(word, slots[self.steps]);
        if self.steps == 0 {
            self.throughout = points_of(&slots);
            self.at_first.clone_from(&slots);
        }
        self.steps += 1;
        self.reported.extend(points_of(&[word]));
        assert_eq!(is_last, self.steps == slots.len());
        if is_last {
            self.check_reported();
            ended.walks += 1;
            ended.altered += u32::from(self.at_first != slots);
        }
    }

    /// What holds of the list after any call.
    pub fn moment(&mut self, list: &PlainList) {
        self.throughout
            .retain(|&point| list.lookup(point).is_some());
    }

    fn check_reported(&self) {
        for point in &self.throughout {
            let times = self.reported.iter().filter(|given| *given == point);
            assert_eq!(times.count(), 1);
        }
    }
}

fn points_of(slots: &[u64]) -> Vec<u32> {
    let words = slots.iter().filter(|&&word| word != 0);
    words.map(|&word| point_of(word)).collect()
}
