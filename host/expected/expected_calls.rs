//! The long histories of drawn calls that `drawn_histories` runs, on four panels: a digest after each
//! hundred calls.

use crate::expected_digest::Digest;
use crate::expected_draws::{Draws, Generator};
use crate::expected_occurring::Occurring;
use crate::reference_calls::apply;
use crate::reference_record::{Record, Station};
use crate::reference_table::fresh;

const LINES: u32 = 50;
const CALLS_BETWEEN_LINES: u32 = 100;

struct Panel {
    record: Record,
    slots: Vec<u64>,
    /// Most points are one of so many.
    points: u32,
}

impl Panel {
    fn fresh(m: u32, k: u32, points: u32) -> Self {
        println!("panel {m} {k}");
        let mut slots = vec![0; m as usize];
        let (_, record) = fresh(&mut slots, m, k);
        Panel {
            record,
            slots,
            points,
        }
    }

    fn run(mut self, generator: &mut Generator, occurring: &mut Occurring) {
        for line in 1..=LINES {
            let mut digest = Digest::new();
            for _ in 0..CALLS_BETWEEN_LINES {
                self.call(generator, &mut digest, occurring);
            }
            self.report(line * CALLS_BETWEEN_LINES, &digest);
        }
    }

    fn call(&mut self, generator: &mut Generator, digest: &mut Digest, occurring: &mut Occurring) {
        let draws = Draws::new(generator, self.points);
        let frame = draws.frame(&self.record);
        let call = draws.call();
        let answer = apply(&mut self.record, &mut self.slots, call, &frame);
        occurring.note(call, answer);
        digest.add_answer(answer);
        digest.add_state(&self.record, &self.slots);
    }

    fn report(&self, made: u32, digest: &Digest) {
        let Digest { first, second } = digest;
        let reach = self.record.reach;
        let taken = self.slots.iter().filter(|&&word| word != 0).count();
        println!("calls {made}: digest {first} {second} reach {reach} taken {taken}");
    }
}

pub fn run() {
    let mut generator = Generator(1);
    let mut occurring = Occurring::default();
    let mut one_slot = Panel::fresh(1, 3, 2);
    // Ten numbers are left to station 4.
    one_slot.record.stations[3] = Station {
        number: 16_777_205,
        point: 1,
        action: 0,
        answer: None,
    };
    one_slot.run(&mut generator, &mut occurring);
    Panel::fresh(8, 4, 6).run(&mut generator, &mut occurring);
    Panel::fresh(16, 16, 24).run(&mut generator, &mut occurring);
    Panel::fresh(64, 16, 64).run(&mut generator, &mut occurring);
    occurring.check();
}
