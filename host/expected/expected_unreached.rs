//! Records that no history leads to: counts stay at the ends of their ranges, those of steps at their
//! bounds, and a step that stores does not look at what is there.

use crate::expected_operations::Panel;
use crate::reference_record::{
    Alteration, ChangeStage, Place, PutStage, RemovalStage, Search, Writer,
};

pub fn run() {
    full_count();
    empty_count(1);
    empty_count(2);
    above_the_reach();
    reach_lowered();
    stores();
    steps_at_their_bounds();
}

/// Point 1 in slot 0.
fn stored() -> Panel {
    let mut panel = Panel::fresh(8, 4);
    panel.put(1, 5);
    panel
}

fn full_count() {
    let mut panel = Panel::fresh(8, 4);
    panel.record.counts[0] = 8;
    panel.altered();
    panel.put(1, 5);
}

fn empty_count(reach: u32) {
    let mut panel = stored();
    panel.record.counts[0] = 0;
    panel.record.reach = reach;
    panel.altered();
    panel.removal(1);
}

fn above_the_reach() {
    let mut panel = stored();
    panel.record.counts[2] = 1;
    panel.altered();
    panel.removal(1);
}

fn putting(stage: PutStage, steps: u32) -> Writer {
    Writer::Putting {
        point: 9,
        value: 6,
        stage,
        steps,
    }
}

fn changing(stage: ChangeStage, steps: u32) -> Writer {
    Writer::Changing {
        point: 9,
        alteration: Alteration::Given { keep: 1, flip: 8 },
        stage,
        steps,
    }
}

fn removing(point: u32, stage: RemovalStage, steps: u32) -> Writer {
    Writer::Removing {
        point,
        stage,
        steps,
    }
}

/// Each to its end, one behind the other.
fn finish_all(panel: &mut Panel, works: &[Writer]) {
    for &work in works {
        panel.record.writer = work;
        panel.finish();
    }
}

fn reach_lowered() {
    let mut panel = stored();
    panel.record.writer = putting(PutStage::Chosen(3), 0);
    panel.step();
    panel.record.reach = 2;
    panel.altered();
    panel.finish();
}

fn stores() {
    let mut panel = stored();
    let place = Place { index: 4, value: 3 };
    let works = [
        putting(PutStage::Chosen(1), 0),
        putting(PutStage::Found(place), 0),
        changing(ChangeStage::Found(place), 0),
        removing(17, RemovalStage::Found(place), 0),
    ];
    finish_all(&mut panel, &works);
}

fn steps_at_their_bounds() {
    let mut panel = stored();
    let works = [
        putting(PutStage::Scanning(1), 10),
        changing(ChangeStage::Searching(Search::Unread), 6),
        removing(9, RemovalStage::Searching(Search::Unread), 7),
    ];
    finish_all(&mut panel, &works);
}
