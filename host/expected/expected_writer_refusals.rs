//! Refusal 1 of the writer's starts and of its step: a record out of range, and a slot too few, each
//! with the faults that are judged later; the work underway goes on as if nothing had been asked.

use crate::expected_operations::Panel;

pub fn run() {
    let mut panel = Panel::fresh(8, 4);
    broken(&panel).step();
    panel.clone().step();
    panel.begin_put(9, 6);
    panel.step();
    starts(&broken(&panel));
    starts(&panel);
    let mut short = short_of_a_slot(&panel);
    panel.finish();
    starts(&short);
    short.step();
}

fn starts(panel: &Panel) {
    panel.clone().begin_put(0, 1);
    panel.clone().begin_change(0, 2, 3);
    panel.clone().begin_removal(0);
}

/// With a reach above k.
fn broken(panel: &Panel) -> Panel {
    let mut broken = panel.clone();
    broken.record.reach = 5;
    broken
}

fn short_of_a_slot(panel: &Panel) -> Panel {
    let mut short = panel.clone();
    short.slots.pop();
    short
}
