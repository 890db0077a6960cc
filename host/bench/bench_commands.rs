//! Pseudorandom commands for the bench.

use crate::bench_line::Command;
use crate::random::Random;

/// Of a hundred commands, how many are puts and removals; the others are lookups.
#[derive(Clone, Copy)]
pub struct Mix {
    pub puts: u32,
    pub removals: u32,
}

pub fn any_command(random: &mut Random, mix: Mix, points: &[u32]) -> Command {
    let point = random.one_of(points);
    let draw = random.within(1, 100);
    if draw <= mix.puts {
        let value = any_value(random);
        Command::Put { point, value }
    } else if draw <= mix.puts + mix.removals {
        Command::Removal { point }
    } else {
        Command::Lookup { point }
    }
}

/// One value in four is small, so that 0 occurs too.
fn any_value(random: &mut Random) -> u32 {
    match random.within(0, 3) {
        0 => random.within(0, 3),
        _ => random.within(0, u32::MAX),
    }
}
