//! Histories of commands for the bench, the same in every run.

use crate::bench_commands::{any_command, Mix};
use crate::bench_line::Command;
use crate::random::Random;
use std::fmt::{Display, Formatter, Result};

pub struct History {
    pub m: u32,
    pub k: u32,
    pub commands: Vec<Command>,
}

impl History {
    /// A small panel with few points, which meet on the same slots again and again.
    pub fn small(random: &mut Random) -> Self {
        let m = random.within(1, 16);
        let k = random.within(1, 6);
        let points = random.within(2, m + 6);
        let length = random.within(1, 300);
        Self::of(random, m, k, points, length)
    }

    /// A history on this panel, with as many points and commands.
    pub fn of(random: &mut Random, m: u32, k: u32, points: u32, length: u32) -> Self {
        let points = any_points(random, points);
        let mix = Mix {
            puts: random.within(20, 60),
            removals: random.within(5, 35),
        };
        let mut command = || any_command(random, mix, &points);
        History {
            m,
            k,
            commands: (0..length).map(|_| command()).collect(),
        }
    }
}

/// The bench's input.
impl Display for History {
    fn fmt(&self, f: &mut Formatter) -> Result {
        writeln!(f, "{} {}", self.m, self.k)?;
        let mut commands = self.commands.iter();
        commands.try_for_each(|command| writeln!(f, "{command}"))
    }
}

/// As many points, and in half of the lists one more that is refused.
fn any_points(random: &mut Random, count: u32) -> Vec<u32> {
    let mut points: Vec<u32> = (0..count).map(|_| any_point(random)).collect();
    if random.within(0, 1) == 0 {
        points.push(random.one_of(&[0, 2_147_483_647, u32::MAX]));
    }
    points
}

fn any_point(random: &mut Random) -> u32 {
    match random.within(0, 3) {
        0 => random.within(1, 40),
        1 => random.within(2_147_483_640, 2_147_483_646),
        _ => random.within(1, 2_147_483_646),
    }
}
