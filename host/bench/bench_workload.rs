//! A long input for the bench, the same in every run.

use crate::bench_commands::{any_command, Mix};
use crate::random::Random;

pub const M: u32 = 4096;
pub const K: u32 = 8;

/// The points that the input's commands name, more than the slots hold.
const POINTS: usize = 4500;

/// One line in this many cannot be read.
const UNREADABLE_SHARE: u32 = 1000;

const UNREADABLE: [&str; 10] = [
    "",
    "L",
    "P 1",
    "P 1 2 3",
    "R  7",
    "l 7",
    "Q 7",
    "L -1",
    "L 4294967296",
    "R 00000000007",
];

/// As many lines, the first with m and k included. The table is soon filled to about four fifths,
/// where puts are refused now and then.
pub fn input(lines: usize) -> String {
    let mut random = Random(1);
    let mut points = vec![0, 2_147_483_647];
    points.resize_with(POINTS, || random.within(1, 2_147_483_646));
    let mix = Mix {
        puts: 30,
        removals: 10,
    };
    let mut line = || {
        if random.within(1, UNREADABLE_SHARE) == 1 {
            format!("{}\n", random.one_of(&UNREADABLE))
        } else {
            format!("{}\n", any_command(&mut random, mix, &points))
        }
    };
    let commands: String = (1..lines).map(|_| line()).collect();
    format!("{M} {K}\n{commands}")
}
