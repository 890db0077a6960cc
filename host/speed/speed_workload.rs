//! Inputs for the speed table, the same in every run: a panel is filled to a load, then does one kind
//! of work that leaves the load as it is.

use crate::bench_line::Command;
use crate::bench_workload;
use crate::point_table::PointTable;
use crate::random::Random;
use crate::reference_table::{Ended, Ending};
use crate::step_table::StepTable;
use std::collections::HashSet;
use std::fmt::Write;

/// The lines behind the fill, or one more.
const LINES: usize = 300_000;

/// The lines of the mixed input, the first included.
const MIXED_LINES: usize = 1_000_000;

/// Of the lookups one in so many is of a point that is not stored; of the puts one in so many comes
/// behind a removal of its point.
const SHARE: u32 = 8;

/// How full the panel shall be.
#[derive(Clone, Copy)]
pub struct Load {
    pub name: &'static str,
    pub tenths: u32,
}

#[derive(Clone, Copy)]
pub enum Work {
    Lookups,
    Puts,
}

/// The input of one row.
pub struct Workload {
    pub m: u32,
    pub k: u32,
    pub load: &'static str,
    pub work: &'static str,
    /// How many points were to be stored; none if that is not known beforehand.
    pub asked: Option<usize>,
    /// What is left out of the times: the first line, and the puts that fill the panel.
    pub fill: String,
    /// The fill, and the work behind it.
    pub whole: String,
    /// Those of the work.
    pub lines: usize,
}

impl Workload {
    /// Puts, removals, lookups and unreadable lines, which fill the panel by themselves.
    pub fn mixed() -> Self {
        let whole = bench_workload::input(MIXED_LINES);
        let first = whole.find('\n').map_or(0, |end| end + 1);
        Workload {
            m: bench_workload::M,
            k: bench_workload::K,
            load: "-",
            work: "mixed",
            asked: None,
            lines: MIXED_LINES - 1,
            fill: whole[..first].to_string(),
            whole,
        }
    }
}

/// A filled panel.
pub struct Panel {
    m: u32,
    k: u32,
    load: Load,
    asked: usize,
    stored: Vec<u32>,
    absent: Vec<u32>,
}

impl Panel {
    /// As many of the points as find a place; those refused with 6 do not come into the input, so
    /// that every program stores the same ones.
    pub fn filled(m: u32, k: u32, load: Load) -> Self {
        let asked = (m * load.tenths / 10) as usize;
        let mut stored = distinct_points(&mut Random(1), 2 * asked);
        let absent = stored.split_off(asked);
        let mut table = StepTable::new(m, k).expect("the sizes are in range");
        stored.retain(|&point| finds_place(&mut table, point));
        Panel {
            m,
            k,
            load,
            asked,
            stored,
            absent,
        }
    }

    pub fn workload(&self, work: Work) -> Workload {
        let mut random = Random(2);
        let puts = self.stored.iter().map(|&point| put(&mut random, point));
        let fill = format!("{} {}\n{}", self.m, self.k, text(puts));
        let (work, commands) = match work {
            Work::Lookups => ("lookups", self.lookups(&mut random)),
            Work::Puts => ("puts", self.puts(&mut random)),
        };
        Workload {
            m: self.m,
            k: self.k,
            load: self.load.name,
            work,
            asked: Some(self.asked),
            lines: commands.len(),
            whole: fill.clone() + &text(commands),
            fill,
        }
    }

    fn lookups(&self, random: &mut Random) -> Vec<Command> {
        let lookup = || {
            let is_absent = random.within(1, SHARE) == 1;
            let point = random.one_of(if is_absent {
                &self.absent
            } else {
                &self.stored
            });
            Command::Lookup { point }
        };
        std::iter::repeat_with(lookup).take(LINES).collect()
    }

    /// A point that was just removed finds a place again, since its old one is empty.
    fn puts(&self, random: &mut Random) -> Vec<Command> {
        let mut commands = Vec::with_capacity(LINES + 1);
        while commands.len() < LINES {
            let point = random.one_of(&self.stored);
            if random.within(1, SHARE) == 1 {
                commands.push(Command::Removal { point });
            }
            commands.push(put(random, point));
        }
        commands
    }
}

fn finds_place(table: &mut StepTable, point: u32) -> bool {
    let put = table.put(point, 0);
    matches!(put, Ok(Ended { ending, .. }) if ending != Ending::NoPerch)
}

fn put(random: &mut Random, point: u32) -> Command {
    let value = random.within(0, u32::MAX);
    Command::Put { point, value }
}

fn distinct_points(random: &mut Random, count: usize) -> Vec<u32> {
    let mut seen = HashSet::new();
    std::iter::repeat_with(|| random.within(1, 2_147_483_646))
        .filter(|&point| seen.insert(point))
        .take(count)
        .collect()
}

fn text(commands: impl IntoIterator<Item = Command>) -> String {
    let mut text = String::new();
    for command in commands {
        writeln!(text, "{command}").expect("a string takes every line");
    }
    text
}
