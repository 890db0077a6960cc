//! The programs that the speed table compares, run on the same input by turns.

use crate::speed_workload::Workload;
use crate::timing::timed;
use std::fs::{self, File};
use std::io::{Error, Result as IoResult};
use std::path::{Path, PathBuf};
use std::process::{Command, ExitStatus, Stdio};

pub const ROUNDS: usize = 7;

/// A program, and which of its tables it is asked for.
pub struct Side {
    pub name: &'static str,
    pub program: String,
    pub table: Option<&'static str>,
}

/// Files that hold a row's input.
pub struct Inputs {
    pub fill: PathBuf,
    pub whole: PathBuf,
}

impl Inputs {
    pub fn write(&self, workload: &Workload) -> Result<(), String> {
        for (path, text) in [(&self.fill, &workload.fill), (&self.whole, &workload.whole)] {
            fs::write(path, text).map_err(|error| format!("{}: {error}", path.display()))?;
        }
        Ok(())
    }
}

impl Side {
    /// Input from a file, so that nothing else has to run beside the program.
    fn command(&self, input: &Path) -> IoResult<Command> {
        let mut command = Command::new(&self.program);
        command.args(self.table).stdin(File::open(input)?);
        Ok(command)
    }

    fn explain(&self, error: Error) -> String {
        format!("{} ({}): {error}", self.program, self.name)
    }

    /// What the program prints.
    fn printed(&self, input: &Path) -> Result<Vec<u8>, String> {
        let output = self.command(input).and_then(|mut command| {
            let output = command.output()?;
            judge(output.status).map(|()| output.stdout)
        });
        output.map_err(|error| self.explain(error))
    }

    /// The time of one run, in seconds. What it prints goes nowhere, so that no file's cost is in it.
    fn time(&self, input: &Path) -> Result<f64, String> {
        let time = self.command(input).and_then(|mut command| {
            command.stdout(Stdio::null());
            let (status, time) = timed(|| command.status());
            judge(status?).map(|()| time)
        });
        time.map_err(|error| self.explain(error))
    }
}

fn judge(status: ExitStatus) -> IoResult<()> {
    if status.success() {
        Ok(())
    } else {
        Err(Error::other(status.to_string()))
    }
}

/// An error unless all these sides print the same.
pub fn agree(sides: &[Side], inputs: &Inputs) -> Result<(), String> {
    let printed: Result<Vec<_>, _> = sides
        .iter()
        .map(|side| side.printed(&inputs.whole))
        .collect();
    let printed = printed?;
    match printed.iter().position(|other| *other != printed[0]) {
        None => Ok(()),
        Some(other) => Err(format!(
            "{} and {} print different answers for {}",
            sides[0].name,
            sides[other].name,
            inputs.whole.display()
        )),
    }
}

/// The shortest times of one side so far, in seconds.
#[derive(Clone, Copy)]
struct Shortest {
    fill: f64,
    whole: f64,
}

/// Each side's time for the work: that of the fill, with the start of the program, is taken off the
/// whole's. The shortest of several rounds counts, since other work on the machine only adds.
pub fn work_times<const N: usize>(sides: &[Side; N], inputs: &Inputs) -> Result<[f64; N], String> {
    let mut shortest = [Shortest {
        fill: f64::INFINITY,
        whole: f64::INFINITY,
    }; N];
    for _ in 0..ROUNDS {
        for (side, times) in sides.iter().zip(&mut shortest) {
            times.fill = times.fill.min(side.time(&inputs.fill)?);
            times.whole = times.whole.min(side.time(&inputs.whole)?);
        }
    }
    Ok(shortest.map(|times| times.whole - times.fill))
}
