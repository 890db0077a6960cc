//! The bench of documents 01 and 02 over any table of points: commands in, their answers out.

use crate::bench_line::{read_command, read_sizes, Command};
use crate::point_table::PointTable;
use crate::reference_table::{Ended, Ending};
use std::io::{BufRead, Result, Write};

/// Runs the input to its end, and gives the table as it is then; none if line 1 made none.
pub fn run<T: PointTable>(mut input: impl BufRead, mut output: impl Write) -> Result<Option<T>> {
    let mut line = Vec::new();
    // A missing first line is taken as an empty one, which cannot be read either.
    next_line(&mut input, &mut line)?;
    let sizes = read_sizes(&line);
    let made = sizes.and_then(|(m, k)| Some((m, k, T::new(m, k)?)));
    let Some((m, k, mut table)) = made else {
        output.write_all(b"panel ! 1\n")?;
        output.flush()?;
        return Ok(None);
    };
    writeln!(output, "panel {m} {k}")?;
    run_commands(&mut table, input, &mut output)?;
    writeln!(output, "reach {} points {}", table.reach(), table.points())?;
    output.flush()?;
    Ok(Some(table))
}

/// Every line behind the first.
fn run_commands(
    table: &mut impl PointTable,
    mut input: impl BufRead,
    output: &mut impl Write,
) -> Result<()> {
    let mut line = Vec::new();
    let mut printed = Vec::new();
    let mut number: u64 = 1;
    while next_line(&mut input, &mut line)? {
        number += 1;
        match read_command(&line) {
            Some(command) => {
                printed.clear();
                answer(table, command, &mut printed);
                output.write_all(&printed)?;
            }
            None => writeln!(output, "? {number}")?,
        }
    }
    Ok(())
}

/// The next line without its end, in place of `line`; false at the end of the input.
fn next_line(input: &mut impl BufRead, line: &mut Vec<u8>) -> Result<bool> {
    line.clear();
    let length = input.read_until(b'\n', line)?;
    if line.last() == Some(&b'\n') {
        line.pop();
    }
    Ok(length > 0)
}

/// Carries the command out and adds its line.
fn answer(table: &mut impl PointTable, command: Command, printed: &mut Vec<u8>) {
    let (letter, answer) = match command {
        Command::Put { point, value } => (b'P', table.put(point, value)),
        Command::Lookup { point } => (b'L', table.lookup(point)),
        Command::Removal { point } => (b'R', table.remove(point)),
    };
    printed.push(letter);
    push_number(printed, command.point());
    match answer {
        Ok(ended) => push_ended(printed, ended),
        Err(refusal) => push_refusal(printed, refusal as u32),
    }
    printed.push(b'\n');
}

/// The steps go last. A refused start has none.
fn push_ended(printed: &mut Vec<u8>, Ended { ending, steps }: Ended) {
    match ending {
        Ending::Put { slot, index } => {
            push_number(printed, slot);
            push_number(printed, index);
        }
        Ending::Found(number) | Ending::Changed(number) | Ending::Removed(number) => {
            push_number(printed, number);
        }
        Ending::NoPerch => push_refusal(printed, 6),
        Ending::Unknown => push_refusal(printed, 7),
    }
    push_number(printed, steps);
}

fn push_refusal(printed: &mut Vec<u8>, number: u32) {
    printed.extend_from_slice(b" !");
    push_number(printed, number);
}

/// A space and the number. The digits are made here because `write!` would take longer than the
/// table's own work.
fn push_number(printed: &mut Vec<u8>, mut number: u32) {
    let mut digits = [0; 10];
    let mut start = digits.len();
    loop {
        start -= 1;
        digits[start] = b'0' + (number % 10) as u8;
        number /= 10;
        if number == 0 {
            break;
        }
    }
    printed.push(b' ');
    printed.extend_from_slice(&digits[start..]);
}
