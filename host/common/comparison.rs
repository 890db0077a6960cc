//! Compares what a proved program prints with what the reference prints, input by input.

use crate::child_program;
use std::path::Path;

/// The differences that are printed one by one.
const SHOWN: u64 = 10;

pub struct Comparison {
    program: String,
    reference: fn(&[u8]) -> Vec<u8>,
    pub inputs: u64,
    pub differences: u64,
}

impl Comparison {
    /// The program's path is the argument of this one.
    pub fn new(reference: fn(&[u8]) -> Vec<u8>) -> Result<Self, String> {
        let program = std::env::args().nth(1).ok_or("no program is given")?;
        if !Path::new(&program).is_file() {
            return Err(format!("there is no program {program}"));
        }
        Ok(Comparison {
            program,
            reference,
            inputs: 0,
            differences: 0,
        })
    }

    /// Gives what the reference prints.
    pub fn compare(&mut self, input: &[u8]) -> Result<Vec<u8>, String> {
        let expected = (self.reference)(input);
        let printed = child_program::run(&self.program, input).map_err(|error| {
            let input = start_of(input);
            format!("{}: {error}, with the input \"{input}\"", self.program)
        })?;
        self.inputs += 1;
        if printed != expected {
            self.differences += 1;
            if self.differences <= SHOWN {
                show(input, &printed, &expected);
            }
        }
        Ok(expected)
    }
}

/// The first line in which the two outputs differ.
fn show(input: &[u8], printed: &[u8], expected: &[u8]) {
    let mut expected = expected.split_inclusive(|&byte| byte == b'\n');
    let mut printed = printed.split_inclusive(|&byte| byte == b'\n');
    let mut number = 0;
    let (printed, expected) = loop {
        number += 1;
        match (printed.next(), expected.next()) {
            (Some(line), Some(other)) if line == other => {}
            lines => break lines,
        }
    };
    println!("the input \"{}\"", start_of(input));
    println!(
        "  program   line {number} \"{}\"",
        start_of(printed.unwrap_or_default())
    );
    println!(
        "  reference line {number} \"{}\"",
        start_of(expected.unwrap_or_default())
    );
}

/// What can be shown of bytes on a line.
fn start_of(bytes: &[u8]) -> String {
    let start = &bytes[..bytes.len().min(300)];
    let more = if start.len() < bytes.len() { ".." } else { "" };
    format!("{}{more}", start.escape_ascii())
}
