//! A program that reads the lines of `step_speed` and prints, for each, the calls made and a sum.

use crate::child_program;

/// The letter of a size, and the number of slots.
pub const SIZES: [(char, u32); 2] = [('S', 16), ('L', 4096)];

/// What a program prints for a line.
pub fn printed(program: &str, line: &str) -> Result<String, String> {
    let printed = child_program::run(program, line.as_bytes());
    let printed = printed.map_err(|error| {
        format!("{program}: {error}; run from the repository root, after host/build step_speed")
    })?;
    String::from_utf8(printed).map_err(|_| format!("{program}: no text"))
}

/// The calls made, the first number printed.
pub fn calls(printed: &str) -> Result<f64, String> {
    let first = printed.split(' ').next().and_then(|word| word.parse().ok());
    first.ok_or_else(|| format!("{printed:?} does not begin with a number"))
}
