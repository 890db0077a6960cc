//! What the lines of the bench's input say, in the form of document 01 ("Bench program and
//! values").

use std::fmt::{Display, Formatter, Result};

#[derive(Clone, Copy, Debug, PartialEq, Eq)]
pub enum Command {
    Put { point: u32, value: u32 },
    Lookup { point: u32 },
    Removal { point: u32 },
}

impl Command {
    pub fn point(self) -> u32 {
        match self {
            Command::Put { point, .. } | Command::Lookup { point } | Command::Removal { point } => {
                point
            }
        }
    }
}

impl Display for Command {
    fn fmt(&self, f: &mut Formatter) -> Result {
        match self {
            Command::Put { point, value } => write!(f, "P {point} {value}"),
            Command::Lookup { point } => write!(f, "L {point}"),
            Command::Removal { point } => write!(f, "R {point}"),
        }
    }
}

/// The first line: m and k.
pub fn read_sizes(line: &[u8]) -> Option<(u32, u32)> {
    read_pair(line)
}

/// Any other line.
pub fn read_command(line: &[u8]) -> Option<Command> {
    match line {
        [b'P', b' ', numbers @ ..] => {
            let (point, value) = read_pair(numbers)?;
            Some(Command::Put { point, value })
        }
        [b'L', b' ', number @ ..] => {
            let point = read_number(number)?;
            Some(Command::Lookup { point })
        }
        [b'R', b' ', number @ ..] => {
            let point = read_number(number)?;
            Some(Command::Removal { point })
        }
        _ => None,
    }
}

/// Two numbers with one space between.
fn read_pair(text: &[u8]) -> Option<(u32, u32)> {
    let space = text.iter().position(|&byte| byte == b' ')?;
    let first = read_number(&text[..space])?;
    let second = read_number(&text[space + 1..])?;
    Some((first, second))
}

/// A number of 1 to 10 digits, at most 4294967295.
fn read_number(text: &[u8]) -> Option<u32> {
    if text.is_empty() || text.len() > 10 || !text.iter().all(u8::is_ascii_digit) {
        return None;
    }
    let number = text
        .iter()
        .fold(0, |number, digit| number * 10 + u64::from(digit - b'0'));
    u32::try_from(number).ok()
}
