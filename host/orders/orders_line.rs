//! What a line of the orders program's input says.

use crate::reference_calls::Call;

/// The longest line that is read, without its line feed.
const LONGEST_LINE: usize = 256;

/// The most bytes that a command's frame may have in a line.
const LONGEST_FRAME: usize = 32;

#[derive(Debug)]
pub enum Order {
    /// An empty line or a comment.
    Nothing,
    Panel {
        m: u32,
        k: u32,
    },
    /// A call, with the frame that a command sends.
    Call(Call, Vec<u8>),
    Show,
}

/// The line without its line feed, or why it cannot be read.
pub fn read(line: &[u8]) -> Result<Order, String> {
    let is_long = line.len() > LONGEST_LINE;
    let text = if is_long {
        &line[..LONGEST_LINE]
    } else {
        line.strip_suffix(b"\r").unwrap_or(line)
    };
    let mut words = Words(text.split(is_blank as fn(&u8) -> bool));
    match words.next() {
        Some([b'#', ..]) => Ok(Order::Nothing),
        _ if is_long => Err("line longer than 256 bytes".to_string()),
        None => Ok(Order::Nothing),
        Some(b"command") => Ok(Order::Call(Call::StartCommand, frame(words)?)),
        Some(word) => {
            let order = order(word, &mut words)?;
            match words.next() {
                None => Ok(order),
                Some(_) => Err("something behind the last word".to_string()),
            }
        }
    }
}

fn is_blank(byte: &u8) -> bool {
    matches!(byte, b' ' | b'\t')
}

/// The parts between blanks, of which the empty ones are no words.
struct Words<'a>(std::slice::Split<'a, u8, fn(&u8) -> bool>);

impl<'a> Iterator for Words<'a> {
    type Item = &'a [u8];

    fn next(&mut self) -> Option<&'a [u8]> {
        self.0.find(|word| !word.is_empty())
    }
}

fn order(word: &[u8], words: &mut Words) -> Result<Order, String> {
    let call = match word {
        b"panel" => {
            let m = number(words, "m")?;
            let k = number(words, "k")?;
            return Ok(Order::Panel { m, k });
        }
        b"show" => return Ok(Order::Show),
        b"start" => match words.next() {
            Some(b"lookup") => Call::StartLookup {
                reader: number(words, "reader")?,
                point: number(words, "point")?,
            },
            Some(b"walk") => Call::StartWalk {
                reader: number(words, "reader")?,
            },
            other => return Err(no_such_word(other)),
        },
        b"step" => match words.next() {
            Some(b"reader") => Call::StepReader {
                reader: number(words, "reader")?,
            },
            Some(b"writer") => Call::StepWriter,
            other => return Err(no_such_word(other)),
        },
        b"put" => Call::StartPut {
            point: number(words, "point")?,
            value: number(words, "value")?,
        },
        b"change" => Call::StartChange {
            point: number(words, "point")?,
            keep: number(words, "keep")?,
            flip: number(words, "flip")?,
        },
        b"remove" => Call::StartRemoval {
            point: number(words, "point")?,
        },
        b"turn" => Call::Turn,
        other => return Err(no_such_word(Some(other))),
    };
    Ok(Order::Call(call, Vec::new()))
}

fn no_such_word(word: Option<&[u8]>) -> String {
    match word {
        Some(_) => "unknown word".to_string(),
        None => "word missing".to_string(),
    }
}

/// Decimal digits, or hexadecimal ones behind 0x.
fn number(words: &mut Words, name: &str) -> Result<u32, String> {
    let word = words
        .next()
        .ok_or_else(|| format!("number missing: {name}"))?;
    let (base, digits) = match word {
        [b'0', b'x' | b'X', digits @ ..] => (16, digits),
        digits => (10, digits),
    };
    let values: Option<Vec<u32>> = digits
        .iter()
        .map(|&digit| char::from(digit).to_digit(base))
        .collect();
    let values = values
        .filter(|values| !values.is_empty())
        .ok_or_else(|| format!("not a number: {name}"))?;
    values
        .iter()
        .try_fold(0, |number: u32, &digit| {
            number.checked_mul(base)?.checked_add(digit)
        })
        .ok_or_else(|| format!("number above 4294967295: {name}"))
}

/// The digits behind the word, wherever blanks stand between them.
fn frame(words: Words) -> Result<Vec<u8>, String> {
    let digits: Option<Vec<u32>> = words
        .flatten()
        .map(|&digit| char::from(digit).to_digit(16))
        .collect();
    let digits = digits.ok_or("not a hexadecimal digit")?;
    if digits.len() > 2 * LONGEST_FRAME {
        return Err("frame longer than 32 bytes".to_string());
    }
    if digits.len() % 2 == 1 {
        return Err("odd count of hexadecimal digits".to_string());
    }
    let bytes = digits.chunks(2).map(|pair| (pair[0] << 4 | pair[1]) as u8);
    Ok(bytes.collect())
}
