//! Lines for the orders program, spelled in any of the ways that it reads, and lines that it cannot
//! read.

use crate::orders_text;
use crate::random::Random;
use crate::reference_calls::Call;

/// Lines that cannot be read.
const UNREADABLE: [&str; 26] = [
    "start",
    "start lookup",
    "start lookup 1",
    "start lookup 1 2 3",
    "start lookups 1 2",
    "start walk",
    "start walk x",
    "start walk 1 1",
    "step",
    "step reader",
    "step writer 0",
    "step reader 0 0",
    "put",
    "put 1",
    "put 1 -2",
    "put 4294967296 1",
    "change 1 2",
    "change 1 0xFFFFFFFFF 0",
    "remove 1 2",
    "remove 0x",
    "command 0",
    "command 0F 0G",
    "turn 0",
    "turn writer",
    "show all",
    "Put 1 2",
];

pub struct Spelling<'a>(pub &'a mut Random);

impl Spelling<'_> {
    pub fn panel(&mut self, m: u32, k: u32) -> Vec<u8> {
        self.spell(&format!("panel {m} {k}"))
    }

    pub fn show(&mut self) -> Vec<u8> {
        self.spell("show")
    }

    pub fn call(&mut self, call: Call, frame: &[u8]) -> Vec<u8> {
        let text = orders_text::call(call, frame);
        match call {
            Call::StartCommand => self.frame(&text),
            _ => self.spell(&text),
        }
    }

    /// Nothing, blanks, or a comment.
    pub fn comment(&mut self) -> Vec<u8> {
        match self.0.within(0, 3) {
            0 => self.end(Vec::new()),
            1 => self.end(b" \t ".to_vec()),
            2 => self.spell("# put 1 2"),
            _ => {
                let length = self.0.within(0, 600) as usize;
                self.end([b" #", "x".repeat(length).as_bytes()].concat())
            }
        }
    }

    pub fn unreadable(&mut self) -> Vec<u8> {
        let line = self.0.one_of(&UNREADABLE);
        match self.0.within(0, 3) {
            0 => self.end(line.as_bytes().to_vec()),
            _ => self.spell(line),
        }
    }

    /// The words with any blanks between them, the numbers decimal or hexadecimal.
    fn spell(&mut self, text: &str) -> Vec<u8> {
        let mut line = self.blanks(0);
        for (word, place) in text.split(' ').zip(0..) {
            if place > 0 {
                line += &self.blanks(1);
            }
            line += &self.number_or_word(word);
        }
        line += &self.blanks(0);
        self.end(line.into_bytes())
    }

    fn number_or_word(&mut self, word: &str) -> String {
        let Ok(number) = word.parse::<u32>() else {
            return word.to_string();
        };
        match self.0.within(0, 9) {
            0 => format!("0x{number:X}"),
            1 => format!("0X{number:06x}"),
            2 => format!("{number:012}"),
            _ => word.to_string(),
        }
    }

    /// The frame's digits in any case, with blanks or without.
    fn frame(&mut self, text: &str) -> Vec<u8> {
        let (word, digits) = text.split_at("command".len());
        let digits = match self.0.within(0, 2) {
            0 => digits.to_string(),
            1 => digits.to_lowercase().replace(' ', ""),
            _ => digits
                .replace(' ', "")
                .chars()
                .flat_map(|digit| {
                    let blanks = self.blanks(0);
                    std::iter::once(digit).chain(blanks.chars().collect::<Vec<_>>())
                })
                .collect(),
        };
        let line = format!("{word}{}{digits}", self.blanks(1));
        self.end(line.into_bytes())
    }

    /// At least so many, mostly no more.
    fn blanks(&mut self, least: u32) -> String {
        let more = self.0.within(0, 12).saturating_sub(10);
        (0..least + more)
            .map(|_| if self.0.within(0, 5) == 0 { '\t' } else { ' ' })
            .collect()
    }

    fn end(&mut self, mut line: Vec<u8>) -> Vec<u8> {
        if self.0.within(0, 9) == 0 {
            line.push(b'\r');
        }
        line.push(b'\n');
        line
    }
}
