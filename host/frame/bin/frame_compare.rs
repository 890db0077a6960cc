//! Compares the library's frame reader and writer with the reference on fixed pseudorandom
//! inputs. Exit status 1 on any difference, and if an answer that must occur never did.

#[path = "../frame_inputs.rs"]
mod frame_inputs;
#[path = "../library_frame.rs"]
mod library_frame;
#[path = "../../common/random.rs"]
mod random;
#[path = "../../reference/reference_frame.rs"]
mod reference_frame;

use frame_inputs::{frame_bytes, valid_fields, KINDS};
use random::{damage, Random};
use reference_frame::{Fields, Refusal};
use std::fmt::Debug;
use std::process::ExitCode;

/// The differences that are printed one by one.
const SHOWN: u64 = 10;

/// Bytes before and behind each buffer that must stay as they are.
const GUARD: usize = 16;

/// Every length up to this one is tried; it is three above the longest frame.
const LONGEST: usize = 16;

/// Fills out numbers before a call, so that one left alone is noticed.
const UNTOUCHED: u32 = 0xA5C3_E187;

/// What one of the two functions answered so far.
struct Tally {
    name: &'static str,
    expected: &'static [u32],
    /// By refusal number, with 0 for accepted.
    answers: [u64; 15],
    /// Accepted frames by their place in `KINDS`.
    kinds: [u64; 6],
    inputs: u64,
    differences: u64,
}

impl Tally {
    fn new(name: &'static str, expected: &'static [u32]) -> Self {
        Tally {
            name,
            expected,
            answers: [0; 15],
            kinds: [0; 6],
            inputs: 0,
            differences: 0,
        }
    }

    /// Counts one input under the answer that the reference gave.
    fn count(&mut self, map: u32, answer: u32) {
        self.inputs += 1;
        self.answers[answer as usize] += 1;
        let kind = KINDS.iter().position(|&(known, _)| known == map);
        if let (0, Some(kind)) = (answer, kind) {
            self.kinds[kind] += 1;
        }
    }

    fn compare<T: PartialEq + Debug>(&mut self, input: impl Debug, library: T, reference: T) {
        if library == reference {
            return;
        }
        self.differences += 1;
        if self.differences <= SHOWN {
            println!("{} of {input:02X?}", self.name);
            println!("  library   {library:02X?}");
            println!("  reference {reference:02X?}");
        }
    }

    /// Whether every expected answer and every kind of accepted frame occurred.
    fn complete(&self) -> bool {
        self.expected.iter().all(|&n| self.answers[n as usize] > 0)
            && self.kinds.iter().all(|&n| n > 0)
    }

    fn print(&self) {
        print!("frame_compare: {}: accepted {}", self.name, self.answers[0]);
        for ((map, _), count) in KINDS.iter().zip(self.kinds) {
            print!(", map {map:02X}: {count}");
        }
        for (number, count) in self.answers.iter().enumerate().skip(1) {
            if *count > 0 || self.expected.contains(&(number as u32)) {
                print!(", refusal {number}: {count}");
            }
        }
        println!();
    }
}

/// The answer's number and the numbers handed back, all 0 with a refusal.
fn numbered<T: Default>(answer: Result<T, Refusal>) -> (u32, T) {
    match answer {
        Ok(numbers) => (0, numbers),
        Err(refusal) => (refusal as u32, T::default()),
    }
}

fn compare_read(tally: &mut Tally, bytes: &[u8]) {
    let mut fields = Fields {
        map: UNTOUCHED,
        station: UNTOUCHED,
        number: UNTOUCHED,
        point: UNTOUCHED,
        action: UNTOUCHED,
        value: UNTOUCHED,
        refusal: UNTOUCHED,
    };
    // A copy, to see that the library leaves the bytes alone.
    let lent = bytes.to_vec();
    let answer = library_frame::read(&lent, &mut fields);
    let reference = numbered(reference_frame::read(bytes));
    tally.count(reference.1.map, reference.0);
    let library = (answer, fields, lent);
    tally.compare(bytes, library, (reference.0, reference.1, bytes.to_vec()));
}

fn compare_write(tally: &mut Tally, random: &mut Random, length: usize, fields: &Fields) {
    let filler = random.next().to_le_bytes();
    let mut lent: Vec<u8> = (0..GUARD + length + GUARD).map(|i| filler[i % 8]).collect();
    let mut copy = lent.clone();
    let buffer = GUARD..GUARD + length;
    let mut written = UNTOUCHED;
    let answer = library_frame::write(&mut lent[buffer.clone()], &mut written, fields);
    let reference = numbered(reference_frame::write(&mut copy[buffer], fields));
    tally.count(fields.map, reference.0);
    let library = (answer, written, lent);
    tally.compare((length, fields), library, (reference.0, reference.1, copy));
}

fn random_length(random: &mut Random) -> usize {
    random.within(0, LONGEST as u32) as usize
}

fn read_valid(tally: &mut Tally, random: &mut Random) {
    for (map, length) in KINDS {
        for _ in 0..50_000 {
            let bytes = frame_bytes(&valid_fields(random, map));
            assert_eq!(bytes.len(), length);
            compare_read(tally, &bytes);
        }
    }
}

/// Frames whose fields are at the ends of their ranges or outside.
fn read_edges(tally: &mut Tally, random: &mut Random) {
    for (map, _) in KINDS {
        for _ in 0..30_000 {
            let bytes = frame_bytes(&edge_fields(random, map));
            compare_read(tally, &bytes);
        }
    }
}

/// Frames with one to three damages, and valid ones with many bytes behind.
fn read_damaged(tally: &mut Tally, random: &mut Random) {
    for (map, _) in KINDS {
        for _ in 0..60_000 {
            let mut bytes = frame_bytes(&valid_fields(random, map));
            for _ in 0..random.within(1, 3) {
                damage(random, &mut bytes);
            }
            compare_read(tally, &bytes);
        }
        // Lengths that agree with the frame's in their low 8 or 16 bits.
        for more in [256, 65_536] {
            let mut bytes = frame_bytes(&valid_fields(random, map));
            bytes.resize(bytes.len() + more, 1);
            compare_read(tally, &bytes);
        }
    }
}

/// Every map byte with every length.
fn read_every_map(tally: &mut Tally, random: &mut Random) {
    for map in 0..=255 {
        for length in 0..=LONGEST {
            for _ in 0..40 {
                let mut bytes = random.bytes(length);
                if let Some(first) = bytes.first_mut() {
                    *first = map;
                }
                compare_read(tally, &bytes);
            }
        }
    }
}

fn read_random(tally: &mut Tally, random: &mut Random) {
    for _ in 0..100_000 {
        let length = match random.within(0, 9) {
            0 => random.within(17, 600) as usize,
            _ => random_length(random),
        };
        let bytes = random.bytes(length);
        compare_read(tally, &bytes);
    }
}

/// A number at an end of a field's range, or with low bytes that are in the range, or any.
fn edge(random: &mut Random, valid: u32, edges: &[u32]) -> u32 {
    match random.within(0, 15) {
        0 => random.within(0, u32::MAX),
        1 => valid.wrapping_add(256),
        2 => valid.wrapping_add(1 << 24),
        3..=6 => random.one_of(edges),
        _ => valid,
    }
}

/// Fields of which some are at the ends of their ranges.
fn edge_fields(random: &mut Random, map: u32) -> Fields {
    let valid = valid_fields(random, map);
    let stations = [0, 1, 32, 33, 255, 256, 259, u32::MAX];
    let numbers = [0, 1, 16_777_215, 16_777_216, u32::MAX];
    let points = [0, 1, 2_147_483_646, 2_147_483_647, 2_147_483_648, u32::MAX];
    let actions = [0, 2, 3, 255, 256, u32::MAX];
    let refusals = [0, 1, 14, 15, 255, 256, 257, u32::MAX];
    Fields {
        map,
        station: edge(random, valid.station, &stations),
        number: edge(random, valid.number, &numbers),
        point: edge(random, valid.point, &points),
        action: edge(random, valid.action, &actions),
        value: edge(random, valid.value, &[0, 1, u32::MAX]),
        refusal: edge(random, valid.refusal, &refusals),
    }
}

fn write_kinds(tally: &mut Tally, random: &mut Random) {
    for (map, _) in KINDS {
        for length in 0..=LONGEST {
            for _ in 0..1_000 {
                let fields = valid_fields(random, map);
                compare_write(tally, random, length, &fields);
            }
            for _ in 0..3_000 {
                let fields = edge_fields(random, map);
                compare_write(tally, random, length, &fields);
            }
        }
        for length in [256, 65_536] {
            let fields = valid_fields(random, map);
            compare_write(tally, random, length, &fields);
        }
    }
}

fn write_every_map(tally: &mut Tally, random: &mut Random) {
    for map in 0..=300 {
        for length in 0..=LONGEST {
            for _ in 0..20 {
                let fields = edge_fields(random, map);
                compare_write(tally, random, length, &fields);
            }
        }
    }
}

/// Any number as map, with a map byte in the low 8 bits of half of them.
fn write_random_map(tally: &mut Tally, random: &mut Random) {
    for _ in 0..60_000 {
        let any = random.within(0, u32::MAX);
        let (known, _) = random.one_of(&KINDS);
        let map = match random.within(0, 1) {
            0 => any,
            _ => any & !0xFF | known,
        };
        let fields = edge_fields(random, map);
        let length = random_length(random);
        compare_write(tally, random, length, &fields);
    }
}

fn main() -> ExitCode {
    let mut random = Random(1);
    let mut reader = Tally::new("reader", &[0, 2, 8, 9, 10, 11, 13]);
    read_valid(&mut reader, &mut random);
    read_edges(&mut reader, &mut random);
    read_damaged(&mut reader, &mut random);
    read_every_map(&mut reader, &mut random);
    read_random(&mut reader, &mut random);
    let mut writer = Tally::new("writer", &[0, 2, 9, 10, 11, 13, 14]);
    write_kinds(&mut writer, &mut random);
    write_every_map(&mut writer, &mut random);
    write_random_map(&mut writer, &mut random);

    reader.print();
    writer.print();
    let inputs = reader.inputs + writer.inputs;
    let differences = reader.differences + writer.differences;
    println!("frame_compare: {inputs} inputs compared, {differences} differences");
    let complete = reader.complete() && writer.complete();
    if !complete {
        println!("frame_compare: an expected answer never occurred");
    }
    match differences == 0 && complete {
        true => ExitCode::SUCCESS,
        false => ExitCode::FAILURE,
    }
}
