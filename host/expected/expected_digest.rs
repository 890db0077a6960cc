//! The digest of the long histories of `drawn_histories`: every number of the answers, the slots and
//! the record, in two checksums.

use crate::reference_calls::Answer;
use crate::reference_command::Entry;
use crate::reference_record::{
    Alteration, ChangeStage, Place, PutStage, Reader, Record, RemovalStage, Search, Station, Writer,
};
use crate::reference_table::{point_of, value_of, Ended, Ending, Step};
use crate::reference_turn::Served;
use crate::reference_writer::WriterStep;

pub struct Digest {
    pub first: u64,
    pub second: u64,
}

impl Digest {
    pub fn new() -> Self {
        Digest {
            first: 1,
            second: 1,
        }
    }

    fn add(&mut self, numbers: &[u32]) {
        for &number in numbers {
            self.first = (self.first * 16807 + u64::from(number)) % 2_147_483_647;
            self.second = (self.second * 48271 + u64::from(number)) % 4_294_967_291;
        }
    }

    pub fn add_answer(&mut self, answer: Answer) {
        self.add(&answer_numbers(answer));
    }

    pub fn add_state(&mut self, record: &Record, slots: &[u64]) {
        for &word in slots {
            self.add(&[point_of(word), value_of(word)]);
        }
        self.add(&[record.m, record.k, record.reach, record.place]);
        self.add(&record.counts);
        self.add(&writer_numbers(record.writer));
        for &reader in &record.readers {
            self.add(&reader_numbers(reader));
        }
        for &station in &record.stations {
            self.add(&station_numbers(station));
        }
    }
}

/// The case and what it carries. The cases are numbered behind the refusals.
fn answer_numbers(answer: Answer) -> Vec<u32> {
    match answer {
        Answer::Start(Ok(())) | Answer::Entry(Ok(Entry::Started)) => vec![15],
        Answer::Entry(Ok(Entry::GivenAgain { answer, steps })) => {
            [vec![16], kept_numbers(answer), vec![steps]].concat()
        }
        Answer::Reader(Ok(step)) => reader_step_numbers(step),
        Answer::Writer(Ok(step)) => writer_step_numbers(step),
        Answer::Turn(Ok(served)) => turn_numbers(served),
        Answer::Start(Err(refusal))
        | Answer::Entry(Err(refusal))
        | Answer::Reader(Err(refusal))
        | Answer::Writer(Err(refusal))
        | Answer::Turn(Err(refusal)) => vec![refusal],
    }
}

/// The party, and what its step gave.
fn turn_numbers(served: Served) -> Vec<u32> {
    match served {
        Served::Writer(step) => [vec![26, 0], writer_step_numbers(step)].concat(),
        Served::Reader { reader, step } => {
            [vec![26, reader + 1], reader_step_numbers(step)].concat()
        }
    }
}

fn reader_step_numbers(step: Step) -> Vec<u32> {
    match step {
        Step::Underway => vec![17],
        Step::Ended(ended) => ended_numbers(ended),
        Step::Word(word) => vec![24, point_of(word), value_of(word)],
        Step::LastWord(word) => vec![25, point_of(word), value_of(word)],
    }
}

fn writer_step_numbers(step: WriterStep) -> Vec<u32> {
    match step {
        WriterStep::Underway => vec![17],
        WriterStep::Ended(ended) => ended_numbers(ended),
    }
}

/// The steps go last.
fn ended_numbers(Ended { ending, steps }: Ended) -> Vec<u32> {
    let ending = match ending {
        Ending::Found(value) => vec![18, value],
        Ending::Put { slot, index } => vec![19, slot, index],
        Ending::Changed(value) => vec![20, value],
        Ending::Removed(reach) => vec![21, reach],
        Ending::NoPerch => vec![22],
        Ending::Unknown => vec![23],
    };
    [ending, vec![steps]].concat()
}

/// A command's answer.
fn kept_numbers(answer: Option<u32>) -> Vec<u32> {
    match answer {
        Some(value) => vec![0, value],
        None => vec![1],
    }
}

fn station_numbers(last: Station) -> Vec<u32> {
    let command = vec![last.number, last.point, last.action];
    [command, kept_numbers(last.answer)].concat()
}

fn reader_numbers(work: Reader) -> Vec<u32> {
    match work {
        Reader::Idle => vec![0],
        Reader::LookingUp {
            point,
            search,
            steps,
        } => [vec![1, point], search_numbers(search), vec![steps]].concat(),
        Reader::Walking { next } => vec![2, next],
    }
}

fn search_numbers(search: Search) -> Vec<u32> {
    match search {
        Search::Unread => vec![0],
        Search::Probing { reach, next } => vec![1, reach, next],
    }
}

fn writer_numbers(work: Writer) -> Vec<u32> {
    match work {
        Writer::Idle => vec![0],
        Writer::Putting {
            point,
            value,
            stage,
            steps,
        } => [vec![1, point, value], put_stage_numbers(stage), vec![steps]].concat(),
        Writer::Changing {
            point,
            alteration,
            stage,
            steps,
        } => {
            let change = [vec![2, point], alteration_numbers(alteration)].concat();
            [change, change_stage_numbers(stage), vec![steps]].concat()
        }
        Writer::Removing {
            point,
            stage,
            steps,
        } => [vec![3, point], removal_stage_numbers(stage), vec![steps]].concat(),
    }
}

fn put_stage_numbers(stage: PutStage) -> Vec<u32> {
    match stage {
        PutStage::Searching(search) => [vec![0], search_numbers(search)].concat(),
        PutStage::Scanning(next) => vec![1, next],
        PutStage::Found(Place { index, value }) => vec![2, index, value],
        PutStage::Chosen(index) => vec![3, index],
    }
}

fn alteration_numbers(alteration: Alteration) -> Vec<u32> {
    match alteration {
        Alteration::Given { keep, flip } => vec![0, keep, flip],
        Alteration::Commanded {
            station,
            number,
            action,
        } => vec![1, station, number, action],
    }
}

fn change_stage_numbers(stage: ChangeStage) -> Vec<u32> {
    match stage {
        ChangeStage::Searching(search) => [vec![0], search_numbers(search)].concat(),
        ChangeStage::Found(Place { index, value }) => vec![1, index, value],
    }
}

fn removal_stage_numbers(stage: RemovalStage) -> Vec<u32> {
    match stage {
        RemovalStage::Searching(search) => [vec![0], search_numbers(search)].concat(),
        RemovalStage::Found(Place { index, value }) => vec![1, index, value],
        RemovalStage::Lowering => vec![2],
    }
}
