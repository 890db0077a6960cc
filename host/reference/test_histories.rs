//! Whole operations: the reference by its steps, the direct table and the plain list give the same
//! answers after the same numbers of steps, and leave the same slots and reach. A walk behind each
//! history gives the list's slots.

use crate::answer_of;
use crate::bench_histories::History;
use crate::bench_line::Command;
use crate::direct_table::DirectTable;
use crate::plain_feeding::Answer;
use crate::plain_list::PlainList;
use crate::point_table::PointTable;
use crate::random::Random;
use crate::reference_record::is_point;
use crate::reference_table::{start_walk, step_reader, Refusal, Step};
use crate::step_table::StepTable;

const HISTORIES: u32 = 2000;

/// The reader that walks.
const WALKER: u32 = 15;

/// What an operation ended with, and the number of its steps; none if its start is refused with 2.
type Outcome = Option<(Answer, u32)>;

/// The number of commands carried out.
pub fn run() -> usize {
    let mut random = Random(2);
    let histories = (0..HISTORIES).map(|_| History::small(&mut random));
    histories.map(|history| compare(&history)).sum()
}

fn compare(history: &History) -> usize {
    let &History { m, k, .. } = history;
    let mut by_steps = StepTable::new(m, k).expect("the sizes are in range");
    let mut direct = DirectTable::new(m, k).expect("the sizes are in range");
    let mut list = PlainList::new(m, k);
    for &command in &history.commands {
        let expected = plainly(&mut list, k, command);
        assert_eq!(carry_out(&mut by_steps, command), expected);
        assert_eq!(carry_out(&mut direct, command), expected);
        assert_eq!(by_steps.slots, list.slots());
        assert_eq!(direct.slots, list.slots());
        assert_eq!(by_steps.reach(), list.largest_index());
        assert_eq!(direct.reach(), list.largest_index());
        assert_eq!(by_steps.points(), direct.points());
    }
    assert_eq!(walked(&mut by_steps), list.slots());
    history.commands.len()
}

/// The words of a walk to its end.
fn walked(table: &mut StepTable) -> Vec<u64> {
    let StepTable { record, slots, .. } = table;
    assert_eq!(start_walk(record, slots, WALKER), Ok(()));
    let mut words = Vec::new();
    loop {
        match step_reader(record, slots, WALKER) {
            Ok(Step::Word(word)) => words.push(word),
            Ok(Step::LastWord(word)) => {
                words.push(word);
                return words;
            }
            other => panic!("a walk's step gave {other:?}"),
        }
    }
}

fn carry_out(table: &mut impl PointTable, command: Command) -> Outcome {
    let ended = match command {
        Command::Put { point, value } => table.put(point, value),
        Command::Lookup { point } => table.lookup(point),
        Command::Removal { point } => table.remove(point),
    };
    match ended {
        Ok(ended) => Some((answer_of(ended.ending), ended.steps)),
        Err(refusal) => {
            assert_eq!(refusal, Refusal::Address);
            None
        }
    }
}

/// The steps are those of document 01 while nothing else moves.
fn plainly(list: &mut PlainList, k: u32, command: Command) -> Outcome {
    if !is_point(command.point()) {
        return None;
    }
    let reach = list.largest_index();
    let searched = search_steps(list, command.point());
    let (answer, more) = match command {
        Command::Lookup { point } => (list.lookup(point).map(|value| (value, 0)).ok_or(7), 0),
        Command::Put { point, value } => {
            let is_stored = list.row(point).is_some();
            let answer = list.put(point, value).ok_or(6);
            let more = match answer {
                Ok(_) if is_stored => 1,
                Ok((_, index)) => index + u32::from(index > reach) + 1,
                Err(_) => k,
            };
            (answer, more)
        }
        Command::Removal { point } => {
            let answer = list.remove(point).map(|reach| (reach, 0)).ok_or(7);
            let more = answer.map_or(0, |(after, _)| 1 + u32::from(after < reach));
            (answer, more)
        }
    };
    Some((answer, searched + more))
}

/// The reach is read, then the positions up to the one where the point is found, or up to the reach.
fn search_steps(list: &PlainList, point: u32) -> u32 {
    let row = list.row(point);
    let last = row.map_or(list.largest_index(), |row| list.index_of(point, row.place));
    1 + last
}
