//! Tests of the reference itself: the writer's steps and the command entry one by one, the counts of
//! steps, whole operations against the direct table and the plain list, the calls of writer, readers
//! and stations in any order against the plain list, and turns. A failed test ends the program.

#[path = "../../bench/bench_commands.rs"]
mod bench_commands;
#[path = "../../bench/bench_histories.rs"]
mod bench_histories;
#[path = "../direct_table.rs"]
mod direct_table;
#[path = "../drawn_commands.rs"]
mod drawn_commands;
#[path = "../plain_feeding.rs"]
mod plain_feeding;
#[path = "../plain_list.rs"]
mod plain_list;
#[path = "../point_table.rs"]
mod point_table;
#[path = "../reference_command.rs"]
mod reference_command;
#[path = "../reference_frame.rs"]
mod reference_frame;
#[path = "../reference_operations.rs"]
mod reference_operations;
#[path = "../reference_record.rs"]
mod reference_record;
#[path = "../reference_turn.rs"]
mod reference_turn;
#[path = "../reference_writer.rs"]
mod reference_writer;
#[path = "../step_table.rs"]
mod step_table;
#[path = "../test_commands.rs"]
mod test_commands;
#[path = "../test_entry.rs"]
mod test_entry;
#[path = "../test_histories.rs"]
mod test_histories;
#[path = "../test_orders.rs"]
mod test_orders;
#[path = "../test_step_counts.rs"]
mod test_step_counts;
#[path = "../test_steps.rs"]
mod test_steps;
#[path = "../test_turns.rs"]
mod test_turns;
#[path = "../test_waiting.rs"]
mod test_waiting;
#[path = "../test_walks.rs"]
mod test_walks;

// Commands are not read from text here.
#[allow(dead_code)]
#[path = "../../bench/bench_line.rs"]
mod bench_line;
// Not every function is used.
#[allow(dead_code)]
#[path = "../../common/random.rs"]
mod random;
// Disabled points are tested elsewhere.
#[allow(dead_code)]
#[path = "../reference_table.rs"]
mod reference_table;

use plain_feeding::Answer;
use reference_table::Ending;
use test_waiting::Seen;
use test_walks::Ended;

/// What an operation ended with, as the plain list answers it.
fn answer_of(ending: Ending) -> Answer {
    match ending {
        Ending::Put { slot, index } => Ok((slot, index)),
        Ending::Found(number) | Ending::Changed(number) | Ending::Removed(number) => {
            Ok((number, 0))
        }
        Ending::NoPerch => Err(6),
        Ending::Unknown => Err(7),
    }
}

fn main() {
    test_steps::run();
    test_step_counts::run();
    test_entry::run();
    let commands = test_histories::run();
    let (calls, Ended { walks, altered }) = test_orders::run();
    test_turns::run();
    let Seen { turns, lookups, .. } = test_waiting::run();
    println!(
        "reference_test: {commands} commands of histories and {calls} calls in any order, \
         as the plain list has them and with the number of their steps; {walks} walks to their end, {altered} of them while the list \
         was altered; {turns} turns, in which nobody at work waited for more than 16 and {lookups} \
         lookups ended in time"
    );
}
