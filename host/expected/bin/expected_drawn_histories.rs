//! What the program `drawn_histories` has to print, worked out a second time from document 01: the same
//! lines for the calls by value and for the calls in place.

#[path = "../expected_calls.rs"]
mod expected_calls;
#[path = "../expected_digest.rs"]
mod expected_digest;
#[path = "../expected_draws.rs"]
mod expected_draws;
#[path = "../expected_occurring.rs"]
mod expected_occurring;
#[path = "../../reference/reference_calls.rs"]
mod reference_calls;
#[path = "../../reference/reference_command.rs"]
mod reference_command;
#[path = "../../reference/reference_record.rs"]
mod reference_record;
#[path = "../../reference/reference_turn.rs"]
mod reference_turn;
#[path = "../../reference/reference_writer.rs"]
mod reference_writer;

// No frame is written here.
#[allow(dead_code)]
#[path = "../../reference/reference_frame.rs"]
mod reference_frame;
// The disabled points are no calls of a history.
#[allow(dead_code)]
#[path = "../../reference/reference_table.rs"]
mod reference_table;

fn main() {
    for way in ["by value", "in place"] {
        println!("{way}");
        expected_calls::run();
    }
}
