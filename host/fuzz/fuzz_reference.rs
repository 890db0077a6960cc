//! The references as C functions, for the fuzz targets. They are compiled with coverage counters:
//! the proved library and programs have none, so the branches of the references guide the fuzzer.

#[path = "../bench/bench_line.rs"]
mod bench_line;
#[path = "../bench/bench_protocol.rs"]
mod bench_protocol;
#[path = "../reference/direct_table.rs"]
mod direct_table;
#[path = "../orders/orders_line.rs"]
mod orders_line;
#[path = "../orders/orders_protocol.rs"]
mod orders_protocol;
#[path = "../orders/orders_text.rs"]
mod orders_text;
#[path = "../reference/plain_feeding.rs"]
mod plain_feeding;
#[path = "../reference/point_table.rs"]
mod point_table;
#[path = "../reference/reference_calls.rs"]
mod reference_calls;
#[path = "../reference/reference_command.rs"]
mod reference_command;
#[path = "../reference/reference_frame.rs"]
mod reference_frame;
#[path = "../reference/reference_record.rs"]
mod reference_record;
#[path = "../reference/reference_turn.rs"]
mod reference_turn;
#[path = "../reference/reference_writer.rs"]
mod reference_writer;

// The list's lookups are not printed.
#[allow(dead_code)]
#[path = "../reference/plain_list.rs"]
mod plain_list;
// The disabled points are no calls of a list.
#[allow(dead_code)]
#[path = "../reference/reference_table.rs"]
mod reference_table;

use direct_table::DirectTable;
use reference_frame::Fields;
use std::slice::{from_raw_parts, from_raw_parts_mut};

/// The map and the six fields, in rising bit order.
type Numbers = [u32; 7];

/// Reads the frame into `numbers`; 0 or the refusal.
///
/// # Safety
/// `bytes` is not null and is valid for `length` bytes.
#[no_mangle]
pub unsafe extern "C" fn reference_frame_read(
    bytes: *const u8,
    length: usize,
    numbers: &mut Numbers,
) -> u32 {
    let (answer, fields) = match reference_frame::read(from_raw_parts(bytes, length)) {
        Ok(fields) => (0, fields),
        Err(refusal) => (refusal as u32, Fields::default()),
    };
    *numbers = [
        fields.map,
        fields.station,
        fields.number,
        fields.point,
        fields.action,
        fields.value,
        fields.refusal,
    ];
    answer
}

/// Writes the frame of `numbers` and its length; 0 or the refusal.
///
/// # Safety
/// `bytes` is not null and is valid for `length` bytes, which nothing else refers to.
#[no_mangle]
pub unsafe extern "C" fn reference_frame_write(
    bytes: *mut u8,
    length: usize,
    written: &mut u32,
    numbers: &Numbers,
) -> u32 {
    let [map, station, number, point, action, value, refusal] = *numbers;
    let fields = Fields {
        map,
        station,
        number,
        point,
        action,
        value,
        refusal,
    };
    let result = reference_frame::write(from_raw_parts_mut(bytes, length), &fields);
    *written = result.unwrap_or(0);
    result.map_or_else(|refusal| refusal as u32, |_| 0)
}

/// Runs the bench on the input; how many bytes it printed, or more than `room` if they do not fit.
///
/// # Safety
/// Both pointers are not null and valid for their lengths; nothing else refers to `printed`.
#[no_mangle]
pub unsafe extern "C" fn reference_bench(
    input: *const u8,
    length: usize,
    printed: *mut u8,
    room: usize,
) -> usize {
    let mut left = from_raw_parts_mut(printed, room);
    match bench_protocol::run::<DirectTable>(from_raw_parts(input, length), &mut left) {
        Ok(_) => room - left.len(),
        Err(_) => room + 1,
    }
}

/// The same of the orders program.
///
/// # Safety
/// Both pointers are not null and valid for their lengths; nothing else refers to `printed`.
#[no_mangle]
pub unsafe extern "C" fn reference_orders(
    input: *const u8,
    length: usize,
    printed: *mut u8,
    room: usize,
) -> usize {
    let text = orders_protocol::run(from_raw_parts(input, length));
    if text.len() > room {
        return room + 1;
    }
    from_raw_parts_mut(printed, text.len()).copy_from_slice(&text);
    text.len()
}
