//! Benchmark of the library's frame reader and writer beside the reference: nanoseconds for each
//! frame, best of several rounds. Exit status 1 only if the two disagree.

#[path = "../../frame/frame_inputs.rs"]
mod frame_inputs;
#[path = "../../frame/library_frame.rs"]
mod library_frame;
// Not every function is used.
#[allow(dead_code)]
#[path = "../../common/random.rs"]
mod random;
#[path = "../../reference/reference_frame.rs"]
mod reference_frame;

use frame_inputs::{frame_bytes, valid_fields, KINDS};
use random::{damage, Random};
use reference_frame::Fields;
use std::hint::black_box;
use std::process::ExitCode;
use std::time::Instant;

const FRAMES: usize = 1_000_000;
const ROUNDS: usize = 9;

/// One input in this many is damaged or has a field out of range.
const DAMAGED: u32 = 32;

/// Room for each frame in the writer's output; more than the longest frame.
const ROOM: usize = 16;

/// The frames one behind the other; frame i is `bytes[offsets[i]..offsets[i + 1]]`.
struct Frames {
    bytes: Vec<u8>,
    offsets: Vec<usize>,
}

fn any_kind(random: &mut Random) -> u32 {
    random.one_of(&KINDS).0
}

fn make_frames(random: &mut Random) -> Frames {
    let mut frames = Frames {
        bytes: Vec::new(),
        offsets: vec![0],
    };
    for _ in 0..FRAMES {
        let map = any_kind(random);
        let mut bytes = frame_bytes(&valid_fields(random, map));
        if random.within(1, DAMAGED) == 1 {
            damage(random, &mut bytes);
        }
        frames.bytes.extend_from_slice(&bytes);
        frames.offsets.push(frames.bytes.len());
    }
    frames
}

fn make_fields(random: &mut Random) -> Vec<Fields> {
    let mut one = || {
        let map = any_kind(random);
        let mut fields = valid_fields(random, map);
        if random.within(1, DAMAGED) == 1 {
            fields.point = 0;
        }
        fields
    };
    (0..FRAMES).map(|_| one()).collect()
}

/// The reference reader with the library's out numbers. It is not inlined, so that both sides
/// pay one call for each frame.
#[inline(never)]
#[allow(clippy::too_many_arguments)]
fn reference_read(
    bytes: &[u8],
    map: &mut u32,
    station: &mut u32,
    number: &mut u32,
    point: &mut u32,
    action: &mut u32,
    value: &mut u32,
    refusal: &mut u32,
) -> u32 {
    let (answer, fields) = match reference_frame::read(bytes) {
        Ok(fields) => (0, fields),
        Err(refusal) => (refusal as u32, Fields::default()),
    };
    *map = fields.map;
    *station = fields.station;
    *number = fields.number;
    *point = fields.point;
    *action = fields.action;
    *value = fields.value;
    *refusal = fields.refusal;
    answer
}

/// The reference writer with the library's arguments, not inlined either.
#[inline(never)]
#[allow(clippy::too_many_arguments)]
fn reference_write(
    buffer: &mut [u8],
    written: &mut u32,
    map: u32,
    station: u32,
    number: u32,
    point: u32,
    action: u32,
    value: u32,
    refusal: u32,
) -> u32 {
    let fields = Fields {
        map,
        station,
        number,
        point,
        action,
        value,
        refusal,
    };
    let (answer, length) = match reference_frame::write(buffer, &fields) {
        Ok(length) => (0, length),
        Err(refusal) => (refusal as u32, 0),
    };
    *written = length;
    answer
}

fn mix(sum: u64, number: u32) -> u64 {
    sum.rotate_left(5).wrapping_add(number.into())
}

/// One round: nanoseconds for each frame, and a sum over everything handed back.
struct Round {
    time: f64,
    sum: u64,
}

fn round(run: impl FnOnce() -> u64) -> Round {
    let start = Instant::now();
    let sum = run();
    Round {
        time: start.elapsed().as_nanos() as f64 / FRAMES as f64,
        sum,
    }
}

fn read_all(frames: &Frames, read: impl Fn(&[u8], &mut Fields) -> u32) -> Round {
    round(|| {
        let mut sum = 0;
        let mut fields = Fields::default();
        for ends in frames.offsets.windows(2) {
            let answer = read(&frames.bytes[ends[0]..ends[1]], &mut fields);
            sum = mix(sum, answer);
            sum = mix(sum, fields.map ^ fields.station ^ fields.number);
            sum = mix(sum, fields.point);
            sum = mix(sum, fields.action ^ fields.value ^ fields.refusal);
        }
        sum
    })
}

/// The output is cleared before the time is taken, and summed after.
fn write_all(
    inputs: &[Fields],
    output: &mut [u8],
    write: impl Fn(&mut [u8], &mut u32, &Fields) -> u32,
) -> Round {
    output.fill(0);
    let mut round = round(|| {
        let mut sum = 0;
        let mut written = 0;
        for (fields, room) in inputs.iter().zip(output.chunks_exact_mut(ROOM)) {
            let answer = write(room, &mut written, fields);
            sum = mix(sum, answer);
            sum = mix(sum, written);
        }
        sum
    });
    round.sum = output
        .iter()
        .fold(round.sum, |sum, &byte| mix(sum, byte.into()));
    round
}

/// Alternates the two, prints the best time of each, and says whether all sums agree.
fn report(
    name: &str,
    mut library: impl FnMut() -> Round,
    mut reference: impl FnMut() -> Round,
) -> bool {
    let mut best = [f64::INFINITY; 2];
    let mut sums = Vec::new();
    for _ in 0..ROUNDS {
        for (best, round) in best.iter_mut().zip([library(), reference()]) {
            *best = best.min(round.time);
            sums.push(round.sum);
        }
    }
    let [library, reference] = best;
    println!(
        "{name}: library {library:.2} ns, reference {reference:.2} ns per frame, \
         library / reference {:.2}",
        library / reference
    );
    let agree = sums.iter().all(|sum| *sum == sums[0]);
    if !agree {
        println!("{name}: the checksums differ");
    }
    agree
}

fn bench_reader(random: &mut Random) -> bool {
    let frames = black_box(make_frames(random));
    report(
        "reader",
        || read_all(&frames, library_frame::read),
        || {
            read_all(&frames, |bytes, f| {
                reference_read(
                    bytes,
                    &mut f.map,
                    &mut f.station,
                    &mut f.number,
                    &mut f.point,
                    &mut f.action,
                    &mut f.value,
                    &mut f.refusal,
                )
            })
        },
    )
}

fn bench_writer(random: &mut Random) -> bool {
    let inputs = black_box(make_fields(random));
    let mut library_output = vec![0; FRAMES * ROOM];
    let mut reference_output = vec![0; FRAMES * ROOM];
    report(
        "writer",
        || write_all(&inputs, &mut library_output, library_frame::write),
        || {
            write_all(&inputs, &mut reference_output, |room, written, f| {
                reference_write(
                    room, written, f.map, f.station, f.number, f.point, f.action, f.value,
                    f.refusal,
                )
            })
        },
    )
}

fn main() -> ExitCode {
    println!("frame_bench: {FRAMES} frames, best of {ROUNDS} rounds");
    let mut random = Random(1);
    let reader = bench_reader(&mut random);
    let writer = bench_writer(&mut random);
    match reader && writer {
        true => ExitCode::SUCCESS,
        false => ExitCode::FAILURE,
    }
}
