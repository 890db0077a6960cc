//! Pseudorandom bytes as input for the bench.

use crate::bench_histories::History;
use crate::random::{damage, Random};

/// Bytes of which a readable line is made now and then.
const LETTERS: &[u8] = b"PLR   0123456789\n\n";

/// Bytes of any kind, with and without a first line; bytes of which lines are made; and a history
/// with some bytes damaged.
pub fn any(random: &mut Random) -> Vec<u8> {
    let length = random.within(0, 3000) as usize;
    let first = b"8 4\n".to_vec();
    match random.within(0, 3) {
        0 => random.bytes(length),
        1 => [first, random.bytes(length)].concat(),
        2 => [first, letters(random, length)].concat(),
        _ => damaged(random),
    }
}

fn letters(random: &mut Random, length: usize) -> Vec<u8> {
    (0..length).map(|_| random.one_of(LETTERS)).collect()
}

fn damaged(random: &mut Random) -> Vec<u8> {
    let mut bytes = History::small(random).to_string().into_bytes();
    for _ in 0..random.within(1, 20) {
        damage(random, &mut bytes);
    }
    bytes
}
