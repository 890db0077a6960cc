//! Pseudorandom bytes as input for the orders program.

use crate::orders_histories;
use crate::random::{damage, Random};

/// Words of which a readable line is made now and then.
const WORDS: [&str; 25] = [
    "panel",
    "start",
    "lookup",
    "walk",
    "step",
    "reader",
    "writer",
    "put",
    "change",
    "remove",
    "command",
    "turn",
    "show",
    "#",
    "0",
    "1",
    "8",
    "17",
    "0x1F",
    "4294967295",
    "4294967296",
    "0F",
    "\r",
    "\n",
    "\n",
];

/// Bytes of any kind, with and without a panel; words in any order; and a history with some bytes
/// damaged.
pub fn any(random: &mut Random) -> Vec<u8> {
    let length = random.within(0, 3000) as usize;
    let panel = b"panel 8 4\n".to_vec();
    match random.within(0, 3) {
        0 => random.bytes(length),
        1 => [panel, random.bytes(length)].concat(),
        2 => [panel, words(random, length / 4)].concat(),
        _ => damaged(random),
    }
}

fn words(random: &mut Random, count: usize) -> Vec<u8> {
    let words = (0..count).map(|_| {
        let word = random.one_of(&WORDS);
        format!("{word} ").into_bytes()
    });
    words.collect::<Vec<_>>().concat()
}

fn damaged(random: &mut Random) -> Vec<u8> {
    let mut bytes = orders_histories::small(random);
    for _ in 0..random.within(1, 40) {
        damage(random, &mut bytes);
    }
    bytes
}
