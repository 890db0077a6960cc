//! Inputs for the comparison and the benchmark, the same in every run.

use crate::random::Random;
use crate::reference_frame::Fields;

/// The six map bytes, each with the length of its frame.
pub const KINDS: [(u32, usize); 6] = [
    (0x04, 5),
    (0x0F, 10),
    (0x14, 9),
    (0x17, 13),
    (0x24, 6),
    (0x27, 10),
];

/// Valid numbers for every field, those that the map lacks too.
pub fn valid_fields(random: &mut Random, map: u32) -> Fields {
    Fields {
        map,
        station: random.within(1, 32),
        number: random.within(1, 16_777_215),
        point: random.within(1, 2_147_483_646),
        action: random.within(0, 2),
        value: random.within(0, u32::MAX),
        refusal: random.within(1, 14),
    }
}

/// The bytes of a frame, field by field; of each number the low bytes that fit into its field.
pub fn frame_bytes(fields: &Fields) -> Vec<u8> {
    let numbers = [
        (fields.station, 1),
        (fields.number, 3),
        (fields.point, 4),
        (fields.action, 1),
        (fields.value, 4),
        (fields.refusal, 1),
    ];
    let mut bytes = vec![fields.map as u8];
    for (bit, (number, width)) in numbers.into_iter().enumerate() {
        if (fields.map >> bit) & 1 == 1 {
            bytes.extend_from_slice(&number.to_be_bytes()[4 - width..]);
        }
    }
    bytes
}
