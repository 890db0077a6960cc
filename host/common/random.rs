//! Pseudorandom numbers, the same in every run, and bytes damaged by them.

/// The generator splitmix64.
pub struct Random(pub u64);

impl Random {
    pub fn next(&mut self) -> u64 {
        self.0 = self.0.wrapping_add(0x9E37_79B9_7F4A_7C15);
        let mut z = self.0;
        z = (z ^ (z >> 30)).wrapping_mul(0xBF58_476D_1CE4_E5B9);
        z = (z ^ (z >> 27)).wrapping_mul(0x94D0_49BB_1331_11EB);
        z ^ (z >> 31)
    }

    /// From `low` to `high`, both included.
    pub fn within(&mut self, low: u32, high: u32) -> u32 {
        let width = u64::from(high - low) + 1;
        low + (((self.next() >> 32) * width) >> 32) as u32
    }

    pub fn byte(&mut self) -> u8 {
        self.within(0, 255) as u8
    }

    pub fn bytes(&mut self, length: usize) -> Vec<u8> {
        (0..length).map(|_| self.byte()).collect()
    }

    /// One of the items, of which there is at least one.
    pub fn one_of<T: Copy>(&mut self, items: &[T]) -> T {
        items[self.within(0, items.len() as u32 - 1) as usize]
    }
}

/// Changes, adds or removes one byte.
pub fn damage(random: &mut Random, bytes: &mut Vec<u8>) {
    let place = random.within(0, bytes.len() as u32) as usize;
    let byte = match random.within(0, 3) {
        0 => 0x00,
        1 => 0xFF,
        _ => random.byte(),
    };
    match random.within(0, 3) {
        0 => bytes.insert(place, byte),
        1 if place < bytes.len() => {
            bytes.remove(place);
        }
        _ if place < bytes.len() => bytes[place] = byte,
        _ => bytes.push(byte),
    }
}
