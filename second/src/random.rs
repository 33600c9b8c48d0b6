//! Numbers that the seed determines (splitmix64).

pub struct Random(u64);

/// Where sums carry, pages end, signs change and decimal digits run out.
const EDGES: [u8; 14] = [
    0x00, 0x00, 0x01, 0x01, 0x02, 0x0F, 0x10, 0x7F, 0x80, 0x99, 0xFD, 0xFE, 0xFF, 0xFF,
];

impl Random {
    pub fn new(seed: u64) -> Random {
        Random(seed)
    }

    pub fn next(&mut self) -> u64 {
        self.0 = self.0.wrapping_add(0x9E37_79B9_7F4A_7C15);
        let mut z = self.0;
        z = (z ^ z >> 30).wrapping_mul(0xBF58_476D_1CE4_E5B9);
        z = (z ^ z >> 27).wrapping_mul(0x94D0_49BB_1331_11EB);
        z ^ z >> 31
    }

    pub fn byte(&mut self) -> u8 {
        self.next() as u8
    }

    pub fn below(&mut self, limit: usize) -> usize {
        (((self.next() >> 32) * limit as u64) >> 32) as usize
    }

    /// Both ends are included.
    pub fn between(&mut self, low: usize, high: usize) -> usize {
        low + self.below(high - low + 1)
    }

    pub fn one_in(&mut self, n: usize) -> bool {
        self.below(n) == 0
    }

    pub fn pick<T: Copy>(&mut self, from: &[T]) -> T {
        from[self.below(from.len())]
    }

    pub fn edge_or_byte(&mut self) -> u8 {
        if self.one_in(2) {
            self.pick(&EDGES)
        } else {
            self.byte()
        }
    }

    pub fn edge_or_address(&mut self) -> u16 {
        u16::from_le_bytes([self.edge_or_byte(), self.edge_or_byte()])
    }

    pub fn fill(&mut self, bytes: &mut [u8]) {
        for chunk in bytes.chunks_mut(8) {
            chunk.copy_from_slice(&self.next().to_le_bytes()[..chunk.len()]);
        }
    }
}
