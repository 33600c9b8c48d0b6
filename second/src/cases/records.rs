//! Records drawn at random: well formed, and malformed in one byte.

use crate::random::Random;

pub const RECORD_FAULTS: [&str; 11] = [
    "part",
    "P bit 4 set",
    "P bit 5 clear",
    "6502 byte 8",
    "6502 byte 9",
    "6509 byte 8",
    "6509 byte 9",
    "6502 byte 10",
    "6508 byte 10",
    "6509 byte 10",
    "6509 byte 11",
];

pub fn fresh_record(random: &mut Random, part: u8) -> [u8; 16] {
    let pc = match random.below(8) {
        0 => random.between(0xFFFD, 0xFFFF) as u16,
        1 => u16::from(random.edge_or_byte()),
        2 => 0x0100 | u16::from(random.edge_or_byte()),
        _ => random.edge_or_address(),
    };
    let registers_mask = match part {
        2 => 0,
        8 => 0xFF,
        _ => 0x0F,
    };
    let cycles = match random.below(4) {
        0 => u32::MAX - random.below(8) as u32,
        1 => (1 << (8 * random.between(1, 3))) - 1 - random.below(8) as u32,
        _ => random.next() as u32,
    };
    let mut record = [0; 16];
    record[0] = part;
    record[1..5].fill_with(|| random.edge_or_byte());
    record[5] = random.byte() & 0xCF | 0x20;
    record[6..8].copy_from_slice(&pc.to_le_bytes());
    record[8..10].fill_with(|| random.edge_or_byte() & registers_mask);
    record[10] = if part == 8 { 0 } else { random.byte() & 1 };
    record[11] = match part {
        9 => 0,
        _ => random.edge_or_byte(),
    };
    record[12..16].copy_from_slice(&cycles.to_le_bytes());
    record
}

/// Of a record of this part, one byte; answers which of the names it is.
pub fn malform(random: &mut Random, part: u8, record: &mut [u8]) -> usize {
    let own: &[usize] = match part {
        2 => &[3, 4, 7],
        8 => &[8],
        _ => &[5, 6, 9, 10],
    };
    let fault = match random.below(6) {
        n @ 0..=2 => n,
        _ => random.pick(own),
    };
    let over = |random: &mut Random, limit: usize| random.between(limit + 1, 255) as u8;
    match fault {
        0 => {
            while matches!(record[0], 2 | 8 | 9) {
                record[0] = random.edge_or_byte() & random.pick(&[0x0F, 0xFF]);
            }
        }
        1 => record[5] |= 0x10,
        2 => record[5] &= !0x20,
        3 => record[8] = over(random, 0),
        4 => record[9] = over(random, 0),
        5 => record[8] = over(random, 15),
        6 => record[9] = over(random, 15),
        8 if random.one_in(2) => record[10] = 1,
        8 => record[10] = over(random, 0),
        7 | 9 => record[10] = over(random, 1),
        _ => record[11] = over(random, 0),
    }
    fault
}
