//! The state record of document 01: sixteen bytes, and which of them are malformed.

#[derive(Clone, Copy, PartialEq, Eq)]
pub enum Part {
    Mos6502,
    Mos6508,
    Mos6509,
}

/// P is N V 1 0 D I Z C from bit 7 down.
pub const N: u8 = 0x80;
pub const V: u8 = 0x40;
pub const BIT_5: u8 = 0x20;
pub const BIT_4: u8 = 0x10;
pub const D: u8 = 0x08;
pub const I: u8 = 0x04;
pub const Z: u8 = 0x02;
pub const C: u8 = 0x01;

#[derive(Clone, Copy)]
pub struct Record {
    pub part: Part,
    pub a: u8,
    pub x: u8,
    pub y: u8,
    pub s: u8,
    pub p: u8,
    pub pc: u16,
    pub registers: [u8; 2],
    pub nmi_level: u8,
    pub protected_pages: u8,
    pub cycles: u32,
}

/// The bytes of a 6502 without protected pages that has not counted a cycle yet.
pub fn of_6502([a, x, y, s, p]: [u8; 5], pc: u16) -> [u8; 16] {
    let [low, high] = pc.to_le_bytes();
    [2, a, x, y, s, p, low, high, 0, 0, 0, 0, 0, 0, 0, 0]
}

/// Where the program counter of a record's bytes is.
pub fn pc_of(record: &[u8]) -> u16 {
    u16::from_le_bytes([record[6], record[7]])
}

impl Record {
    /// Fails with the refusal's number, 1 or 2.
    pub fn read(bytes: &[u8]) -> Result<Record, u64> {
        if bytes.len() != 16 {
            return Err(1);
        }
        let part = match bytes[0] {
            0x02 => Part::Mos6502,
            0x08 => Part::Mos6508,
            0x09 => Part::Mos6509,
            _ => return Err(2),
        };
        let record = Record {
            part,
            a: bytes[1],
            x: bytes[2],
            y: bytes[3],
            s: bytes[4],
            p: bytes[5],
            pc: pc_of(bytes),
            registers: [bytes[8], bytes[9]],
            nmi_level: bytes[10],
            protected_pages: bytes[11],
            cycles: u32::from_le_bytes([bytes[12], bytes[13], bytes[14], bytes[15]]),
        };
        if record.is_well_formed() {
            Ok(record)
        } else {
            Err(2)
        }
    }

    fn is_well_formed(&self) -> bool {
        let (register_limit, level_limit, pages_limit) = match self.part {
            Part::Mos6502 => (0, 1, 255),
            Part::Mos6508 => (255, 0, 255),
            Part::Mos6509 => (15, 1, 0),
        };
        self.p & (BIT_5 | BIT_4) == BIT_5
            && self.registers.iter().all(|&r| r <= register_limit)
            && self.nmi_level <= level_limit
            && self.protected_pages <= pages_limit
    }

    /// The part and the protected pages are no step's to change.
    pub fn write(&self, bytes: &mut [u8]) {
        bytes[1..6].copy_from_slice(&[self.a, self.x, self.y, self.s, self.p]);
        bytes[6..8].copy_from_slice(&self.pc.to_le_bytes());
        bytes[8..10].copy_from_slice(&self.registers);
        bytes[10] = self.nmi_level;
        bytes[12..16].copy_from_slice(&self.cycles.to_le_bytes());
    }
}
