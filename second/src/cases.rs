//! Random steps: chains of well-formed states with a chosen instruction at PC, and damaged inputs.

mod faults;
mod records;

pub use faults::{spoil_inputs, wrong_image_length, Fault, IMAGE_FAULTS, INPUT_FAULTS};
pub use records::{fresh_record, malform, RECORD_FAULTS};

use crate::bus::BANK;
use crate::core::step;
use crate::random::Random;
use crate::record::{pc_of, D};

/// Bytes after each lent slice, which nobody may touch.
pub const GUARD: usize = 64;
/// A lent slice may begin at any address.
pub const MOST_SHIFT: usize = 7;
pub const LONGEST_RECORD: usize = 40;
pub const LONGEST_ROOM: usize = 65_536;
pub const LEAST_ROOM: usize = 56;

/// One image twice: the second program's and the tested core's.
pub struct Pair {
    banks: usize,
    pub mine: Vec<u8>,
    pub theirs: Vec<u8>,
}

impl Pair {
    fn new(banks: usize, random: &mut Random) -> Pair {
        let mut mine = vec![0; banks * BANK + GUARD];
        random.fill(&mut mine);
        let theirs = mine.clone();
        Pair {
            banks,
            mine,
            theirs,
        }
    }

    fn poke(&mut self, cell: usize, value: u8) {
        self.mine[cell] = value;
        self.theirs[cell] = value;
    }
}

pub struct Case {
    pub pair: usize,
    pub image_len: usize,
    pub record: [u8; LONGEST_RECORD],
    pub record_len: usize,
    pub lines: u8,
    pub pins: u8,
    pub room: usize,
    pub at_pc: [u8; 3],
    pub is_fresh: bool,
    /// Bit n where refusal n would apply if no lower one did.
    pub faults: u8,
    pub only_fault: Option<Fault>,
}

pub struct Cases {
    pub random: Random,
    pub pool: Vec<Pair>,
    is_defined: [bool; 256],
    defined: Vec<u8>,
    undefined: Vec<u8>,
    record: [u8; 16],
    pair: usize,
    banks: usize,
    chain_left: usize,
}

/// The pair of 17 lends 16 banks, or all as a fault; that of 32 is for a fault alone.
const POOL: [usize; 8] = [1, 1, 1, 2, 4, 8, 17, 32];

impl Cases {
    pub fn new(seed: u64) -> Cases {
        let mut random = Random::new(seed);
        let pool = POOL
            .iter()
            .map(|&banks| Pair::new(banks, &mut random))
            .collect();
        let is_defined = defined_opcodes();
        let (defined, undefined) = (0..=255).partition(|&opcode| is_defined[usize::from(opcode)]);
        Cases {
            random,
            pool,
            is_defined,
            defined,
            undefined,
            record: [0; 16],
            pair: 0,
            banks: 1,
            chain_left: 0,
        }
    }

    pub fn next(&mut self) -> Case {
        let is_fresh = self.chain_left == 0;
        if is_fresh {
            self.begin_chain();
        } else if self.random.one_in(3) {
            self.stir();
        }
        self.chain_left -= 1;
        self.plant();

        let mut record = [0; LONGEST_RECORD];
        self.random.fill(&mut record[16..]);
        record[..16].copy_from_slice(&self.record);
        let part = self.record[0];
        let mut case = Case {
            pair: self.pair,
            image_len: self.banks * BANK,
            record,
            record_len: 16,
            lines: match self.random.below(8) {
                0 => self.random.byte() & if part == 8 { 0x05 } else { 0x07 },
                _ => 0,
            },
            pins: if part == 8 { self.random.byte() } else { 0 },
            room: self.room(),
            at_pc: [0; 3],
            is_fresh,
            faults: 0,
            only_fault: None,
        };
        if self.random.one_in(16) {
            self.damage(&mut case);
        }
        case.at_pc = [0, 1, 2].map(|i| self.peek(self.pc().wrapping_add(i)));
        case
    }

    /// A chain goes on from the state that a done step leaves; a refusal changes nothing.
    pub fn settle(&mut self, number: u64, record: &[u8]) {
        match number {
            0 => self.record.copy_from_slice(record),
            6 => self.chain_left = 0,
            _ => {}
        }
    }

    fn begin_chain(&mut self) {
        self.chain_left = match self.random.below(10) {
            0..=6 => 1,
            7..=8 => self.random.between(2, 8),
            _ => self.random.between(8, 60),
        };
        let part = self.random.pick(&[2, 8, 9]);
        // Every byte of an image is compared after every step, so large ones are the smaller share.
        self.pair = match (part, self.random.below(100)) {
            (9, 0..=15) => 3,
            (9, 16..=23) => 4,
            (9, 24..=25) => 5,
            (9, 26..=27) => 6,
            _ => self.random.below(3),
        };
        self.banks = self.pool[self.pair].banks.min(16);
        self.record = fresh_record(&mut self.random, part);
        if self.random.one_in(8) {
            let vector = self.random.between(0xFFFA, 0xFFFF);
            let value = self.random.edge_or_byte();
            self.poke(vector as u16, value);
        }
    }

    /// One field takes a fresh value.
    fn stir(&mut self) {
        let fresh = fresh_record(&mut self.random, self.record[0]);
        let field = match self.random.below(9) {
            0 => 6..8,
            1 => 8..10,
            2 => 10..11,
            3 => 11..12,
            n => n - 3..n - 2,
        };
        self.record[field.clone()].copy_from_slice(&fresh[field]);
    }

    fn plant(&mut self) {
        let found = self.peek(self.pc());
        let opcode = match self.random.below(16) {
            0 => self.random.pick(&self.undefined),
            1 => self.random.pick(&[0x20, 0x6C, 0x91, 0xB1]),
            2..=10 => self.random.pick(&self.defined),
            _ if self.is_defined[usize::from(found)] || self.random.one_in(8) => return,
            _ => self.random.pick(&self.defined),
        };
        if opcode == 0x20 && self.random.one_in(3) {
            self.aim_pushes_at_the_high_operand();
        }
        // ADC and SBC.
        if opcode & 0x63 == 0x61 && self.random.one_in(2) {
            self.record[5] |= D;
        }
        let low = match opcode {
            0x6C if self.random.one_in(4) => 0xFF,
            _ => self.random.edge_or_byte(),
        };
        let high = match self.random.below(8) {
            0 => self.first_protected_page(),
            1 => self.first_protected_page().wrapping_sub(1),
            _ => self.random.edge_or_byte(),
        };
        let pc = self.pc();
        self.poke(pc, opcode);
        self.poke(pc.wrapping_add(1), low);
        self.poke(pc.wrapping_add(2), high);
        match opcode & 0x1F {
            0x01 => self.aim_pointer(low.wrapping_add(self.record[2]), 0),
            0x11 => self.aim_pointer(low, self.record[3]),
            _ => {}
        }
    }

    /// Half the time, the pointer of (z,X) or (z),Y leads to an edge or a register.
    fn aim_pointer(&mut self, z: u8, index: u8) {
        let target = match self.random.below(8) {
            0 => u16::from(self.random.byte() & 1),
            1..=3 => self.random.edge_or_address(),
            _ => return,
        };
        let [low, high] = target.wrapping_sub(u16::from(index)).to_le_bytes();
        self.poke(u16::from(z), low);
        self.poke(u16::from(z.wrapping_add(1)), high);
    }

    fn first_protected_page(&self) -> u8 {
        0_u8.wrapping_sub(self.record[11])
    }

    fn aim_pushes_at_the_high_operand(&mut self) {
        let page = match self.record[0] {
            8 if self.random.one_in(2) => 0x0000,
            _ => 0x0100,
        };
        let low = self.random.edge_or_byte();
        let pc = (page | u16::from(low)).wrapping_sub(2);
        self.record[6..8].copy_from_slice(&pc.to_le_bytes());
        self.record[4] = low.wrapping_add(self.random.byte() & 1);
    }

    fn room(&mut self) -> usize {
        match self.random.below(1000) {
            0 => LONGEST_ROOM,
            1..=99 => self.random.between(65, 1000),
            100..=399 => LEAST_ROOM,
            _ => self.random.between(LEAST_ROOM, 64),
        }
    }

    fn pc(&self) -> u16 {
        pc_of(&self.record)
    }

    /// None for a register.
    fn cell(&self, address: u16) -> Option<usize> {
        match (self.record[0], address) {
            (8 | 9, 0x0000 | 0x0001) => None,
            (8, 0x0100..=0x01FF) => Some(usize::from(address & 0x00FF)),
            (9, _) => Some(usize::from(self.record[8]) % self.banks * BANK + usize::from(address)),
            _ => Some(usize::from(address)),
        }
    }

    /// A register as the record holds it, whatever the pins are.
    fn peek(&self, address: u16) -> u8 {
        match self.cell(address) {
            Some(cell) => self.pool[self.pair].mine[cell],
            None => self.record[8 + usize::from(address)],
        }
    }

    fn poke(&mut self, address: u16, value: u8) {
        match (self.cell(address), self.record[0]) {
            (Some(cell), _) => self.pool[self.pair].poke(cell, value),
            (None, 8) => self.record[8 + usize::from(address)] = value,
            (None, _) => self.record[8 + usize::from(address)] = value & 0x0F,
        }
    }
}

/// As the second program has it; the comparison shows whether the core agrees.
pub fn defined_opcodes() -> [bool; 256] {
    let mut image = vec![0; BANK];
    let mut is_defined = [false; 256];
    for opcode in 0..=255 {
        image[0x8000] = opcode;
        let mut record = [2, 0, 0, 0, 0, 0x20, 0x00, 0x80, 0, 0, 0, 0, 0, 0, 0, 0];
        let word = step(&mut record, &mut image, 0, 0, &mut [0; LEAST_ROOM]);
        is_defined[usize::from(opcode)] = word & 0xFF == 0;
    }
    is_defined
}
