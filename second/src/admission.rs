//! Admission: whether an image keeps every rule of its map. As the document says it, with no thought of speed.

use crate::bus::BANK;
use crate::core::{IRQ_VECTOR, RES_VECTOR};
use crate::instructions::Mode::{Absolute, AbsoluteX, AbsoluteY, BankedY, IndirectX};
use crate::opcodes::decode;
use crate::opcodes::Instruction::{self, *};
use crate::record::I;

pub const RECORD: usize = 8;
pub const LONGEST_MAP: usize = 65_536;

#[derive(Clone, Copy, Debug, PartialEq, Eq)]
pub enum Kind {
    Main = 1,
    Routine = 2,
    Handler = 3,
}

/// A map record.
#[derive(Clone, Copy)]
pub struct Mark {
    pub address: u16,
    pub kind: Kind,
    pub height: u8,
    pub need: u8,
}

impl Mark {
    /// None where the record is malformed.
    fn read(record: &[u8]) -> Option<Mark> {
        let kind = match record[2] {
            1 => Kind::Main,
            2 => Kind::Routine,
            3 => Kind::Handler,
            _ => return None,
        };
        if record[5..] != [0, 0, 0] {
            return None;
        }
        Some(Mark {
            address: u16::from_le_bytes([record[0], record[1]]),
            kind,
            height: record[3],
            need: record[4],
        })
    }

    pub fn write(self) -> [u8; RECORD] {
        let [low, high] = self.address.to_le_bytes();
        let kind = self.kind as u8;
        [low, high, kind, self.height, self.need, 0, 0, 0]
    }
}

/// Answers the board's word: 0, or a number and, with 11 and 13 to 16, the record's index.
pub fn admit(image: &[u8], c: u8, map: &[u8]) -> u64 {
    if image.len() != BANK || !(1..=254).contains(&c) {
        return 10;
    }
    if map.is_empty() || map.len() > LONGEST_MAP || map.len() % RECORD != 0 {
        return 10;
    }
    let marks = match read_map(map) {
        Ok(marks) => marks,
        Err(index) => return word(11, index),
    };
    let judge = Judge { image, c, marks };
    if !judge.vectors_hold() {
        return 12;
    }
    for (index, &mark) in judge.marks.iter().enumerate() {
        if let Err(number) = judge.rules_hold(mark) {
            return word(number, index);
        }
    }
    0
}

fn word(number: u64, index: usize) -> u64 {
    number | (index as u64) << 16
}

/// Fails with the index of the first record that is malformed or not above the one before it.
fn read_map(map: &[u8]) -> Result<Vec<Mark>, usize> {
    let mut marks: Vec<Mark> = Vec::new();
    for (index, record) in map.chunks(RECORD).enumerate() {
        let mark = Mark::read(record).ok_or(index)?;
        match marks.last() {
            Some(before) if before.address >= mark.address => return Err(index),
            _ => marks.push(mark),
        }
    }
    Ok(marks)
}

struct Judge<'a> {
    image: &'a [u8],
    c: u8,
    marks: Vec<Mark>,
}

impl Judge<'_> {
    fn byte(&self, address: u16) -> u8 {
        self.image[usize::from(address)]
    }

    fn word(&self, address: u16) -> u16 {
        u16::from_le_bytes([self.byte(address), self.byte(address.wrapping_add(1))])
    }

    fn mark_at(&self, address: u16) -> Option<&Mark> {
        self.marks.iter().find(|mark| mark.address == address)
    }

    /// "FFFC points to main, FFFE to handler, both height 0; their needs + 3 make at most 256."
    fn vectors_hold(&self) -> bool {
        let entry = |vector, kind| {
            self.mark_at(self.word(vector))
                .filter(|mark| mark.kind == kind && mark.height == 0)
        };
        match (
            entry(RES_VECTOR, Kind::Main),
            entry(IRQ_VECTOR, Kind::Handler),
        ) {
            (Some(main), Some(handler)) => {
                u32::from(main.need) + u32::from(handler.need) + 3 <= 256
            }
            _ => false,
        }
    }

    /// Fails with the lowest number whose rule is broken at this record.
    fn rules_hold(&self, mark: Mark) -> Result<(), u64> {
        let instruction = decode(self.byte(mark.address)).ok_or(13_u64)?;
        if !self.is_protected(mark, instruction) || is_barred(instruction) {
            return Err(13);
        }
        if !self.store_holds(mark, instruction) {
            return Err(14);
        }
        if !mark_holds(mark, instruction) {
            return Err(15);
        }
        if !self.successors_hold(mark, instruction) {
            return Err(16);
        }
        Ok(())
    }

    /// "The whole instruction lies in protected pages." One that would wrap past FFFF does not.
    fn is_protected(&self, mark: Mark, instruction: Instruction) -> bool {
        let first = BANK - 256 * usize::from(self.c);
        let start = usize::from(mark.address);
        start >= first && start + usize::from(instruction.length()) <= BANK
    }

    /// "Stores, shifts, INC, DEC: absolute address not 0100 to 01FF; a,X or a,Y base not 0001 to 01FF."
    fn store_holds(&self, mark: Mark, instruction: Instruction) -> bool {
        let mode = match instruction {
            Store(_, mode) | Change(_, mode) => mode,
            _ => return true,
        };
        let operand = self.word(mark.address.wrapping_add(1));
        match mode {
            Absolute => !(0x0100..=0x01FF).contains(&operand),
            AbsoluteX | AbsoluteY => !(0x0001..=0x01FF).contains(&operand),
            _ => true,
        }
    }

    fn successors_hold(&self, mark: Mark, instruction: Instruction) -> bool {
        let next = mark.address.wrapping_add(instruction.length());
        let operand = mark.address.wrapping_add(1);
        match instruction {
            Rts | Rti => true,
            Jmp => self.leads(mark, instruction, self.word(operand)),
            Branch(..) => {
                let offset = self.byte(operand) as i8;
                self.leads(mark, instruction, next)
                    && self.leads(mark, instruction, next.wrapping_add(offset as u16))
            }
            Jsr => self.leads(mark, instruction, next) && self.calls(mark, self.word(operand)),
            _ => self.leads(mark, instruction, next),
        }
    }

    /// Whether a successor is marked with the same kind, and height and need as they must follow.
    fn leads(&self, from: Mark, instruction: Instruction, successor: u16) -> bool {
        let to = match self.mark_at(successor) {
            Some(to) if to.kind == from.kind => to,
            _ => return false,
        };
        // Whole numbers: a height of 256 is no record's.
        let (height, need) = (i32::from(from.height), i32::from(from.need));
        let (to_height, to_need) = (i32::from(to.height), i32::from(to.need));
        match instruction {
            Pha | Php => to_height == height + 1 && to_need + 1 <= need,
            Pla => to_height == height - 1 && to_need <= need + 1,
            _ => to_height == height && to_need <= need,
        }
    }

    /// "JSR's target is also a routine of height 0, its need + 2 at most this need."
    fn calls(&self, from: Mark, target: u16) -> bool {
        match self.mark_at(target) {
            Some(to) => {
                let room = u32::from(to.need) + 2 <= u32::from(from.need);
                to.kind == Kind::Routine && to.height == 0 && room
            }
            None => false,
        }
    }
}

/// "Not BRK, PLP, JMP (a), 81, 91." The last two are the stores through a pointer.
fn is_barred(instruction: Instruction) -> bool {
    match instruction {
        Brk | Plp | JmpIndirect => true,
        Store(_, mode) => matches!(mode, IndirectX | BankedY),
        _ => false,
    }
}

/// "TXS: main, height 0. CLI: main. RTS: routine, height 0. RTI: handler, height 0. PLA: height at least 1."
fn mark_holds(mark: Mark, instruction: Instruction) -> bool {
    match instruction {
        Txs => mark.kind == Kind::Main && mark.height == 0,
        Flag(I, false) => mark.kind == Kind::Main,
        Rts => mark.kind == Kind::Routine && mark.height == 0,
        Rti => mark.kind == Kind::Handler && mark.height == 0,
        Pla => mark.height >= 1,
        _ => true,
    }
}
