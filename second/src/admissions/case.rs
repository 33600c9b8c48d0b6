//! How each damage is done to what is lent.

use crate::admission::{Kind, Mark, LONGEST_MAP, RECORD};
use crate::bus::BANK;
use crate::core::{IRQ_VECTOR, RES_VECTOR};
use crate::firmware::Firmware;
use crate::instructions::Mode::{Absolute, AbsoluteX, AbsoluteY};
use crate::opcodes::decode;
use crate::opcodes::Instruction::{self, *};
use crate::random::Random;
use Aim::*;

/// What is lent, and what it was made from.
pub struct Case {
    pub firmware: Firmware,
    pub image_len: usize,
    pub map: Vec<u8>,
}

/// Which record an answer names where the damage stands alone.
#[derive(Clone, Copy)]
pub enum Aim {
    /// None: the number has no index, or nothing is refused.
    Whole,
    Record(usize),
    Unknown,
}

/// The opcodes that 14 is about, by whether they are indexed.
pub fn is_store(opcode: u8, is_indexed: bool) -> bool {
    match decode(opcode) {
        Some(Store(_, mode) | Change(_, mode)) => match mode {
            Absolute => !is_indexed,
            AbsoluteX | AbsoluteY => is_indexed,
            _ => false,
        },
        _ => false,
    }
}

impl Case {
    fn marks(&self) -> &[Mark] {
        &self.firmware.marks
    }

    fn opcode(&self, index: usize) -> u8 {
        self.firmware.image[usize::from(self.marks()[index].address)]
    }

    fn instruction(&self, index: usize) -> Option<Instruction<'static>> {
        decode(self.opcode(index))
    }

    /// One of the records that are so.
    fn find(&self, random: &mut Random, is_so: impl Fn(usize) -> bool) -> Option<usize> {
        let count = self.marks().len();
        let start = random.below(count);
        let mut indexes = (start..count).chain(0..start);
        indexes.find(|&index| is_so(index))
    }

    fn record(&mut self, index: usize) -> Option<&mut [u8]> {
        self.map.chunks_exact_mut(RECORD).nth(index)
    }

    /// The vectors are left as they are.
    fn put(&mut self, index: usize, bytes: &[u8]) -> Option<Aim> {
        let address = self.marks()[index].address;
        if usize::from(address) + bytes.len() > usize::from(RES_VECTOR) {
            return None;
        }
        self.firmware.put(address, bytes);
        Some(Record(index))
    }

    pub fn cut_image(&mut self, length: usize) -> Option<Aim> {
        self.image_len = length;
        Some(Whole)
    }

    pub fn set_c(&mut self, c: u8) -> Option<Aim> {
        self.firmware.c = c;
        Some(Whole)
    }

    pub fn cut_map(&mut self, length: usize) -> Option<Aim> {
        self.map.resize(length, 0);
        Some(Whole)
    }

    /// Every record of it is well formed.
    pub fn long_map(&mut self, more: usize) -> Option<Aim> {
        self.map.clear();
        for address in 0..=(LONGEST_MAP / RECORD) as u16 {
            let [low, high] = address.to_le_bytes();
            self.map.extend([low, high, 1, 0, 0, 0, 0, 0]);
        }
        self.cut_map(LONGEST_MAP + more)
    }

    pub fn set_byte(&mut self, random: &mut Random, at: usize, value: u8) -> Option<Aim> {
        let index = random.below(self.marks().len());
        self.record(index)?[at] = value;
        Some(Record(index))
    }

    pub fn set_zero(&mut self, random: &mut Random, at: usize) -> Option<Aim> {
        let value = random.between(1, 255) as u8;
        self.set_byte(random, at, value)
    }

    pub fn lower(&mut self, random: &mut Random, below: u16) -> Option<Aim> {
        let index = random.between(1, self.marks().len() - 1);
        let address = self.marks()[index - 1].address - below;
        let bytes = address.to_le_bytes();
        self.record(index)?[..2].copy_from_slice(&bytes);
        Some(Record(index))
    }

    pub fn aim(
        &mut self,
        random: &mut Random,
        vector: u16,
        is_so: fn(&Mark) -> bool,
    ) -> Option<Aim> {
        let index = self.find(random, |index| is_so(&self.marks()[index]))?;
        let address = self.marks()[index].address;
        self.firmware.put(vector, &address.to_le_bytes());
        Some(Whole)
    }

    /// Most often a byte away from where it led.
    pub fn aim_nowhere(&mut self, random: &mut Random, vector: u16) -> Option<Aim> {
        let address = match random.below(4) {
            0 => random.next() as u16,
            1 => self.firmware.word(vector).wrapping_sub(1),
            _ => self.firmware.word(vector).wrapping_add(1),
        };
        if self.marks().iter().any(|mark| mark.address == address) {
            return None;
        }
        self.firmware.put(vector, &address.to_le_bytes());
        Some(Whole)
    }

    /// Main's need becomes so large that with the handler's it makes so many.
    pub fn fill_room(&mut self, needs: usize) -> Option<Aim> {
        let entry = self.firmware.word(IRQ_VECTOR);
        let handler = self.marks().iter().find(|mark| mark.address == entry)?;
        let need = needs.checked_sub(usize::from(handler.need))?;
        let need = u8::try_from(need).ok()?;
        // All that leads to main's first instruction must have it too.
        let marks = &self.firmware.marks;
        for (mark, record) in marks.iter().zip(self.map.chunks_exact_mut(RECORD)) {
            if mark.kind == Kind::Main {
                record[4] = mark.need.max(need.saturating_sub(mark.height));
            }
        }
        Some(Whole)
    }

    /// A record in the vectors, whose instruction is so long and has so many bytes left to FFFF.
    pub fn add_top(&mut self, random: &mut Random, is_so: fn(usize, usize) -> bool) -> Option<Aim> {
        let address = random.between(0xFFFC, 0xFFFF);
        if usize::from(self.marks().last()?.address) >= address {
            return None;
        }
        let instruction = decode(self.firmware.image[address])?;
        if !is_so(usize::from(instruction.length()), BANK - address) {
            return None;
        }
        let [low, high] = (address as u16).to_le_bytes();
        self.map.extend([low, high, 1, 0, 255, 0, 0, 0]);
        Some(Unknown)
    }

    pub fn replace(&mut self, random: &mut Random, opcode: u8) -> Option<Aim> {
        let index = random.below(self.marks().len());
        self.put(index, &[opcode])
    }

    /// A store, shift, INC or DEC in place of any instruction.
    pub fn store(&mut self, random: &mut Random, is_indexed: bool, address: u16) -> Option<Aim> {
        let mut opcode = random.byte();
        while !is_store(opcode, is_indexed) {
            opcode = random.byte();
        }
        let [low, high] = address.to_le_bytes();
        let index = random.below(self.marks().len());
        self.put(index, &[opcode, low, high])
    }

    /// Another address for one that is there.
    pub fn move_store(
        &mut self,
        random: &mut Random,
        is_indexed: bool,
        address: u16,
    ) -> Option<Aim> {
        let index = self.find(random, |index| is_store(self.opcode(index), is_indexed))?;
        let [low, high] = address.to_le_bytes();
        self.put(index, &[self.opcode(index), low, high])?;
        Some(Whole)
    }

    pub fn put_at(
        &mut self,
        random: &mut Random,
        opcode: u8,
        is_so: fn(&Mark) -> bool,
    ) -> Option<Aim> {
        let index = self.find(random, |index| is_so(&self.marks()[index]))?;
        self.put(index, &[opcode])
    }

    pub fn drop_record(&mut self, random: &mut Random) -> Option<Aim> {
        if self.map.len() < RECORD {
            return None;
        }
        let index = random.below(self.map.len() / RECORD);
        self.map.drain(index * RECORD..(index + 1) * RECORD);
        Some(Unknown)
    }

    /// Less need than what follows asks for, by so much.
    pub fn short_need(
        &mut self,
        random: &mut Random,
        is_so: fn(Instruction) -> bool,
        less: u8,
    ) -> Option<Aim> {
        let next = |index: usize| {
            let mark = self.marks()[index];
            let instruction = self.instruction(index).filter(|&it| is_so(it))?;
            let address = mark.address.wrapping_add(instruction.length());
            let next = self.marks().iter().find(|mark| mark.address == address)?;
            next.need.checked_sub(less)
        };
        let index = self.find(random, |index| next(index).is_some())?;
        let need = next(index)?;
        self.record(index)?[4] = need;
        Some(Record(index))
    }

    pub fn add_to_byte(&mut self, random: &mut Random, at: usize, more: u8) -> Option<Aim> {
        let index = random.below(self.marks().len());
        let record = self.record(index)?;
        record[at] = record[at].wrapping_add(more);
        Some(Unknown)
    }

    pub fn other_kind(&mut self, random: &mut Random) -> Option<Aim> {
        let index = random.below(self.marks().len());
        let more = random.between(1, 2) as u8;
        let record = self.record(index)?;
        record[2] = (record[2].wrapping_sub(1) % 3 + more) % 3 + 1;
        Some(Unknown)
    }

    /// The target becomes a little another, or any.
    pub fn bend(&mut self, random: &mut Random, is_so: fn(Instruction) -> bool) -> Option<Aim> {
        let so = |index| self.instruction(index).map_or(false, is_so);
        let index = self.find(random, so)?;
        let operand = usize::from(self.marks()[index].address) + 1;
        let more = match random.below(4) {
            0 => random.byte(),
            n => [1, 255, 3][n - 1],
        };
        let low = &mut self.firmware.image[operand];
        *low = low.wrapping_add(more);
        Some(Unknown)
    }

    /// A call of a record that is no routine's first.
    pub fn call(&mut self, random: &mut Random, is_so: fn(&Mark) -> bool) -> Option<Aim> {
        let from = self.find(random, |index| matches!(self.instruction(index), Some(Jsr)))?;
        let to = self.find(random, |index| is_so(&self.marks()[index]))?;
        let [low, high] = self.marks()[to].address.to_le_bytes();
        self.put(from, &[self.opcode(from), low, high])
    }
}

pub fn swap(random: &mut Random, case: &mut Case) -> Option<Aim> {
    let index = random.between(1, case.marks().len() - 1);
    let at = index * RECORD;
    let both = case.map.get_mut(at - RECORD..at + RECORD)?;
    both.rotate_left(RECORD);
    Some(Record(index))
}

pub fn double(random: &mut Random, case: &mut Case) -> Option<Aim> {
    let index = random.below(case.marks().len());
    let record = case.record(index)?.to_vec();
    let at = (index + 1) * RECORD;
    case.map.splice(at..at, record);
    match case.map.len() {
        0..=LONGEST_MAP => Some(Record(index + 1)),
        _ => Some(Unknown),
    }
}

pub fn smaller_c(_: &mut Random, case: &mut Case) -> Option<Aim> {
    let page = case.marks()[0].address >> 8;
    case.firmware.c = 255_u8.checked_sub(page as u8).filter(|&c| c > 0)?;
    Some(Record(0))
}

pub fn begin_low(random: &mut Random, case: &mut Case) -> Option<Aim> {
    let address = case.firmware.first_protected() - 1;
    // Two bytes or three, of which all but the first may be protected.
    let opcode = random.pick(&[0xA9, 0xAD]);
    case.firmware.put(address as u16, &[opcode]);
    let [low, high] = (address as u16).to_le_bytes();
    case.map.splice(0..0, [low, high, 1, 0, 255, 0, 0, 0]);
    match case.map.len() {
        0..=LONGEST_MAP => Some(Record(0)),
        _ => Some(Unknown),
    }
}

pub fn short_call(random: &mut Random, case: &mut Case) -> Option<Aim> {
    let index = case.find(random, |index| matches!(case.instruction(index), Some(Jsr)))?;
    let target = case.firmware.word(case.marks()[index].address + 1);
    let routine = case.marks().iter().find(|mark| mark.address == target)?;
    let need = routine.need.checked_add(1)?;
    case.record(index)?[4] = need;
    Some(Record(index))
}

/// A byte that is of no instruction and no vector.
pub fn byte_elsewhere(random: &mut Random, case: &mut Case) -> Option<Aim> {
    let at = random.next() as u16;
    let is_within = |mark: &Mark| (mark.address..mark.address.saturating_add(3)).contains(&at);
    if at >= RES_VECTOR || case.marks().iter().any(is_within) {
        return None;
    }
    case.firmware.put(at, &[random.byte()]);
    Some(Whole)
}

pub fn any_map_byte(random: &mut Random, case: &mut Case) -> Option<Aim> {
    let at = random.below(case.map.len());
    case.map[at] = random.edge_or_byte();
    Some(Unknown)
}

pub fn any_code_byte(random: &mut Random, case: &mut Case) -> Option<Aim> {
    let index = random.below(case.marks().len());
    let at = usize::from(case.marks()[index].address) + random.below(3);
    *case.firmware.image.get_mut(at)? = random.edge_or_byte();
    Some(Unknown)
}
