//! Memory and parts: what an address reaches, and the list of accesses.

use crate::record::{Part, Record};
use Purpose::*;

pub const BANK: usize = 65_536;

/// No step takes more than seven cycles, and an access is 8 bytes.
pub const MOST_ACCESSES: usize = 7;
pub const ACCESS: usize = 8;

/// What an access was for, by document 02's numbers. "The write-back of an old value is 3, and so is each read whose
/// value the step doesn't use, but a branch's offset is 2 and a reset's three stack reads are 6."
#[derive(Clone, Copy, PartialEq, Eq)]
pub enum Purpose {
    Opcode = 1,
    Operand = 2,
    Wasted = 3,
    Pointer = 4,
    Data = 5,
    Stack = 6,
    Vector = 7,
}

const PURPOSES: [Purpose; 7] = [Opcode, Operand, Wasted, Pointer, Data, Stack, Vector];

/// That of a listed access; none where the number is no purpose's.
pub fn purpose_of(access: &[u8]) -> Option<Purpose> {
    PURPOSES.into_iter().find(|&one| one as u8 == access[5])
}

/// An access as it is listed; `written` is 0 for a read, 1 for a write, and `purpose` is a purpose's number, or 0 as in
/// lists from before purposes were listed.
pub fn access(bank: u8, address: u16, value: u8, written: u8, purpose: u8) -> [u8; ACCESS] {
    let [low, high] = address.to_le_bytes();
    [low, high, bank, value, written, purpose, 0, 0]
}

pub struct Bus<'a> {
    part: Part,
    pub registers: [u8; 2],
    protected_pages: u8,
    pins: u8,
    image: &'a mut [u8],
    /// Set by B1 and 91 after the pointer, for the accesses that are left.
    pub indirect: bool,
    list: [u8; MOST_ACCESSES * ACCESS],
    listed: usize,
}

impl<'a> Bus<'a> {
    pub fn new(record: &Record, pins: u8, image: &'a mut [u8]) -> Bus<'a> {
        Bus {
            part: record.part,
            registers: record.registers,
            protected_pages: record.protected_pages,
            pins,
            image,
            indirect: false,
            list: [0; MOST_ACCESSES * ACCESS],
            listed: 0,
        }
    }

    pub fn read(&mut self, purpose: Purpose, address: u16) -> u8 {
        let value = match (self.part, address) {
            (Part::Mos6508, 0x0000) => self.registers[0],
            (Part::Mos6508, 0x0001) => self.port(),
            (Part::Mos6509, 0x0000) => self.registers[0],
            (Part::Mos6509, 0x0001) => self.registers[1],
            _ => self.image[self.cell(address)],
        };
        self.note(purpose, address, value, 0);
        value
    }

    pub fn write(&mut self, purpose: Purpose, address: u16, value: u8) {
        // A bank change holds from the next access: this one is listed with the bank before it.
        self.note(purpose, address, value, 1);
        if self.is_protected(address) {
            return;
        }
        match (self.part, address) {
            (Part::Mos6508, 0x0000 | 0x0001) => self.registers[usize::from(address)] = value,
            (Part::Mos6509, 0x0000 | 0x0001) => self.registers[usize::from(address)] = value & 0x0F,
            _ => self.image[self.cell(address)] = value,
        }
    }

    /// The output bit where direction is 1, the pin where it is 0.
    fn port(&self) -> u8 {
        let [direction, output] = self.registers;
        output & direction | self.pins & !direction
    }

    fn bank(&self) -> u8 {
        match (self.part, self.indirect) {
            (Part::Mos6509, false) => self.registers[0],
            (Part::Mos6509, true) => self.registers[1],
            _ => 0,
        }
    }

    fn cell(&self, address: u16) -> usize {
        let banks = self.image.len() / BANK;
        match (self.part, address) {
            (Part::Mos6508, 0x0100..=0x01FF) => usize::from(address - 0x0100),
            _ => usize::from(self.bank()) % banks * BANK + usize::from(address),
        }
    }

    /// Judged by the address on the bus, so that a 6508's stack can be protected while page 0 is not.
    fn is_protected(&self, address: u16) -> bool {
        usize::from(address >> 8) >= 256 - usize::from(self.protected_pages)
    }

    fn note(&mut self, purpose: Purpose, address: u16, value: u8, written: u8) {
        let access = access(self.bank(), address, value, written, purpose as u8);
        let start = self.listed * ACCESS;
        self.list[start..start + ACCESS].copy_from_slice(&access);
        self.listed += 1;
    }

    pub fn accesses(&self) -> &[u8] {
        &self.list[..self.listed * ACCESS]
    }
}
