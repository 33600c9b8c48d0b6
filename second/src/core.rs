//! One step: the refusals in their order, the interrupts, and what instructions are made of.

use crate::bus::Purpose::{self, Opcode, Operand, Stack, Vector, Wasted};
use crate::bus::{Bus, ACCESS, BANK, MOST_ACCESSES};
use crate::opcodes::decode;
use crate::record::{Part, Record, C, D, I, N, V, Z};

pub const RES: u8 = 1;
pub const NMI: u8 = 2;
pub const IRQ: u8 = 4;

const NMI_VECTOR: u16 = 0xFFFA;
pub const RES_VECTOR: u16 = 0xFFFC;
pub const IRQ_VECTOR: u16 = 0xFFFE;

/// Answers the board's word. A refused step has changed no byte.
pub fn step(record: &mut [u8], image: &mut [u8], lines: u8, pins: u8, accesses: &mut [u8]) -> u64 {
    let before = match Record::read(record) {
        Ok(before) => before,
        Err(number) => return number,
    };
    if !image_fits(before.part, image.len()) {
        return 3;
    }
    if !inputs_fit(before.part, lines, pins) {
        return 4;
    }
    if accesses.len() < MOST_ACCESSES * ACCESS {
        return 5;
    }

    let mut core = Core::new(&before, pins, image);
    if lines & RES != 0 {
        core.reset(before.part);
    } else if lines & NMI != 0 && before.nmi_level == 0 {
        core.interrupt(NMI_VECTOR);
    } else if lines & IRQ != 0 && before.p & I == 0 {
        core.interrupt(IRQ_VECTOR);
    } else {
        // Only the fetch has happened where the opcode is undefined, and it is listed in the bus alone.
        let opcode = core.fetch(Opcode);
        match decode(opcode) {
            Some(instruction) => core.execute(instruction),
            None => return 6 | u64::from(opcode) << 8 | u64::from(before.pc) << 16,
        }
    }

    let list = core.bus.accesses();
    accesses[..list.len()].copy_from_slice(list);
    let count = list.len() / ACCESS;
    let after = Record {
        a: core.a,
        x: core.x,
        y: core.y,
        s: core.s,
        p: core.p,
        pc: core.pc,
        registers: core.bus.registers,
        // Every step stores the NMI level.
        nmi_level: u8::from(lines & NMI != 0),
        cycles: before.cycles.wrapping_add(count as u32),
        ..before
    };
    after.write(record);
    (count as u64) << 8
}

pub fn image_fits(part: Part, length: usize) -> bool {
    match part {
        Part::Mos6502 | Part::Mos6508 => length == BANK,
        Part::Mos6509 => [1, 2, 4, 8, 16].iter().any(|k| length == k * BANK),
    }
}

pub fn inputs_fit(part: Part, lines: u8, pins: u8) -> bool {
    lines <= (RES | NMI | IRQ)
        && match part {
            Part::Mos6508 => lines & NMI == 0,
            Part::Mos6502 | Part::Mos6509 => pins == 0,
        }
}

pub struct Core<'a> {
    pub a: u8,
    pub x: u8,
    pub y: u8,
    pub s: u8,
    pub p: u8,
    pub pc: u16,
    pub bus: Bus<'a>,
}

impl<'a> Core<'a> {
    fn new(record: &Record, pins: u8, image: &'a mut [u8]) -> Core<'a> {
        Core {
            a: record.a,
            x: record.x,
            y: record.y,
            s: record.s,
            p: record.p,
            pc: record.pc,
            bus: Bus::new(record, pins, image),
        }
    }

    fn interrupt(&mut self, vector: u16) {
        self.read(Wasted, self.pc);
        self.read(Wasted, self.pc);
        self.push_pc();
        // Bit 4 of P is clear in every record.
        self.push(self.p);
        self.enter(vector);
    }

    fn reset(&mut self, part: Part) {
        match part {
            Part::Mos6502 => {}
            Part::Mos6508 => self.bus.registers = [0, 0],
            Part::Mos6509 => self.bus.registers = [15, 15],
        }
        self.read(Wasted, self.pc);
        self.read(Wasted, self.pc);
        for _ in 0..3 {
            self.read_stack(Stack);
            self.s = self.s.wrapping_sub(1);
        }
        self.enter(RES_VECTOR);
    }

    /// The end of BRK and of every interrupt: the vector is read, I is set, D is kept.
    pub fn enter(&mut self, vector: u16) {
        let low = self.read(Vector, vector);
        let high = self.read(Vector, vector + 1);
        self.pc = u16::from_le_bytes([low, high]);
        self.p |= I;
    }

    pub fn read(&mut self, purpose: Purpose, address: u16) -> u8 {
        self.bus.read(purpose, address)
    }

    pub fn write(&mut self, purpose: Purpose, address: u16, value: u8) {
        self.bus.write(purpose, address, value);
    }

    /// From the opcode's fetch on, `pc` is what document 01 calls PC+1, then PC+2.
    pub fn fetch(&mut self, purpose: Purpose) -> u8 {
        let value = self.read(purpose, self.pc);
        self.pc = self.pc.wrapping_add(1);
        value
    }

    /// Two operands.
    pub fn fetch_word(&mut self) -> u16 {
        let low = self.fetch(Operand);
        let high = self.fetch(Operand);
        u16::from_le_bytes([low, high])
    }

    pub fn read_stack(&mut self, purpose: Purpose) -> u8 {
        self.read(purpose, 0x0100 | u16::from(self.s))
    }

    pub fn push(&mut self, value: u8) {
        self.write(Stack, 0x0100 | u16::from(self.s), value);
        self.s = self.s.wrapping_sub(1);
    }

    pub fn push_pc(&mut self) {
        let [low, high] = self.pc.to_le_bytes();
        self.push(high);
        self.push(low);
    }

    pub fn pull(&mut self) -> u8 {
        self.s = self.s.wrapping_add(1);
        self.read_stack(Stack)
    }

    pub fn pull_word(&mut self) -> u16 {
        let low = self.pull();
        let high = self.pull();
        u16::from_le_bytes([low, high])
    }

    pub fn has(&self, flag: u8) -> bool {
        self.p & flag != 0
    }

    pub fn set(&mut self, flag: u8, on: bool) {
        if on {
            self.p |= flag;
        } else {
            self.p &= !flag;
        }
    }

    pub fn set_nz(&mut self, value: u8) {
        self.set(N, value >= 0x80);
        self.set(Z, value == 0);
    }

    pub fn add(&mut self, m: u8) {
        let (a, m, c) = (i32::from(self.a), i32::from(m), i32::from(self.has(C)));
        let binary = a + m + c;
        self.set(Z, binary % 256 == 0);
        if self.has(D) {
            let mut l = a % 16 + m % 16 + c;
            if l >= 10 {
                l = (l + 6) % 16 + 16;
            }
            let (a_high, m_high) = (a / 16 * 16, m / 16 * 16);
            let mut t = a_high + m_high + l;
            self.set(N, t & 0x80 != 0);
            self.set(V, leaves_a_byte(signed(a_high) + signed(m_high) + l));
            if t >= 160 {
                t += 96;
            }
            self.set(C, t >= 256);
            self.a = t as u8;
        } else {
            self.set(N, binary & 0x80 != 0);
            self.set(V, leaves_a_byte(signed(a) + signed(m) + c));
            self.set(C, binary >= 256);
            self.a = binary as u8;
        }
    }

    pub fn subtract(&mut self, m: u8) {
        let (a, m, borrow) = (i32::from(self.a), i32::from(m), i32::from(!self.has(C)));
        let binary = a - m - borrow;
        // All flags are the binary ones, in decimal mode too.
        self.set_nz(binary as u8);
        self.set(V, leaves_a_byte(signed(a) - signed(m) - borrow));
        self.set(C, binary >= 0);
        if self.has(D) {
            let mut l = a % 16 - m % 16 - borrow;
            if l < 0 {
                l = (l - 6).rem_euclid(16) - 16;
            }
            let mut t = a / 16 * 16 - m / 16 * 16 + l;
            if t < 0 {
                t -= 96;
            }
            self.a = t as u8;
        } else {
            self.a = binary as u8;
        }
    }
}

fn signed(byte: i32) -> i32 {
    if byte < 128 {
        byte
    } else {
        byte - 256
    }
}

fn leaves_a_byte(sum: i32) -> bool {
    !(-128..=127).contains(&sum)
}
