//! The 56 mnemonics with their modes, row by row as document 01 has them, and how the data sheets write a mode.

use Form::*;

/// A mode as it is written.
#[derive(Clone, Copy, PartialEq, Eq, Debug)]
pub enum Form {
    Implied,
    Accumulator,
    Immediate,
    Zero,
    ZeroX,
    ZeroY,
    Absolute,
    AbsoluteX,
    AbsoluteY,
    /// (a), of JMP alone.
    Indirect,
    /// (z,X)
    IndirectX,
    /// (z),Y
    IndirectY,
    Relative,
}

/// A mnemonic: each of its opcodes is the sum of the row's number and the mode's.
pub struct Row {
    pub name: &'static str,
    number: u8,
    modes: &'static [(Form, u8)],
}

const LOADS: &[(Form, u8)] = &[
    (IndirectX, 0x01),
    (Zero, 0x05),
    (Immediate, 0x09),
    (Absolute, 0x0D),
    (IndirectY, 0x11),
    (ZeroX, 0x15),
    (AbsoluteY, 0x19),
    (AbsoluteX, 0x1D),
];
const STA: &[(Form, u8)] = &[
    (IndirectX, 0x01),
    (Zero, 0x05),
    (Absolute, 0x0D),
    (IndirectY, 0x11),
    (ZeroX, 0x15),
    (AbsoluteY, 0x19),
    (AbsoluteX, 0x1D),
];
const SHIFTS: &[(Form, u8)] = &[
    (Zero, 0x06),
    (Accumulator, 0x0A),
    (Absolute, 0x0E),
    (ZeroX, 0x16),
    (AbsoluteX, 0x1E),
];
const COUNTS: &[(Form, u8)] = &[
    (Zero, 0x06),
    (Absolute, 0x0E),
    (ZeroX, 0x16),
    (AbsoluteX, 0x1E),
];
const LDX: &[(Form, u8)] = &[
    (Immediate, 0xA2),
    (Zero, 0xA6),
    (Absolute, 0xAE),
    (ZeroY, 0xB6),
    (AbsoluteY, 0xBE),
];
const LDY: &[(Form, u8)] = &[
    (Immediate, 0xA0),
    (Zero, 0xA4),
    (Absolute, 0xAC),
    (ZeroX, 0xB4),
    (AbsoluteX, 0xBC),
];
const STX: &[(Form, u8)] = &[(Zero, 0x86), (Absolute, 0x8E), (ZeroY, 0x96)];
const STY: &[(Form, u8)] = &[(Zero, 0x84), (Absolute, 0x8C), (ZeroX, 0x94)];
const COMPARES: &[(Form, u8)] = &[(Immediate, 0x00), (Zero, 0x04), (Absolute, 0x0C)];
const BIT: &[(Form, u8)] = &[(Zero, 0x24), (Absolute, 0x2C)];
const BRANCH: &[(Form, u8)] = &[(Relative, 0)];
const JMP: &[(Form, u8)] = &[(Absolute, 0x4C), (Indirect, 0x6C)];
const JSR: &[(Form, u8)] = &[(Absolute, 0x20)];
const ALONE: &[(Form, u8)] = &[(Implied, 0)];

pub const ROWS: &[Row] = &[
    of("ORA", 0x00, LOADS),
    of("AND", 0x20, LOADS),
    of("EOR", 0x40, LOADS),
    of("ADC", 0x60, LOADS),
    of("STA", 0x80, STA),
    of("LDA", 0xA0, LOADS),
    of("CMP", 0xC0, LOADS),
    of("SBC", 0xE0, LOADS),
    of("ASL", 0x00, SHIFTS),
    of("ROL", 0x20, SHIFTS),
    of("LSR", 0x40, SHIFTS),
    of("ROR", 0x60, SHIFTS),
    of("DEC", 0xC0, COUNTS),
    of("INC", 0xE0, COUNTS),
    of("LDX", 0, LDX),
    of("LDY", 0, LDY),
    of("STX", 0, STX),
    of("STY", 0, STY),
    of("CPX", 0xE0, COMPARES),
    of("CPY", 0xC0, COMPARES),
    of("BIT", 0, BIT),
    of("BPL", 0x10, BRANCH),
    of("BMI", 0x30, BRANCH),
    of("BVC", 0x50, BRANCH),
    of("BVS", 0x70, BRANCH),
    of("BCC", 0x90, BRANCH),
    of("BCS", 0xB0, BRANCH),
    of("BNE", 0xD0, BRANCH),
    of("BEQ", 0xF0, BRANCH),
    of("JMP", 0, JMP),
    of("JSR", 0, JSR),
    of("RTS", 0x60, ALONE),
    of("RTI", 0x40, ALONE),
    of("BRK", 0x00, ALONE),
    of("NOP", 0xEA, ALONE),
    of("PHP", 0x08, ALONE),
    of("PLP", 0x28, ALONE),
    of("PHA", 0x48, ALONE),
    of("PLA", 0x68, ALONE),
    of("CLC", 0x18, ALONE),
    of("SEC", 0x38, ALONE),
    of("CLI", 0x58, ALONE),
    of("SEI", 0x78, ALONE),
    of("CLV", 0xB8, ALONE),
    of("CLD", 0xD8, ALONE),
    of("SED", 0xF8, ALONE),
    of("TAX", 0xAA, ALONE),
    of("TXA", 0x8A, ALONE),
    of("TAY", 0xA8, ALONE),
    of("TYA", 0x98, ALONE),
    of("TSX", 0xBA, ALONE),
    of("TXS", 0x9A, ALONE),
    of("INX", 0xE8, ALONE),
    of("INY", 0xC8, ALONE),
    of("DEX", 0xCA, ALONE),
    of("DEY", 0x88, ALONE),
];

const fn of(name: &'static str, number: u8, modes: &'static [(Form, u8)]) -> Row {
    Row {
        name,
        number,
        modes,
    }
}

impl Row {
    /// None where the mnemonic has no such mode.
    pub fn opcode(&self, form: Form) -> Option<u8> {
        let mode = self.modes.iter().find(|mode| mode.0 == form);
        mode.map(|mode| self.number + mode.1)
    }

    pub fn has(&self, form: Form) -> bool {
        self.opcode(form).is_some()
    }

    fn form(&self, opcode: u8) -> Option<Form> {
        let mode = self
            .modes
            .iter()
            .find(|mode| self.number + mode.1 == opcode);
        mode.map(|mode| mode.0)
    }
}

impl Form {
    /// Of the whole instruction, in bytes.
    pub fn length(self) -> usize {
        match self {
            Implied | Accumulator => 1,
            Absolute | AbsoluteX | AbsoluteY | Indirect => 3,
            _ => 2,
        }
    }

    /// The mode of page zero beside one with a whole address: the same index, or none.
    pub fn short(self) -> Option<Form> {
        match self {
            Absolute => Some(Zero),
            AbsoluteX => Some(ZeroX),
            AbsoluteY => Some(ZeroY),
            _ => None,
        }
    }
}

/// In large letters.
pub fn row(name: &str) -> Option<&'static Row> {
    ROWS.iter().find(|row| row.name == name)
}

/// What an opcode is called; None where it is undefined.
pub fn named(opcode: u8) -> Option<(&'static Row, Form)> {
    ROWS.iter()
        .find_map(|row| row.form(opcode).map(|form| (row, form)))
}
