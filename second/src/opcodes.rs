//! The 151 opcodes, row by row as document 01 has them; the other 105 are undefined.

use crate::core::Core;
use crate::instructions::Mode::{self, *};
use crate::record::{C, D, I, N, V, Z};
use Instruction::*;
use Register::*;

/// What an opcode stands for; the operand is still to be read.
#[derive(Clone, Copy)]
pub enum Instruction<'a> {
    Read(fn(&mut Core<'a>, Mode), Mode),
    Store(Register, Mode),
    /// Shifts, INC and DEC.
    Change(fn(&mut Core<'a>, u8) -> u8, Mode),
    ChangeA(fn(&mut Core<'a>, u8) -> u8),
    /// Taken where the flag is so.
    Branch(u8, bool),
    Jmp,
    JmpIndirect,
    Jsr,
    Rts,
    Rti,
    Brk,
    Nop,
    Php,
    Plp,
    Pha,
    Pla,
    Flag(u8, bool),
    Inside(fn(&mut Core<'a>)),
    Txs,
}

#[derive(Clone, Copy)]
pub enum Register {
    A,
    X,
    Y,
}

/// None where the opcode is undefined.
pub fn decode<'a>(opcode: u8) -> Option<Instruction<'a>> {
    Some(match opcode {
        0x01 => Read(Core::ora, IndirectX),
        0x05 => Read(Core::ora, Zero),
        0x09 => Read(Core::ora, Immediate),
        0x0D => Read(Core::ora, Absolute),
        0x11 => Read(Core::ora, IndirectY),
        0x15 => Read(Core::ora, ZeroX),
        0x19 => Read(Core::ora, AbsoluteY),
        0x1D => Read(Core::ora, AbsoluteX),

        0x21 => Read(Core::and, IndirectX),
        0x25 => Read(Core::and, Zero),
        0x29 => Read(Core::and, Immediate),
        0x2D => Read(Core::and, Absolute),
        0x31 => Read(Core::and, IndirectY),
        0x35 => Read(Core::and, ZeroX),
        0x39 => Read(Core::and, AbsoluteY),
        0x3D => Read(Core::and, AbsoluteX),

        0x41 => Read(Core::eor, IndirectX),
        0x45 => Read(Core::eor, Zero),
        0x49 => Read(Core::eor, Immediate),
        0x4D => Read(Core::eor, Absolute),
        0x51 => Read(Core::eor, IndirectY),
        0x55 => Read(Core::eor, ZeroX),
        0x59 => Read(Core::eor, AbsoluteY),
        0x5D => Read(Core::eor, AbsoluteX),

        0x61 => Read(Core::adc, IndirectX),
        0x65 => Read(Core::adc, Zero),
        0x69 => Read(Core::adc, Immediate),
        0x6D => Read(Core::adc, Absolute),
        0x71 => Read(Core::adc, IndirectY),
        0x75 => Read(Core::adc, ZeroX),
        0x79 => Read(Core::adc, AbsoluteY),
        0x7D => Read(Core::adc, AbsoluteX),

        0x81 => Store(A, IndirectX),
        0x85 => Store(A, Zero),
        0x8D => Store(A, Absolute),
        0x91 => Store(A, BankedY),
        0x95 => Store(A, ZeroX),
        0x99 => Store(A, AbsoluteY),
        0x9D => Store(A, AbsoluteX),

        0xA1 => Read(Core::lda, IndirectX),
        0xA5 => Read(Core::lda, Zero),
        0xA9 => Read(Core::lda, Immediate),
        0xAD => Read(Core::lda, Absolute),
        0xB1 => Read(Core::lda, BankedY),
        0xB5 => Read(Core::lda, ZeroX),
        0xB9 => Read(Core::lda, AbsoluteY),
        0xBD => Read(Core::lda, AbsoluteX),

        0xC1 => Read(Core::cmp, IndirectX),
        0xC5 => Read(Core::cmp, Zero),
        0xC9 => Read(Core::cmp, Immediate),
        0xCD => Read(Core::cmp, Absolute),
        0xD1 => Read(Core::cmp, IndirectY),
        0xD5 => Read(Core::cmp, ZeroX),
        0xD9 => Read(Core::cmp, AbsoluteY),
        0xDD => Read(Core::cmp, AbsoluteX),

        0xE1 => Read(Core::sbc, IndirectX),
        0xE5 => Read(Core::sbc, Zero),
        0xE9 => Read(Core::sbc, Immediate),
        0xED => Read(Core::sbc, Absolute),
        0xF1 => Read(Core::sbc, IndirectY),
        0xF5 => Read(Core::sbc, ZeroX),
        0xF9 => Read(Core::sbc, AbsoluteY),
        0xFD => Read(Core::sbc, AbsoluteX),

        0x06 => Change(Core::asl, Zero),
        0x0A => ChangeA(Core::asl),
        0x0E => Change(Core::asl, Absolute),
        0x16 => Change(Core::asl, ZeroX),
        0x1E => Change(Core::asl, AbsoluteX),

        0x26 => Change(Core::rol, Zero),
        0x2A => ChangeA(Core::rol),
        0x2E => Change(Core::rol, Absolute),
        0x36 => Change(Core::rol, ZeroX),
        0x3E => Change(Core::rol, AbsoluteX),

        0x46 => Change(Core::lsr, Zero),
        0x4A => ChangeA(Core::lsr),
        0x4E => Change(Core::lsr, Absolute),
        0x56 => Change(Core::lsr, ZeroX),
        0x5E => Change(Core::lsr, AbsoluteX),

        0x66 => Change(Core::ror, Zero),
        0x6A => ChangeA(Core::ror),
        0x6E => Change(Core::ror, Absolute),
        0x76 => Change(Core::ror, ZeroX),
        0x7E => Change(Core::ror, AbsoluteX),

        0xC6 => Change(Core::decrement, Zero),
        0xCE => Change(Core::decrement, Absolute),
        0xD6 => Change(Core::decrement, ZeroX),
        0xDE => Change(Core::decrement, AbsoluteX),

        0xE6 => Change(Core::increment, Zero),
        0xEE => Change(Core::increment, Absolute),
        0xF6 => Change(Core::increment, ZeroX),
        0xFE => Change(Core::increment, AbsoluteX),

        0xA2 => Read(Core::ldx, Immediate),
        0xA6 => Read(Core::ldx, Zero),
        0xAE => Read(Core::ldx, Absolute),
        0xB6 => Read(Core::ldx, ZeroY),
        0xBE => Read(Core::ldx, AbsoluteY),

        0xA0 => Read(Core::ldy, Immediate),
        0xA4 => Read(Core::ldy, Zero),
        0xAC => Read(Core::ldy, Absolute),
        0xB4 => Read(Core::ldy, ZeroX),
        0xBC => Read(Core::ldy, AbsoluteX),

        0x86 => Store(X, Zero),
        0x8E => Store(X, Absolute),
        0x96 => Store(X, ZeroY),

        0x84 => Store(Y, Zero),
        0x8C => Store(Y, Absolute),
        0x94 => Store(Y, ZeroX),

        0xE0 => Read(Core::cpx, Immediate),
        0xE4 => Read(Core::cpx, Zero),
        0xEC => Read(Core::cpx, Absolute),

        0xC0 => Read(Core::cpy, Immediate),
        0xC4 => Read(Core::cpy, Zero),
        0xCC => Read(Core::cpy, Absolute),

        0x24 => Read(Core::bit, Zero),
        0x2C => Read(Core::bit, Absolute),

        0x10 => Branch(N, false),
        0x30 => Branch(N, true),
        0x50 => Branch(V, false),
        0x70 => Branch(V, true),
        0x90 => Branch(C, false),
        0xB0 => Branch(C, true),
        0xD0 => Branch(Z, false),
        0xF0 => Branch(Z, true),

        0x4C => Jmp,
        0x6C => JmpIndirect,
        0x20 => Jsr,
        0x60 => Rts,
        0x40 => Rti,
        0x00 => Brk,
        0xEA => Nop,

        0x08 => Php,
        0x28 => Plp,
        0x48 => Pha,
        0x68 => Pla,

        0x18 => Flag(C, false),
        0x38 => Flag(C, true),
        0x58 => Flag(I, false),
        0x78 => Flag(I, true),
        0xB8 => Flag(V, false),
        0xD8 => Flag(D, false),
        0xF8 => Flag(D, true),

        0xAA => Inside(|core| core.put_x(core.a)),
        0x8A => Inside(|core| core.put_a(core.x)),
        0xA8 => Inside(|core| core.put_y(core.a)),
        0x98 => Inside(|core| core.put_a(core.y)),
        0xBA => Inside(|core| core.put_x(core.s)),
        0x9A => Txs,

        0xE8 => Inside(|core| core.put_x(core.x.wrapping_add(1))),
        0xC8 => Inside(|core| core.put_y(core.y.wrapping_add(1))),
        0xCA => Inside(|core| core.put_x(core.x.wrapping_sub(1))),
        0x88 => Inside(|core| core.put_y(core.y.wrapping_sub(1))),

        _ => return None,
    })
}

impl Instruction<'_> {
    /// In bytes, the opcode's among them.
    pub fn length(&self) -> u16 {
        match self {
            Read(_, mode) | Store(_, mode) | Change(_, mode) => match mode {
                Absolute | AbsoluteX | AbsoluteY => 3,
                _ => 2,
            },
            Branch(..) => 2,
            Jmp | JmpIndirect | Jsr => 3,
            _ => 1,
        }
    }
}
