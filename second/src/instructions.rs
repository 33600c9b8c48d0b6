//! What the opcodes do: the bus cycles after the fetch, in the order of time.

use crate::bus::Purpose::{self, Data, Operand, Pointer, Wasted};
use crate::core::{Core, IRQ_VECTOR};
use crate::opcodes::{Instruction, Register};
use crate::record::{BIT_4, BIT_5, C, N, V, Z};

#[derive(Clone, Copy)]
pub enum Mode {
    Immediate,
    Zero,
    ZeroX,
    ZeroY,
    Absolute,
    AbsoluteX,
    AbsoluteY,
    /// (z,X)
    IndirectX,
    /// (z),Y
    IndirectY,
    /// (z),Y of B1 and 91, whose accesses after the pointer use the 6509's indirect bank.
    BankedY,
}

use Mode::*;

/// `early` is the read at the old page with the summed low byte, which a,X, a,Y and (z),Y begin with; `purpose` is what
/// a read at `data` is for.
struct Place {
    early: Option<u16>,
    data: u16,
    purpose: Purpose,
}

fn plain(data: u16) -> Place {
    Place {
        early: None,
        data,
        purpose: Data,
    }
}

fn indexed(base: u16, index: u8) -> Place {
    let data = base.wrapping_add(u16::from(index));
    Place {
        early: Some(base & 0xFF00 | data & 0x00FF),
        data,
        purpose: Data,
    }
}

impl<'a> Core<'a> {
    pub fn execute(&mut self, instruction: Instruction<'a>) {
        match instruction {
            Instruction::Read(operation, mode) => operation(self, mode),
            Instruction::Store(register, mode) => self.store(register, mode),
            Instruction::Change(change, mode) => self.change(mode, change),
            Instruction::ChangeA(change) => self.change_a(change),
            Instruction::Branch(flag, value) => self.branch(self.has(flag) == value),
            Instruction::Jmp => self.jmp(),
            Instruction::JmpIndirect => self.jmp_indirect(),
            Instruction::Jsr => self.jsr(),
            Instruction::Rts => self.rts(),
            Instruction::Rti => self.rti(),
            Instruction::Brk => self.brk(),
            Instruction::Nop => self.implied(),
            Instruction::Php => self.php(),
            Instruction::Plp => self.plp(),
            Instruction::Pha => self.pha(),
            Instruction::Pla => self.pla(),
            Instruction::Flag(flag, on) => self.flag(flag, on),
            Instruction::Inside(operation) => operation(self),
            Instruction::Txs => self.txs(),
        }
    }

    fn place(&mut self, mode: Mode) -> Place {
        match mode {
            // "Immediate: operand."
            Immediate => {
                let operand = self.pc;
                self.pc = self.pc.wrapping_add(1);
                Place {
                    purpose: Operand,
                    ..plain(operand)
                }
            }
            Zero => plain(u16::from(self.fetch(Operand))),
            ZeroX => self.zero_page(self.x),
            ZeroY => self.zero_page(self.y),
            Absolute => plain(self.fetch_word()),
            AbsoluteX => indexed(self.fetch_word(), self.x),
            AbsoluteY => indexed(self.fetch_word(), self.y),
            IndirectX => {
                let unindexed = self.fetch(Operand);
                self.read(Wasted, u16::from(unindexed));
                plain(self.pointer(u16::from(unindexed.wrapping_add(self.x))))
            }
            IndirectY => self.indirect_y(),
            BankedY => {
                let place = self.indirect_y();
                self.bus.indirect = true;
                place
            }
        }
    }

    fn zero_page(&mut self, index: u8) -> Place {
        let unindexed = self.fetch(Operand);
        self.read(Wasted, u16::from(unindexed));
        plain(u16::from(unindexed.wrapping_add(index)))
    }

    fn indirect_y(&mut self) -> Place {
        let z = self.fetch(Operand);
        indexed(self.pointer(u16::from(z)), self.y)
    }

    /// Both bytes lie in one page: those of (z,X) and (z),Y in page zero, those of JMP (80FF) at 80FF and 8000.
    fn pointer(&mut self, at: u16) -> u16 {
        let [first, page] = at.to_le_bytes();
        let low = self.read(Pointer, at);
        let high = self.read(Pointer, u16::from_le_bytes([first.wrapping_add(1), page]));
        u16::from_le_bytes([low, high])
    }

    /// A load stops at the early read if no page was crossed: there it has its data.
    fn load(&mut self, mode: Mode) -> u8 {
        let place = self.place(mode);
        if let Some(early) = place.early.filter(|&early| early != place.data) {
            self.read(Wasted, early);
        }
        self.read(place.purpose, place.data)
    }

    /// Stores, shifts, INC and DEC never stop at the early read.
    fn target(&mut self, mode: Mode) -> u16 {
        let place = self.place(mode);
        if let Some(early) = place.early {
            self.read(Wasted, early);
        }
        place.data
    }

    fn store(&mut self, register: Register, mode: Mode) {
        let value = match register {
            Register::A => self.a,
            Register::X => self.x,
            Register::Y => self.y,
        };
        let address = self.target(mode);
        self.write(Data, address, value);
    }

    fn change(&mut self, mode: Mode, change: fn(&mut Self, u8) -> u8) {
        let address = self.target(mode);
        let value = self.read(Data, address);
        self.write(Wasted, address, value);
        let result = change(self, value);
        self.write(Data, address, result);
    }

    fn change_a(&mut self, change: fn(&mut Self, u8) -> u8) {
        self.implied();
        let value = self.a;
        self.a = change(self, value);
    }

    fn implied(&mut self) {
        self.read(Wasted, self.pc);
    }

    pub fn lda(&mut self, mode: Mode) {
        self.a = self.load(mode);
        self.set_nz(self.a);
    }

    pub fn ldx(&mut self, mode: Mode) {
        self.x = self.load(mode);
        self.set_nz(self.x);
    }

    pub fn ldy(&mut self, mode: Mode) {
        self.y = self.load(mode);
        self.set_nz(self.y);
    }

    pub fn ora(&mut self, mode: Mode) {
        self.a |= self.load(mode);
        self.set_nz(self.a);
    }

    pub fn and(&mut self, mode: Mode) {
        self.a &= self.load(mode);
        self.set_nz(self.a);
    }

    pub fn eor(&mut self, mode: Mode) {
        self.a ^= self.load(mode);
        self.set_nz(self.a);
    }

    pub fn adc(&mut self, mode: Mode) {
        let value = self.load(mode);
        self.add(value);
    }

    pub fn sbc(&mut self, mode: Mode) {
        let value = self.load(mode);
        self.subtract(value);
    }

    pub fn cmp(&mut self, mode: Mode) {
        self.compare(self.a, mode);
    }

    pub fn cpx(&mut self, mode: Mode) {
        self.compare(self.x, mode);
    }

    pub fn cpy(&mut self, mode: Mode) {
        self.compare(self.y, mode);
    }

    fn compare(&mut self, register: u8, mode: Mode) {
        let value = self.load(mode);
        self.set_nz(register.wrapping_sub(value));
        self.set(C, register >= value);
    }

    pub fn bit(&mut self, mode: Mode) {
        let value = self.load(mode);
        self.set(N, value & N != 0);
        self.set(V, value & V != 0);
        self.set(Z, value & self.a == 0);
    }

    pub fn asl(&mut self, value: u8) -> u8 {
        self.shifted(value << 1, value & 0x80 != 0)
    }

    pub fn rol(&mut self, value: u8) -> u8 {
        self.shifted(value << 1 | u8::from(self.has(C)), value & 0x80 != 0)
    }

    pub fn lsr(&mut self, value: u8) -> u8 {
        self.shifted(value >> 1, value & 0x01 != 0)
    }

    pub fn ror(&mut self, value: u8) -> u8 {
        self.shifted(value >> 1 | u8::from(self.has(C)) << 7, value & 0x01 != 0)
    }

    fn shifted(&mut self, result: u8, carry: bool) -> u8 {
        self.set_nz(result);
        self.set(C, carry);
        result
    }

    pub fn increment(&mut self, value: u8) -> u8 {
        self.set_nz(value.wrapping_add(1));
        value.wrapping_add(1)
    }

    pub fn decrement(&mut self, value: u8) -> u8 {
        self.set_nz(value.wrapping_sub(1));
        value.wrapping_sub(1)
    }

    /// A crossing is judged from the next instruction's address, not from the branch's own.
    fn branch(&mut self, taken: bool) {
        let offset = self.fetch(Operand) as i8;
        if taken {
            self.read(Wasted, self.pc);
            let target = self.pc.wrapping_add(offset as u16);
            if target >> 8 != self.pc >> 8 {
                self.read(Wasted, self.pc & 0xFF00 | target & 0x00FF);
            }
            self.pc = target;
        }
    }

    fn jmp(&mut self) {
        self.pc = self.fetch_word();
    }

    fn jmp_indirect(&mut self) {
        let at = self.fetch_word();
        self.pc = self.pointer(at);
    }

    /// The pushes come before the high operand is read, and may have changed it.
    fn jsr(&mut self) {
        let low = self.fetch(Operand);
        self.read_stack(Wasted);
        self.push_pc();
        let high = self.fetch(Operand);
        self.pc = u16::from_le_bytes([low, high]);
    }

    fn rts(&mut self) {
        self.implied();
        self.read_stack(Wasted);
        self.pc = self.pull_word();
        self.fetch(Wasted);
    }

    fn rti(&mut self) {
        self.implied();
        self.read_stack(Wasted);
        self.p = self.pull() & !BIT_4 | BIT_5;
        self.pc = self.pull_word();
    }

    fn brk(&mut self) {
        self.fetch(Wasted);
        self.push_pc();
        self.push(self.p | BIT_4);
        self.enter(IRQ_VECTOR);
    }

    fn php(&mut self) {
        self.implied();
        self.push(self.p | BIT_4 | BIT_5);
    }

    fn plp(&mut self) {
        self.implied();
        self.read_stack(Wasted);
        self.p = self.pull() & !BIT_4 | BIT_5;
    }

    fn pha(&mut self) {
        self.implied();
        self.push(self.a);
    }

    fn pla(&mut self) {
        self.implied();
        self.read_stack(Wasted);
        self.a = self.pull();
        self.set_nz(self.a);
    }

    fn flag(&mut self, flag: u8, on: bool) {
        self.implied();
        self.set(flag, on);
    }

    pub fn put_a(&mut self, value: u8) {
        self.implied();
        self.a = value;
        self.set_nz(value);
    }

    pub fn put_x(&mut self, value: u8) {
        self.implied();
        self.x = value;
        self.set_nz(value);
    }

    pub fn put_y(&mut self, value: u8) {
        self.implied();
        self.y = value;
        self.set_nz(value);
    }

    fn txs(&mut self) {
        self.implied();
        self.s = self.x;
    }
}
