//! What code is made of: blocks that leave the stack as they found it, so that every path to an instruction comes with
//! the same height.

use super::code::{instruction, size, Item, Label, Line, Operand};
use super::draw::{Draw, CLI, DEEP, JMP, LDX, PHA, PLA, TXS};
use crate::admission::Kind;
use crate::instructions::Mode::{self, *};
use crate::opcodes::Instruction::{Change, Store};

const PHP: u8 = 0x08;
const JSR: u8 = 0x20;
const RTS: u8 = 0x60;
const RTI: u8 = 0x40;
const SEI: u8 = 0x78;
const BNE: u8 = 0xD0;
const BCS: u8 = 0xB0;
const DEC_ZERO: u8 = 0xC6;
const ASL_ZERO: u8 = 0x06;
const LSR_ZERO: u8 = 0x46;
const BIT_ZERO: u8 = 0x24;
const BIT_ABSOLUTE: u8 = 0x2C;

impl Draw {
    pub(super) fn block(&mut self, height: usize, length: usize) -> Vec<Item> {
        let mut items = Vec::new();
        let mut left = length;
        while left > 0 {
            let some = self.some(height, left);
            left = left.saturating_sub(some.len());
            items.extend(some);
        }
        items
    }

    fn some(&mut self, height: usize, left: usize) -> Vec<Item> {
        let inner = self.random.below(left.min(14));
        match self.random.below(32) {
            0..=12 => vec![self.plain(height)],
            13..=16 => vec![self.store(height)],
            17..=19 if !self.routines.is_empty() => {
                let routine = self.random.pick(&self.routines);
                vec![self.line(JSR, Operand::To(routine), height)]
            }
            20..=22 => self.pushed(height, inner),
            23..=24 => self.branch_over(height, inner),
            25..=26 => self.turns(height, inner),
            27 => self.jump_over(height),
            28 => vec![self.of_its_kind(height)],
            29 if height < DEEP => self.early_exit(height),
            30 if self.shape.is_overlapped => self.overlap(height),
            _ => vec![self.plain(height)],
        }
    }

    pub(super) fn line(&mut self, opcode: u8, operand: Operand, height: usize) -> Item {
        Item::Line(Line {
            opcode,
            operand,
            kind: self.kind,
            height,
            spare: 0,
            inside: None,
        })
    }

    pub(super) fn plain(&mut self, height: usize) -> Item {
        if self.random.one_in(3) {
            let opcode = self.random.pick(&self.inside);
            return self.line(opcode, Operand::None, height);
        }
        let opcode = self.random.pick(&self.reads);
        let operand = match instruction(opcode).length() {
            2 => Operand::Byte(self.random.edge_or_byte()),
            _ => Operand::Word(self.random.edge_or_address()),
        };
        self.line(opcode, operand, height)
    }

    fn store(&mut self, height: usize) -> Item {
        let opcode = self.random.pick(&self.stores);
        let operand = match instruction(opcode) {
            Store(_, mode) | Change(_, mode) => self.store_operand(mode),
            _ => Operand::None,
        };
        self.line(opcode, operand, height)
    }

    fn store_operand(&mut self, mode: Mode) -> Operand {
        let (edges, forbidden) = match mode {
            Absolute => ([0x0000, 0x00FF, 0x0200, 0x02FF, 0xFFFF], 0x0100..=0x01FF),
            AbsoluteX | AbsoluteY => ([0x0000, 0x0200, 0x0201, 0x02FF, 0xFFFF], 0x0001..=0x01FF),
            _ => return Operand::Byte(self.random.edge_or_byte()),
        };
        let mut word = match self.random.below(3) {
            0 => self.random.pick(&edges),
            1 => self.random.between(0x0200, 0x07FF) as u16,
            _ => self.random.edge_or_address(),
        };
        if forbidden.contains(&word) {
            word = self.random.pick(&edges);
        }
        Operand::Word(word)
    }

    pub(super) fn pushes(&mut self, low: usize, high: usize) -> Vec<Item> {
        let push = |height| self.line(PHA, Operand::None, height);
        (low..high).map(push).collect()
    }

    pub(super) fn pulls(&mut self, low: usize, high: usize) -> Vec<Item> {
        let pull = |height| self.line(PLA, Operand::None, height + 1);
        (low..high).rev().map(pull).collect()
    }

    fn pushed(&mut self, height: usize, inner: usize) -> Vec<Item> {
        let push = self.random.pick(&[PHA, PHP]);
        let mut items = vec![self.line(push, Operand::None, height)];
        items.extend(self.block(height + 1, inner));
        items.push(self.line(PLA, Operand::None, height + 1));
        items
    }

    fn branch_over(&mut self, height: usize, inner: usize) -> Vec<Item> {
        let body = self.block(height, inner);
        let end = self.label();
        let branch = self.random.pick(&self.branches);
        let mut items = self.branch(branch, end, height, size(&body));
        items.extend(body);
        items.push(Item::Label(end));
        items
    }

    /// A branch, or where its target is too far a branch over a jump.
    fn branch(&mut self, opcode: u8, to: Label, height: usize, distance: usize) -> Vec<Item> {
        if distance <= 110 {
            return vec![self.line(opcode, Operand::To(to), height)];
        }
        let over = self.label();
        vec![
            // Bit 5 says which of two opposite branches it is.
            self.line(opcode ^ 0x20, Operand::To(over), height),
            self.line(JMP, Operand::To(to), height),
            Item::Label(over),
        ]
    }

    /// A loop. Most end soon: the carry is a bit that is shifted out, or a cell is counted down.
    fn turns(&mut self, height: usize, inner: usize) -> Vec<Item> {
        let top = self.label();
        let mut body = self.block(height, inner);
        let cell = Operand::Byte(self.random.byte());
        let branch = match self.random.below(8) {
            0 => self.random.pick(&self.branches),
            1 => {
                body.push(self.line(DEC_ZERO, cell, height));
                BNE
            }
            _ => {
                let shift = self.random.pick(&[ASL_ZERO, LSR_ZERO]);
                body.push(self.line(shift, cell, height));
                BCS
            }
        };
        let back = self.branch(branch, top, height, size(&body) + 2);
        let mut items = vec![Item::Label(top)];
        items.extend(body);
        items.extend(back);
        items
    }

    fn jump_over(&mut self, height: usize) -> Vec<Item> {
        let end = self.label();
        let jump = self.line(JMP, Operand::To(end), height);
        vec![jump, self.data(), Item::Label(end)]
    }

    fn of_its_kind(&mut self, height: usize) -> Item {
        let opcode = match (self.kind, height) {
            (Kind::Main, 0) => self.random.pick(&[TXS, CLI]),
            (Kind::Main, _) => CLI,
            _ => SEI,
        };
        self.line(opcode, Operand::None, height)
    }

    /// Back to where the routine or the handler was entered from; main begins again or stays where it is.
    pub(super) fn exit(&mut self, height: usize) -> Vec<Item> {
        let mut items = self.pulls(0, height);
        match self.kind {
            Kind::Main if self.random.one_in(8) => {
                let here = self.label();
                items.push(Item::Label(here));
                items.push(self.line(JMP, Operand::To(here), 0));
            }
            Kind::Main => items.push(self.line(JMP, Operand::To(self.start), 0)),
            Kind::Routine => items.push(self.line(RTS, Operand::None, 0)),
            Kind::Handler => items.push(self.line(RTI, Operand::None, 0)),
        }
        items
    }

    fn early_exit(&mut self, height: usize) -> Vec<Item> {
        let exit = self.exit(height);
        let over = self.label();
        let opcode = self.random.pick(&self.branches);
        let mut items = vec![self.line(opcode, Operand::To(over), height)];
        items.extend(exit);
        items.push(Item::Label(over));
        items
    }

    /// A BIT whose operand is an instruction that a branch leads to.
    fn overlap(&mut self, height: usize) -> Vec<Item> {
        let inside = self.label();
        let opcode = self.random.pick(&self.branches);
        let branch = self.line(opcode, Operand::To(inside), height);
        let one = self.random.pick(&self.inside);
        let (opcode, operand) = match self.random.below(2) {
            0 => (BIT_ZERO, Operand::Byte(one)),
            _ => (BIT_ABSOLUTE, Operand::Word(u16::from_le_bytes([LDX, one]))),
        };
        let mut outer = self.line(opcode, operand, height);
        if let Item::Line(line) = &mut outer {
            line.inside = Some(inside);
        }
        vec![branch, outer]
    }

    pub(super) fn data(&mut self) -> Item {
        let mut bytes = vec![0; self.random.pick(&[0, 0, 1, 2, 5, 40])];
        self.random.fill(&mut bytes);
        Item::Data(bytes)
    }

    pub(super) fn label(&mut self) -> Label {
        self.labels += 1;
        Label(self.labels - 1)
    }
}
