//! Random firmwares: a main, routines, a handler and code that nothing leads to, placed in protected pages.

use super::code::{assemble, size, Assembled, Item, Label, Line, Operand};
use super::Firmware;
use crate::admission::Kind;
use crate::bus::BANK;
use crate::core::{IRQ_VECTOR, RES_VECTOR};
use crate::instructions::Mode::{BankedY, IndirectX};
use crate::opcodes::decode;
use crate::opcodes::Instruction::{Branch, Change, ChangeA, Flag, Inside, Nop, Read, Store};
use crate::random::Random;
use crate::record::I;
use std::ops::Range;

pub(super) const CLI: u8 = 0x58;
pub(super) const TXS: u8 = 0x9A;
pub(super) const PHA: u8 = 0x48;
pub(super) const PLA: u8 = 0x68;
pub(super) const JMP: u8 = 0x4C;
pub(super) const LDX: u8 = 0xA2;

/// A block at this height or above is left by its end alone, and has no TXS.
pub(super) const DEEP: usize = 4;

/// What a firmware is to be like.
#[derive(Clone, Copy, Default)]
pub struct Shape {
    pub routines: usize,
    /// About how many instructions a main, a routine or the handler has.
    pub length: usize,
    /// Code that nothing leads to, of any kind and height.
    pub islands: usize,
    pub is_overlapped: bool,
    /// Main's block lies so deep that main and the handler take all the room.
    pub is_deep: bool,
    /// Needs above the least ones, to the last byte of room.
    pub is_spare: bool,
    /// Exactly so many records, where it is not 0.
    pub records: usize,
}

pub struct Draw {
    pub random: Random,
    pub(super) reads: Vec<u8>,
    pub(super) stores: Vec<u8>,
    pub(super) inside: Vec<u8>,
    pub(super) branches: Vec<u8>,
    pub(super) labels: usize,
    pub(super) shape: Shape,
    /// What may be called: those drawn before, so that no call leads back.
    pub(super) routines: Vec<Label>,
    pub(super) kind: Kind,
    /// No branches in main and handler: each turn takes all the need that they have.
    is_straight: bool,
    /// Where main begins.
    pub(super) start: Label,
}

/// A firmware before it has addresses.
struct Parts {
    main: Vec<Item>,
    /// Main's block, the part of it that is deepened.
    deepest: Range<usize>,
    start: Label,
    entry: Label,
    others: Vec<Vec<Item>>,
}

impl Draw {
    pub fn new(random: Random) -> Draw {
        let those = |is_one: fn(u8) -> bool| (0..=255).filter(|&opcode| is_one(opcode)).collect();
        Draw {
            random,
            reads: those(|opcode| matches!(decode(opcode), Some(Read(..)))),
            stores: those(|opcode| match decode(opcode) {
                Some(Store(_, mode) | Change(_, mode)) => !matches!(mode, IndirectX | BankedY),
                _ => false,
            }),
            inside: those(|opcode| match decode(opcode) {
                Some(Flag(flag, on)) => (flag, on) != (I, false),
                Some(ChangeA(_) | Inside(_) | Nop) => true,
                _ => false,
            }),
            branches: those(|opcode| matches!(decode(opcode), Some(Branch(..)))),
            labels: 0,
            shape: Shape::default(),
            routines: Vec::new(),
            kind: Kind::Main,
            is_straight: false,
            start: Label(0),
        }
    }

    pub fn firmware(&mut self, shape: Shape) -> Firmware {
        self.shape = shape;
        loop {
            let parts = self.parts();
            let filled = self.fill(parts);
            if let Some(firmware) = filled.and_then(|parts| self.finish(parts)) {
                return firmware;
            }
        }
    }

    /// What the shape asks for beside the parts themselves. None where it does not fit: into the room, a byte, or the number
    /// of records.
    fn fill(&mut self, mut parts: Parts) -> Option<Parts> {
        let (main_need, handler_need) = entry_needs(&self.place(&parts, 0x1000)?, &parts);
        let room = 253_usize.checked_sub(main_need + handler_need)?;
        if self.shape.is_deep {
            self.push_deeper(&mut parts, room);
        } else if self.shape.is_spare {
            let some = self.random.below(room + 1);
            first_line(&mut parts.main).spare = main_need + self.random.pick(&[room, some]);
        }
        if self.shape.records > 0 {
            let have = self.place(&parts, 0x1000)?.marks.len();
            let missing = self.shape.records.checked_sub(have)?;
            let end = parts.main.len() - 1;
            self.kind = Kind::Main;
            let padding: Vec<Item> = (0..missing).map(|_| self.plain(0)).collect();
            parts.main.splice(end..end, padding);
        }
        Some(parts)
    }

    /// At its place among the protected pages. None where there are too few.
    fn finish(&mut self, parts: Parts) -> Option<Firmware> {
        let bytes = size(&parts.items());
        let least = (bytes + 4 + 255) / 256;
        if least > 254 {
            return None;
        }
        let c = match self.random.below(3) {
            0 => least,
            1 => self.random.between(least, 254.min(least + 3)),
            _ => self.random.between(least, 254),
        };
        let (first, last) = (BANK - 256 * c, BANK - 4 - bytes);
        let origin = match self.random.below(3) {
            0 => first,
            1 => last,
            _ => self.random.between(first, last),
        };
        let placed = self.place(&parts, origin)?;
        let mut image = vec![0; BANK];
        self.random.fill(&mut image);
        image[origin..origin + bytes].copy_from_slice(&placed.bytes);
        let mut firmware = Firmware {
            image,
            c: c as u8,
            is_overlapped: self.shape.is_overlapped,
            marks: placed.marks,
        };
        let [start, entry] = [parts.start, parts.entry].map(|label| placed.labels[label.0]);
        firmware.put(RES_VECTOR, &start.to_le_bytes());
        firmware.put(IRQ_VECTOR, &entry.to_le_bytes());
        Some(firmware)
    }

    fn place(&self, parts: &Parts, origin: usize) -> Option<Assembled> {
        assemble(&parts.items(), origin, self.labels)
    }

    fn parts(&mut self) -> Parts {
        let Shape {
            routines,
            length,
            islands,
            ..
        } = self.shape;
        self.labels = 0;
        self.routines.clear();
        let mut others = Vec::new();
        for _ in 0..routines {
            let (label, items) = self.function(Kind::Routine, length);
            self.routines.push(label);
            others.push(items);
        }
        self.is_straight = self.shape.is_deep && self.random.one_in(2);
        let (entry, handler) = self.function(Kind::Handler, length);
        others.push(handler);
        let (main, deepest) = self.main(length);
        self.is_straight = false;
        for _ in 0..islands {
            let island = self.island();
            others.push(island);
        }
        for i in (1..others.len()).rev() {
            others.swap(i, self.random.below(i + 1));
        }
        for items in &mut others {
            if self.shape.is_spare {
                self.spare_some(items);
            }
            items.push(self.data());
        }
        Parts {
            main,
            deepest,
            start: self.start,
            entry,
            others,
        }
    }

    fn spare_some(&mut self, items: &mut [Item]) {
        for item in items {
            if let Item::Line(line) = item {
                if self.random.one_in(12) {
                    line.spare = line.spare.max(self.random.between(1, 4));
                }
            }
        }
    }

    /// With the range of its block.
    fn main(&mut self, length: usize) -> (Vec<Item>, Range<usize>) {
        self.kind = Kind::Main;
        self.start = self.label();
        let mut items = vec![Item::Label(self.start)];
        if !self.random.one_in(4) {
            let top = self.random.edge_or_byte();
            items.push(self.line(LDX, Operand::Byte(top), 0));
            items.push(self.line(TXS, Operand::None, 0));
        }
        if !self.random.one_in(6) {
            items.push(self.line(CLI, Operand::None, 0));
        }
        let height = if self.shape.is_deep { DEEP } else { 0 };
        items.extend(self.pushes(0, height));
        let begin = items.len();
        items.extend(match self.is_straight {
            true => (0..length).map(|_| self.plain(height)).collect(),
            false => self.block(height, length),
        });
        let end = items.len();
        items.extend(self.pulls(0, height));
        items.push(self.line(JMP, Operand::To(self.start), 0));
        (items, begin..end)
    }

    /// Main's block with so many bytes more on the stack.
    fn push_deeper(&mut self, parts: &mut Parts, bytes: usize) {
        self.kind = Kind::Main;
        let Range { start, end } = parts.deepest;
        for item in &mut parts.main[start..end] {
            if let Item::Line(line) = item {
                line.height += bytes;
            }
        }
        parts.main.splice(end..end, self.pulls(DEEP, DEEP + bytes));
        let pushes = self.pushes(DEEP, DEEP + bytes);
        parts.main.splice(start..start, pushes);
    }

    fn function(&mut self, kind: Kind, length: usize) -> (Label, Vec<Item>) {
        self.kind = kind;
        let label = self.label();
        let length = self.random.between(0, length);
        let mut items = vec![Item::Label(label)];
        if self.is_straight {
            items.extend(self.pushes(0, length));
            items.extend(self.pulls(0, length));
        } else {
            items.extend(self.block(0, length));
        }
        items.extend(self.exit(0));
        (label, items)
    }

    fn island(&mut self) -> Vec<Item> {
        self.kind = self
            .random
            .pick(&[Kind::Main, Kind::Routine, Kind::Handler]);
        let height = self.random.pick(&[0, 1, 2, 100, 250, 253, 254, 255]);
        let top = self.label();
        let mut items = vec![Item::Label(top)];
        items.extend(self.block(height, 6));
        items.push(self.line(JMP, Operand::To(top), height));
        first_line(&mut items).spare = self.random.pick(&[0, 0, 3, 200, 253, 255]);
        items
    }
}

impl Parts {
    fn items(&self) -> Vec<Item> {
        let mut items = self.main.clone();
        self.others
            .iter()
            .for_each(|other| items.extend(other.clone()));
        items
    }
}

fn first_line(items: &mut [Item]) -> &mut Line {
    let mut lines = items.iter_mut().filter_map(|item| match item {
        Item::Line(line) => Some(line),
        _ => None,
    });
    lines.next().expect("a line of code")
}

fn entry_needs(placed: &Assembled, parts: &Parts) -> (usize, usize) {
    let need = |label: Label| {
        let address = placed.labels[label.0];
        let mark = placed.marks.iter().find(|mark| mark.address == address);
        usize::from(mark.expect("a marked entry").need)
    };
    (need(parts.start), need(parts.entry))
}
