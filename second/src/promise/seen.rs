//! What admitted firmwares did while they were played.

use super::player::{address, is_write, Done, Event};
use crate::admission::Kind;
use crate::bus::ACCESS;
use crate::core::{IRQ, IRQ_VECTOR, RES_VECTOR};
use crate::firmware::Firmware;
use crate::opcodes::decode;
use crate::opcodes::Instruction::{Jsr, Pha, Php, Read, Rti, Rts, Store, Txs};
use crate::report::Report;

const KINDS: [&str; 24] = [
    "RES",
    "RES, bytes on the stack",
    "RES in a handler",
    "IRQ",
    "IRQ masked by I",
    "IRQ in a routine",
    "IRQ, S passes 00",
    "TXS",
    "TXS, X other than FF",
    "JSR",
    "JSR in a handler",
    "calls nested 4 deep",
    "push in a handler",
    "RTI",
    "256 bytes on the stack",
    "the same, by an instruction",
    "S passes 00 by pushes",
    "read of page 1",
    "read through a pointer",
    "write stopped by protection",
    "indexed write in page 2",
    "write in page 0",
    "instruction in an operand",
    "needs + 3 = 256",
];

pub struct Seen {
    pub runs: u64,
    pub neighbours: u64,
    pub strays: u64,
    firmwares: u64,
    overlapped: u64,
    kinds: [u64; KINDS.len()],
    opcodes: [u64; 256],
    greatest: i64,
    deepest: u64,
    full: u64,
    first_protected: usize,
    kind_at: Vec<Option<Kind>>,
    is_inner: Vec<bool>,
    calls: u64,
    is_full: bool,
    in_handler: bool,
}

impl Seen {
    pub fn new() -> Seen {
        Seen {
            runs: 0,
            neighbours: 0,
            strays: 0,
            firmwares: 0,
            overlapped: 0,
            kinds: [0; KINDS.len()],
            opcodes: [0; 256],
            greatest: 0,
            deepest: 0,
            full: 0,
            first_protected: 0,
            kind_at: Vec::new(),
            is_inner: Vec::new(),
            calls: 0,
            is_full: false,
            in_handler: false,
        }
    }

    pub fn begin(&mut self, firmware: &Firmware) {
        self.firmwares += 1;
        self.overlapped += u64::from(firmware.is_overlapped);
        self.first_protected = firmware.first_protected();
        self.kind_at = vec![None; firmware.image.len()];
        self.is_inner = vec![false; firmware.image.len()];
        let mut end = 0;
        for mark in &firmware.marks {
            let at = usize::from(mark.address);
            self.kind_at[at] = Some(mark.kind);
            self.is_inner[at] = at < end;
            let length = decode(firmware.image[at]).map_or(1, |it| it.length());
            end = at + usize::from(length);
        }
        let need = |vector| {
            let entry = firmware.word(vector);
            let mark = firmware.marks.iter().find(|mark| mark.address == entry);
            mark.map_or(0, |mark| u32::from(mark.need))
        };
        let is_filled = need(RES_VECTOR) + need(IRQ_VECTOR) == 253;
        self.kinds[23] += u64::from(is_filled);
        self.calls = 0;
        self.is_full = false;
        self.in_handler = false;
    }

    pub fn note(&mut self, lines: u8, done: &Done) {
        let pc = usize::from(done.before.pc);
        let (was, stacked) = done.stacked;
        let is_wrapped = i64::from(done.before.s) < stacked - was;
        let mut is_so = [false; KINDS.len()];
        match done.event {
            Event::Reset => {
                is_so[0] = true;
                is_so[1] = was > 0;
                is_so[2] = self.in_handler;
                self.calls = 0;
                self.in_handler = false;
            }
            Event::Irq => {
                is_so[3] = true;
                is_so[5] = self.kind_at[pc] == Some(Kind::Routine);
                is_so[6] = is_wrapped;
                self.in_handler = true;
            }
            Event::Instruction(opcode) => {
                self.opcodes[usize::from(opcode)] += 1;
                is_so[4] = lines & IRQ != 0;
                is_so[22] = self.is_inner[pc];
                match decode(opcode) {
                    Some(Txs) => {
                        is_so[7] = true;
                        is_so[8] = done.before.x != 0xFF;
                    }
                    Some(Jsr) => {
                        self.calls += 1;
                        self.deepest = self.deepest.max(self.calls);
                        is_so[9] = true;
                        is_so[10] = self.in_handler;
                        is_so[11] = self.calls >= 4;
                    }
                    Some(Rts) => self.calls -= 1,
                    Some(Pha | Php) => is_so[12] = self.in_handler,
                    Some(Rti) => {
                        is_so[13] = true;
                        self.in_handler = false;
                    }
                    _ => {}
                }
                self.note_accesses(opcode, done.list, &mut is_so);
            }
        }
        is_so[14] = stacked == 256;
        is_so[15] = stacked == 256 && matches!(done.event, Event::Instruction(_)) && was < 256;
        is_so[16] = is_wrapped;
        self.greatest = self.greatest.max(stacked);
        if stacked == 256 && !self.is_full {
            self.full += 1;
            self.is_full = true;
        }
        for (count, is_so) in self.kinds.iter_mut().zip(is_so) {
            *count += u64::from(is_so);
        }
    }

    fn note_accesses(&mut self, opcode: u8, list: &[u8], is_so: &mut [bool]) {
        let instruction = decode(opcode);
        for access in list.chunks(ACCESS) {
            let at = usize::from(address(access));
            if is_write(access) {
                let is_indexed = matches!(instruction, Some(Store(..))) && list.len() == 5 * ACCESS;
                is_so[19] |= at >= self.first_protected;
                is_so[20] |= is_indexed && at >> 8 == 2;
                is_so[21] |= at >> 8 == 0;
            } else if matches!(instruction, Some(Read(..))) {
                is_so[17] |= at >> 8 == 1;
                is_so[18] |= opcode & 0x0F == 0x01;
            }
        }
    }

    /// Prints every count; false where a needed one is zero.
    pub fn report(&self) -> bool {
        let mut report = Report::new();
        report.row("firmwares", self.firmwares);
        report.row("with instructions in operands", self.overlapped);
        report.row("runs to the end of their script", self.runs);
        report.row("bytes that neighbours wrote", self.neighbours);
        report.row("alterations that were admitted", self.strays);
        report.rows("", &KINDS, &self.kinds);
        report.row("firmwares that filled the stack", self.full);
        report.row("greatest bytes on the stack", self.greatest as u64);
        report.row("calls nested at most", self.deepest);
        let is_admissible = |opcode: &u8| {
            decode(*opcode).is_some() && !matches!(opcode, 0x00 | 0x28 | 0x6C | 0x81 | 0x91)
        };
        report.opcodes_of("done", is_admissible, &self.opcodes);
        report.is_whole()
    }
}
