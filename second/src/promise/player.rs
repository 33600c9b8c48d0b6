//! A firmware that is played step by step, with every clause of demand 3 asked at each step.

use crate::bus::{ACCESS, BANK, MOST_ACCESSES};
use crate::core::{IRQ, RES};
use crate::cores::Tested;
use crate::firmware::Firmware;
use crate::opcodes::decode;
use crate::opcodes::Instruction::{Jsr, Pha, Php, Pla, Rti, Rts, Txs};
use crate::record::{Record, I};

/// What may be broken.
#[derive(Clone, Copy, Debug, PartialEq, Eq)]
pub enum Clause {
    NeverRefuses,
    RunsWhatIsMarked,
    WritesTheStackByPushes,
    AtLeast0,
    AtMost256,
}

#[derive(Clone, Copy, PartialEq, Eq)]
pub enum Event {
    Reset,
    Irq,
    Instruction(u8),
}

/// A step that kept every clause.
pub struct Done<'a> {
    pub event: Event,
    pub before: Record,
    /// The bytes on the stack, before the step and after it.
    pub stacked: (i64, i64),
    pub list: &'a [u8],
}

#[derive(Clone)]
pub struct Player {
    core: Tested,
    pub record: [u8; 16],
    pub image: Vec<u8>,
    is_marked: Vec<bool>,
    stacked: i64,
    accesses: [u8; MOST_ACCESSES * ACCESS],
}

impl Player {
    /// The record is any of a 6502 with the firmware's protected pages; the first step is to be a reset.
    pub fn new(core: Tested, firmware: &Firmware, mut record: [u8; 16]) -> Player {
        record[11] = firmware.c;
        let mut is_marked = vec![false; BANK];
        for mark in &firmware.marks {
            is_marked[usize::from(mark.address)] = true;
        }
        Player {
            core,
            record,
            image: firmware.image.clone(),
            is_marked,
            stacked: 0,
            accesses: [0; MOST_ACCESSES * ACCESS],
        }
    }

    pub fn step(&mut self, lines: u8) -> Result<Done<'_>, Clause> {
        let before = Record::read(&self.record).map_err(|_| Clause::NeverRefuses)?;
        let accesses = &mut self.accesses;
        let word = self
            .core
            .step(&mut self.record, &mut self.image, lines, 0, accesses);
        if word & 0xFF != 0 {
            return Err(Clause::NeverRefuses);
        }
        let list = &self.accesses[..(word >> 8) as usize * ACCESS];
        let event = if lines & RES != 0 {
            Event::Reset
        } else if lines & IRQ != 0 && before.p & I == 0 {
            Event::Irq
        } else {
            Event::Instruction(list[3])
        };
        if matches!(event, Event::Instruction(_)) {
            let fetched = address(list);
            if fetched != before.pc || !self.is_marked[usize::from(fetched)] {
                return Err(Clause::RunsWhatIsMarked);
            }
        }
        if !stack_writes(list).eq(pushes_at(before.s, pushes(event))) {
            return Err(Clause::WritesTheStackByPushes);
        }
        let was = self.stacked;
        self.stacked = match event {
            _ if clears(event) => 0,
            _ => was + pushes(event) as i64 - pulls(event),
        };
        if self.stacked < 0 {
            return Err(Clause::AtLeast0);
        }
        if self.stacked > 256 {
            return Err(Clause::AtMost256);
        }
        Ok(Done {
            event,
            before,
            stacked: (was, self.stacked),
            list,
        })
    }
}

pub fn address(access: &[u8]) -> u16 {
    u16::from_le_bytes([access[0], access[1]])
}

pub fn is_write(access: &[u8]) -> bool {
    access[4] == 1
}

/// The addresses in page 1 that a step's list shows written, in their order.
fn stack_writes(list: &[u8]) -> impl Iterator<Item = u16> + '_ {
    let writes = list.chunks(ACCESS).filter(|access| is_write(access));
    let addresses = writes.map(address);
    addresses.filter(|address| address >> 8 == 1)
}

fn pushes_at(s: u8, count: u8) -> impl Iterator<Item = u16> {
    (0..count).map(move |n| 0x0100 | u16::from(s.wrapping_sub(n)))
}

/// "One more for each byte that PHA, PHP, JSR or an IRQ pushes; these pushes are the only ones meant."
fn pushes(event: Event) -> u8 {
    match event {
        Event::Reset => 0,
        Event::Irq => 3,
        Event::Instruction(opcode) => match decode(opcode) {
            Some(Pha | Php) => 1,
            Some(Jsr) => 2,
            _ => 0,
        },
    }
}

/// "One less for each that PLA, RTS or RTI pulls."
fn pulls(event: Event) -> i64 {
    match event {
        Event::Instruction(opcode) => match decode(opcode) {
            Some(Pla) => 1,
            Some(Rts) => 2,
            Some(Rti) => 3,
            _ => 0,
        },
        _ => 0,
    }
}

/// "0 after a reset or TXS."
fn clears(event: Event) -> bool {
    match event {
        Event::Reset => true,
        Event::Irq => false,
        Event::Instruction(opcode) => matches!(decode(opcode), Some(Txs)),
    }
}
