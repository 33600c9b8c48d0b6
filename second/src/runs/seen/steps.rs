//! What the steps of a run show, each after those before it.

use super::{Kind, Seen};
use crate::bus::{ACCESS, BANK};
use crate::cases::LEAST_ROOM;
use crate::core::{IRQ, NMI, RES};
use crate::record::{Record, I};

/// A step that was done, with the state before it and the bytes that were left for its list.
pub struct Step<'a> {
    pub number: u64,
    pub lines: u8,
    pub pins: u8,
    pub before: Record,
    pub left: usize,
    pub list: &'a [u8],
}

/// What is kept of the steps before.
pub struct Trail {
    runs: u32,
    execution_bank: u8,
    pins: u8,
    /// Bit n where the run has an access for purpose n.
    purposes: u8,
    /// For each bank and address, the last run that wrote there.
    written: Vec<u32>,
}

impl Trail {
    pub fn new() -> Trail {
        Trail {
            runs: 0,
            execution_bank: 0,
            pins: 0,
            purposes: 0,
            written: vec![0; 16 * BANK],
        }
    }
}

/// An access's address, and its place among all banks' addresses.
fn place(access: &[u8]) -> (u16, usize) {
    let address = u16::from_le_bytes([access[0], access[1]]);
    let bank = usize::from(access[2]);
    (address, bank * BANK + usize::from(address))
}

impl Step<'_> {
    fn saw_if(&self, seen: &mut Seen, condition: bool, kind: Kind) {
        seen.saw_if(condition, self.before.part, kind);
    }

    pub fn note(&self, seen: &mut Seen) {
        let count = (self.list.len() / ACCESS) as u32;
        let wraps = self.before.cycles.checked_add(count).is_none();
        self.saw_if(seen, wraps, Kind::CountWrap);
        self.saw_if(seen, self.left == LEAST_ROOM, Kind::Left56);
        if self.number == 0 {
            seen.trail.runs += 1;
            seen.trail.purposes = 0;
        } else {
            self.note_after(seen);
        }
        self.note_purposes(seen);
        self.note_writes(seen);
        seen.trail.execution_bank = self.before.registers[0];
        seen.trail.pins = self.pins;
    }

    /// Where steps were done before this one.
    fn note_after(&self, seen: &mut Seen) {
        let [res, nmi, irq] = [RES, NMI, IRQ].map(|bit| self.lines & bit != 0);
        let edge = nmi && self.before.nmi_level == 0;
        let is_masked = self.before.p & I != 0;
        self.saw_if(seen, res, Kind::Res);
        self.saw_if(seen, res && edge, Kind::NmiLost);
        self.saw_if(seen, !res && edge, Kind::Nmi);
        self.saw_if(seen, !res && nmi && !edge, Kind::NmiHeld);
        self.saw_if(seen, !res && !edge && irq && !is_masked, Kind::Irq);
        self.saw_if(seen, !res && !edge && irq && is_masked, Kind::IrqMasked);

        let is_instruction = !res && !edge && (!irq || is_masked);
        let (_, at) = place(self.list);
        let is_written = seen.trail.written[at] == seen.trail.runs;
        self.saw_if(seen, is_instruction && is_written, Kind::Modified);
        let is_banked = seen.trail.execution_bank != self.before.registers[0];
        self.saw_if(seen, is_banked, Kind::Bank);
        let reads_port = |access: &[u8]| place(access).0 == 1 && access[4] == 0;
        let is_changed = seen.trail.pins != self.pins;
        let is_read = self.list.chunks(ACCESS).any(reads_port);
        self.saw_if(seen, is_changed && is_read, Kind::Pins);
    }

    /// The step that brings the last of them.
    fn note_purposes(&self, seen: &mut Seen) {
        let before = seen.trail.purposes;
        for access in self.list.chunks(ACCESS) {
            seen.trail.purposes |= 1 << access[5];
        }
        let are_all = seen.trail.purposes == 0xFE && before != 0xFE;
        self.saw_if(seen, are_all, Kind::Purposes);
    }

    fn note_writes(&self, seen: &mut Seen) {
        let first_protected = 256 - u16::from(self.before.protected_pages);
        for access in self.list.chunks(ACCESS).filter(|access| access[4] == 1) {
            let (address, at) = place(access);
            if address >> 8 >= first_protected {
                self.saw_if(seen, true, Kind::Protected);
            } else {
                seen.trail.written[at] = seen.trail.runs;
            }
        }
    }
}
