//! Damaged inputs: each refusal from 1 to 5 by every way that leads to it, alone or with others.

use super::{malform, Case, Cases, Pair, GUARD, LEAST_ROOM, LONGEST_RECORD, POOL};
use crate::bus::BANK;
use crate::random::Random;

/// Which input is at fault, where only one is; the numbers index the names below.
#[derive(Clone, Copy)]
pub enum Fault {
    RecordLength(usize),
    Record(usize),
    Image(usize),
    Inputs(usize),
    Room(usize),
}

pub const IMAGE_FAULTS: [&str; 16] = [
    "empty",
    "65535",
    "65537",
    "6502 2 banks",
    "6502 16 banks",
    "6508 2 banks",
    "6508 16 banks",
    "6509 3 banks",
    "6509 5 to 7 banks",
    "6509 9 to 15 banks",
    "6509 17 banks",
    "6509 banks less a byte",
    "6509 banks and a byte",
    "1 to 65534",
    "65538 to 131071",
    "6509 32 banks",
];

pub const INPUT_FAULTS: [&str; 8] = [
    "line bit 3",
    "line bit 4",
    "line bit 5",
    "line bit 6",
    "line bit 7",
    "NMI on 6508",
    "pins on 6502",
    "pins on 6509",
];

impl Cases {
    pub(super) fn damage(&mut self, case: &mut Case) {
        if self.random.one_in(3) {
            let pc = self.pc();
            if self.cell(pc).is_some() {
                let opcode = self.random.pick(&self.undefined);
                self.poke(pc, opcode);
                case.lines = 0;
                case.faults |= 1 << 6;
            }
        }
        let is_alone = case.faults == 0 && self.random.one_in(2);
        let most = if is_alone { 1 } else { 3 };
        for _ in 0..self.random.between(1, most) {
            let (number, fault) = match self.random.below(5) {
                0 => (1, self.damage_record_length(case)),
                1 => (2, self.damage_record(case)),
                2 => (3, self.damage_image(case)),
                3 => (4, self.damage_inputs(case)),
                _ => (5, self.damage_room(case)),
            };
            case.faults |= 1 << number;
            case.only_fault = is_alone.then_some(fault);
        }
    }

    fn damage_record_length(&mut self, case: &mut Case) -> Fault {
        while case.record_len == 16 {
            case.record_len = self.random.between(0, LONGEST_RECORD);
        }
        Fault::RecordLength(case.record_len)
    }

    fn damage_record(&mut self, case: &mut Case) -> Fault {
        Fault::Record(malform(&mut self.random, self.record[0], &mut case.record))
    }

    fn damage_image(&mut self, case: &mut Case) -> Fault {
        let (fault, length) = wrong_image_length(&mut self.random, self.record[0]);
        case.image_len = length;
        if case.image_len > self.pool[case.pair].banks * BANK + GUARD {
            let needed = |pair: &Pair| case.image_len <= pair.banks * BANK + GUARD;
            case.pair = self.pool.iter().position(needed).unwrap_or(POOL.len() - 1);
            // The opcode planted at PC lies in another image.
            case.faults &= !(1 << 6);
        }
        Fault::Image(fault)
    }

    fn damage_inputs(&mut self, case: &mut Case) -> Fault {
        let inputs = (&mut case.lines, &mut case.pins);
        Fault::Inputs(spoil_inputs(&mut self.random, self.record[0], inputs))
    }

    fn damage_room(&mut self, case: &mut Case) -> Fault {
        case.room = match self.random.below(4) {
            0 => LEAST_ROOM - 1,
            _ => self.random.below(LEAST_ROOM),
        };
        Fault::Room(case.room)
    }
}

/// Which of the names it is, and the length.
pub fn wrong_image_length(random: &mut Random, part: u8) -> (usize, usize) {
    let own: &[usize] = match part {
        2 => &[3, 3, 3, 4],
        8 => &[5, 5, 5, 6],
        _ => &[7, 7, 7, 8, 9, 10, 11, 12, 15],
    };
    let fault = match random.below(10) {
        n @ 0..=2 => n,
        n @ 3..=4 => n + 10,
        _ => random.pick(own),
    };
    let length = match fault {
        0 => 0,
        1 => BANK - 1,
        2 => BANK + 1,
        3 | 5 => 2 * BANK,
        4 | 6 => 16 * BANK,
        7 => 3 * BANK,
        8 => random.between(5, 7) * BANK,
        9 => random.between(9, 15) * BANK,
        10 => 17 * BANK,
        11 => random.pick(&[2, 2, 4, 8, 16]) * BANK - 1,
        12 => random.pick(&[2, 2, 4, 8, 16]) * BANK + 1,
        13 => random.between(1, BANK - 2),
        14 => random.between(BANK + 2, 2 * BANK - 1),
        _ => 32 * BANK,
    };
    (fault, length)
}

/// Which of the names it is.
pub fn spoil_inputs(random: &mut Random, part: u8, (lines, pins): (&mut u8, &mut u8)) -> usize {
    let fault = match random.below(8) {
        n @ 0..=4 => n,
        _ => match part {
            8 => 5,
            2 => 6,
            _ => 7,
        },
    };
    match fault {
        0..=4 => *lines |= 8 << fault,
        5 => *lines |= 2,
        _ => *pins = random.between(1, 255) as u8,
    }
    fault
}
