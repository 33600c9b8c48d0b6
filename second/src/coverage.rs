//! Which kinds of steps a comparison has seen, told by the inputs and the second program's answer.

mod kinds;

use crate::cases::{
    defined_opcodes, Case, Fault, IMAGE_FAULTS, INPUT_FAULTS, LONGEST_RECORD, RECORD_FAULTS,
};
use crate::record::Record;
use crate::report::{part_index, Report};
use kinds::{Kind, KINDS};

/// A wrong length hides the record, so 1 goes with neither 2 nor 6.
const FAULT_PAIRS: [(u8, u8); 13] = [
    (1, 3),
    (1, 4),
    (1, 5),
    (2, 3),
    (2, 4),
    (2, 5),
    (2, 6),
    (3, 4),
    (3, 5),
    (3, 6),
    (4, 5),
    (4, 6),
    (5, 6),
];

pub struct Coverage {
    is_defined: [bool; 256],
    numbers: [u64; 7],
    opcodes: [[u64; 256]; 3],
    kinds: Vec<[u64; 3]>,
    record_lengths: [u64; LONGEST_RECORD + 1],
    record_faults: [u64; RECORD_FAULTS.len()],
    image_faults: [u64; IMAGE_FAULTS.len()],
    input_faults: [u64; INPUT_FAULTS.len()],
    rooms: [u64; 65],
    long_rooms: u64,
    fault_pairs: [u64; FAULT_PAIRS.len()],
}

impl Coverage {
    pub fn new() -> Coverage {
        Coverage {
            is_defined: defined_opcodes(),
            numbers: [0; 7],
            opcodes: [[0; 256]; 3],
            kinds: vec![[0; 3]; KINDS.len()],
            record_lengths: [0; LONGEST_RECORD + 1],
            record_faults: [0; RECORD_FAULTS.len()],
            image_faults: [0; IMAGE_FAULTS.len()],
            input_faults: [0; INPUT_FAULTS.len()],
            rooms: [0; 65],
            long_rooms: 0,
            fault_pairs: [0; FAULT_PAIRS.len()],
        }
    }

    /// `record` and `accesses` are as the step left them.
    pub fn note(&mut self, case: &Case, word: u64, record: &[u8], accesses: &[u8]) {
        let number = (word & 0xFF) as usize;
        self.numbers[number] += 1;
        if case.faults != 0 {
            self.note_faults(case);
        }
        let before = match Record::read(&case.record[..case.record_len]) {
            Ok(before) => before,
            Err(_) => return,
        };
        let part = part_index(before.part);
        if number == 6 {
            self.opcodes[part][usize::from((word >> 8) as u8)] += 1;
            self.kinds[Kind::MaskedUndefined as usize][part] += u64::from(case.lines != 0);
        }
        if number != 0 {
            return;
        }
        match case.room {
            room @ 0..=64 => self.rooms[room] += 1,
            _ => self.long_rooms += 1,
        }
        if let Ok(after) = Record::read(record) {
            let count = (word >> 8) as usize;
            kinds::note(self, case, before, after, accesses, count);
        }
    }

    fn note_faults(&mut self, case: &Case) {
        match case.only_fault {
            Some(Fault::RecordLength(length)) => self.record_lengths[length] += 1,
            Some(Fault::Record(fault)) => self.record_faults[fault] += 1,
            Some(Fault::Image(fault)) => self.image_faults[fault] += 1,
            Some(Fault::Inputs(fault)) => self.input_faults[fault] += 1,
            Some(Fault::Room(room)) => self.rooms[room] += 1,
            None => {}
        }
        for (count, (low, high)) in self.fault_pairs.iter_mut().zip(FAULT_PAIRS) {
            let both = 1 << low | 1 << high;
            // Nothing lower than the pair, so that it is the pair's order that shows.
            if case.faults & both == both && case.faults.trailing_zeros() == u32::from(low) {
                *count += 1;
            }
        }
    }

    /// Prints every count; false where a needed one is zero.
    pub fn report(&self) -> bool {
        let mut report = Report::new();
        println!("answered {}", self.numbers[0]);
        for (number, count) in self.numbers.iter().enumerate().skip(1) {
            report.row(&format!("refusal {}", number), *count);
        }
        report.opcodes(&self.opcodes);
        report.kinds(KINDS, &self.kinds);

        println!("one fault alone:");
        report.record_lengths(&self.record_lengths);
        report.rarest("room, 0 to 64", &self.rooms);
        report.row("room over 64", self.long_rooms);
        report.rows("record: ", &RECORD_FAULTS, &self.record_faults);
        report.rows("image: ", &IMAGE_FAULTS, &self.image_faults);
        report.rows("inputs: ", &INPUT_FAULTS, &self.input_faults);
        println!("several faults, the lowest two:");
        for ((low, high), count) in FAULT_PAIRS.iter().zip(self.fault_pairs) {
            report.row(&format!("{} before {}", low, high), count);
        }

        report.is_whole()
    }
}
