//! Which answers of admission a comparison has seen, and by which damage.

use super::case::{is_store, Aim, Case};
use super::damage::{ANY, DAMAGES};
use crate::admission::RECORD;
use crate::core::{IRQ_VECTOR, RES_VECTOR};
use crate::opcodes::decode;
use crate::report::Report;

const NUMBERS: [u64; 8] = [0, 10, 11, 12, 13, 14, 15, 16];

/// One in so many maps must be admitted.
const ADMITTED_SHARE: u64 = 10;

pub struct Seen {
    numbers: [u64; NUMBERS.len()],
    damages: Vec<u64>,
    /// Two damages, for the lower number and the higher: how often the one and the other was answered.
    pairs: [[[u64; 2]; NUMBERS.len()]; NUMBERS.len()],
    admitted: [u64; 256],
    barred: [u64; 256],
    stores: [u64; 256],
    kinds: [u64; KINDS.len()],
}

const KINDS: [&str; 10] = [
    "admitted, under 10 records",
    "admitted, over 1000 records",
    "admitted, 8192 records",
    "admitted, needs + 3 = 256",
    "admitted, c = 1",
    "admitted, c = 254",
    "admitted, first byte protected",
    "admitted, instruction in operand",
    "admitted, height 255",
    "refused, index over 255",
];

impl Seen {
    pub fn new() -> Seen {
        Seen {
            numbers: [0; NUMBERS.len()],
            damages: vec![0; DAMAGES.len()],
            pairs: [[[0; 2]; NUMBERS.len()]; NUMBERS.len()],
            admitted: [0; 256],
            barred: [0; 256],
            stores: [0; 256],
            kinds: [0; KINDS.len()],
        }
    }

    pub fn note(&mut self, case: &Case, damages: &[(usize, Aim)], word: u64) {
        let (number, index) = (word & 0xFF, (word >> 16) as usize);
        self.numbers[place(number)] += 1;
        match damages {
            [(damage, _)] => {
                let aimed = DAMAGES[*damage].number;
                self.damages[*damage] += u64::from(aimed == number || aimed == ANY);
            }
            [(one, _), (other, _)] => self.note_pair(*one, *other, number),
            _ => {}
        }
        if number == 0 {
            self.note_admitted(case);
            return;
        }
        self.kinds[9] += u64::from(index > 255);
        if let Some(record) = case.map.chunks_exact(RECORD).nth(index) {
            let at = usize::from(u16::from_le_bytes([record[0], record[1]]));
            let opcode = usize::from(case.firmware.image[at]);
            self.barred[opcode] += u64::from(number == 13 && at >= case.firmware.first_protected());
            self.stores[opcode] += u64::from(number == 14);
        }
    }

    fn note_pair(&mut self, one: usize, other: usize, number: u64) {
        let [one, other] = [one, other].map(|damage| DAMAGES[damage].number);
        let (low, high) = (one.min(other), one.max(other));
        if low == 0 || high == ANY {
            return;
        }
        let counts = &mut self.pairs[place(low)][place(high)];
        counts[0] += u64::from(number == low);
        counts[1] += u64::from(number == high);
    }

    fn note_admitted(&mut self, case: &Case) {
        let firmware = &case.firmware;
        let records: Vec<&[u8]> = case.map.chunks(RECORD).collect();
        let address = |record: &[u8]| u16::from_le_bytes([record[0], record[1]]);
        for record in &records {
            let opcode = firmware.image[usize::from(address(record))];
            self.admitted[usize::from(opcode)] += 1;
        }
        let need = |vector| {
            let entry = firmware.word(vector);
            let record = records.iter().find(|record| address(record) == entry);
            record.map_or(0, |record| u32::from(record[4]))
        };
        let first = usize::from(address(records[0]));
        let is_so = [
            records.len() < 10,
            records.len() > 1000,
            records.len() == 8192,
            need(RES_VECTOR) + need(IRQ_VECTOR) == 253,
            firmware.c == 1,
            firmware.c == 254,
            first == firmware.first_protected(),
            firmware.is_overlapped,
            records.iter().any(|record| record[3] == 255),
        ];
        for (count, is_so) in self.kinds.iter_mut().zip(is_so) {
            *count += u64::from(is_so);
        }
    }

    /// Prints every count; false where a needed one is zero, or too little was admitted.
    pub fn report(&self, maps: u64) -> bool {
        let mut report = Report::new();
        for (number, count) in NUMBERS.iter().zip(self.numbers) {
            report.row(&format!("answer {}", number), count);
        }
        for (damage, &count) in DAMAGES.iter().zip(&self.damages) {
            let number = match damage.number {
                ANY => "any".to_string(),
                number => number.to_string(),
            };
            report.row(&format!("{:<3} {}", number, damage.name), count);
        }
        self.report_pairs(&mut report);
        report.rows("", &KINDS, &self.kinds);
        self.report_opcodes(&mut report);
        let enough = self.numbers[0] >= maps / ADMITTED_SHARE;
        if !enough {
            println!("fewer than one in {} admitted", ADMITTED_SHARE);
        }
        report.is_whole() && enough
    }

    fn report_pairs(&self, report: &mut Report) {
        println!("two damages, the number answered:");
        for low in 1..NUMBERS.len() {
            for high in low + 1..NUMBERS.len() {
                let [first, second] = self.pairs[low][high];
                let (low, high) = (NUMBERS[low], NUMBERS[high]);
                report.row(&format!("{} of {} and {}", low, low, high), first);
                // Of these the lower record goes first, whatever its number.
                if low >= 13 {
                    report.row(&format!("{} of {} and {}", high, low, high), second);
                }
            }
        }
    }

    fn report_opcodes(&self, report: &mut Report) {
        let is_barred = |opcode: &u8| {
            decode(*opcode).is_none() || matches!(opcode, 0x00 | 0x28 | 0x6C | 0x81 | 0x91)
        };
        let is_14 = |opcode: &u8| is_store(*opcode, false) || is_store(*opcode, true);
        report.opcodes_of("admitted", |opcode| !is_barred(opcode), &self.admitted);
        report.opcodes_of("refused by 13", is_barred, &self.barred);
        report.opcodes_of("refused by 14", is_14, &self.stores);
    }
}

fn place(number: u64) -> usize {
    let place = NUMBERS.iter().position(|&known| known == number);
    place.expect("a number of admission")
}
