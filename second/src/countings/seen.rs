//! Which kinds of lists and counts a comparison has seen.

use super::draw::Fault;
use super::lent::Tables;
use super::EMPTY;
use crate::bus::ACCESS;
use crate::cases::MOST_SHIFT;
use crate::pages::{Counts, PAGES};
use crate::report::{kinds, Report};

kinds! {
    Run "289" "list of a run",
    Long "289" "the same, over 1,000 records",
    Empty "289" "the same, empty",
    Written "289" "with a write",
    Stack "289" "with an access to page 1",
    Last "289" "with an access to page FF",
    Register "89" "with an access to a register",
    Banks "9" "of several banks",
    Purposes "289" "for all seven purposes",
}

/// What the counts were before a list.
#[derive(Clone, Copy)]
pub enum Start {
    Zero,
    Any,
    Near32,
    /// All together were short of 2^64 - 1 by the list, and by so many records more.
    Full(usize),
}

const STARTS: [&str; 4] = [
    "from zero",
    "from any counts",
    "from near 2^32",
    "to 2^64 - 1 in all",
];
const EMPTIES: [&str; EMPTY.len()] = ["0", "1", "the last address"];
const NUMBERS: [u64; 4] = [0, 20, 21, 22];
const SEVERAL: [&str; 4] = [
    "20 before 21",
    "20 before 22",
    "21 before 22",
    "20 before 21 and 22",
];
const BYTES_LEFT: [&str; ACCESS - 1] = ["1", "2", "3", "4", "5", "6", "7"];
const BAD_BYTES: [&str; 4] = ["4 above 1", "5 above 7", "6", "7"];
/// What byte 5 of a record that is counted may be: 0, and the purposes.
const PURPOSES: usize = 8;
/// Lists that are cut at 13 places or more are taken together.
const MANY: usize = 14;

pub struct Seen {
    runs: Vec<[u64; 3]>,
    /// Lists of random records, and of mere bytes.
    pub random: u64,
    pub bytes: u64,
    pieces: [u64; MANY],
    empty_piece: u64,
    refused_piece: u64,
    starts: [u64; STARTS.len()],
    past_32_bits: u64,
    long: u64,
    reads: Counts,
    writes: Counts,
    purposes: [u64; PURPOSES],
    shifts: [u64; MOST_SHIFT + 1],
    empties: [u64; EMPTY.len()],
    numbers: [u64; NUMBERS.len()],
    cuts: [u64; BYTES_LEFT.len()],
    bad_bytes: [u64; BAD_BYTES.len()],
    past_purposes: u64,
    full: u64,
    several: [u64; SEVERAL.len()],
}

impl Seen {
    pub fn new() -> Seen {
        Seen {
            runs: vec![[0; 3]; KINDS.len()],
            random: 0,
            bytes: 0,
            pieces: [0; MANY],
            empty_piece: 0,
            refused_piece: 0,
            starts: [0; STARTS.len()],
            past_32_bits: 0,
            long: 0,
            reads: [0; PAGES],
            writes: [0; PAGES],
            purposes: [0; PURPOSES],
            shifts: [0; MOST_SHIFT + 1],
            empties: [0; EMPTY.len()],
            numbers: [0; NUMBERS.len()],
            cuts: [0; BYTES_LEFT.len()],
            bad_bytes: [0; BAD_BYTES.len()],
            past_purposes: 0,
            full: 0,
            several: [0; SEVERAL.len()],
        }
    }

    /// The list of a run of this part.
    pub fn note_run(&mut self, part: usize, list: &[u8]) {
        let has = |is_so: fn(&[u8]) -> bool| list.chunks(ACCESS).any(is_so);
        let banks = list.chunks(ACCESS).map(|record| record[2]);
        let is_for = |purpose| list.chunks(ACCESS).any(|record| record[5] == purpose);
        let kinds = [
            (Kind::Run, true),
            (Kind::Long, list.len() > 1000 * ACCESS),
            (Kind::Empty, list.is_empty()),
            (Kind::Written, has(|record| record[4] == 1)),
            (Kind::Stack, has(|record| record[1] == 0x01)),
            (Kind::Last, has(|record| record[1] == 0xFF)),
            (
                Kind::Register,
                has(|record| record[0] < 2 && record[1] == 0),
            ),
            (Kind::Banks, banks.clone().min() != banks.max()),
            (Kind::Purposes, (1..=7).all(is_for)),
        ];
        for (kind, is_so) in kinds {
            self.runs[kind as usize][part] += u64::from(is_so);
        }
    }

    /// One call, and the word that both answered.
    pub fn note_fed(&mut self, word: u64, list: &[u8], shift: usize, empty: usize) {
        let number = NUMBERS.iter().position(|&number| number == word);
        self.numbers[number.expect("one of the words")] += 1;
        match list.len() {
            0 => self.empties[empty] += 1,
            _ => self.shifts[shift] += 1,
        }
        self.long += u64::from(list.len() > 65_536 * ACCESS);
        if word != 0 {
            return;
        }
        for record in list.chunks(ACCESS) {
            match record[4] {
                0 => self.reads[usize::from(record[1])] += 1,
                _ => self.writes[usize::from(record[1])] += 1,
            }
            self.purposes[usize::from(record[5])] += 1;
        }
    }

    /// Where the pieces of a list end, but the last.
    pub fn note_pieces(&mut self, ends: &[usize]) {
        self.pieces[ends.len().min(MANY - 1)] += 1;
        self.empty_piece += u64::from(ends.windows(2).any(|two| two[0] == two[1]));
    }

    pub fn note_refused_piece(&mut self) {
        self.refused_piece += 1;
    }

    pub fn note_start(&mut self, start: Start) {
        let kind = match start {
            Start::Zero => 0,
            Start::Any => 1,
            Start::Near32 => 2,
            Start::Full(_) => 3,
        };
        self.starts[kind] += 1;
    }

    pub fn note_growth(&mut self, before: &Tables, after: &Tables) {
        let passes = |(before, after): (u64, u64)| before >> 32 == 0 && after >> 32 == 1;
        self.past_32_bits += u64::from(before.counts().zip(after.counts()).any(passes));
    }

    /// All that a list and the counts before it are refused for.
    pub fn note_faults(&mut self, faults: &[Fault]) {
        match faults {
            [Fault::Cut(left)] => self.cuts[left - 1] += 1,
            [Fault::Record(byte, value)] => {
                self.bad_bytes[byte - 4] += 1;
                self.past_purposes += u64::from((*byte, *value) == (5, 8));
            }
            [Fault::Total] => self.full += 1,
            [Fault::Cut(_), Fault::Record(..)] => self.several[0] += 1,
            [Fault::Cut(_), Fault::Total] => self.several[1] += 1,
            [Fault::Record(..), Fault::Total] => self.several[2] += 1,
            _ => self.several[3] += 1,
        }
    }

    /// Prints every count; false where a needed one is zero.
    pub fn report(&self) -> bool {
        let mut report = Report::new();
        for (number, count) in NUMBERS.iter().zip(self.numbers) {
            match number {
                0 => report.row("counted", count),
                _ => report.row(&format!("refusal {}", number), count),
            }
        }
        report.parts();
        report.kinds(KINDS, &self.runs);
        report.row("list of random records", self.random);
        report.row("mere bytes", self.bytes);
        report.row("list of over 65,536 records", self.long);
        report.rarest("reads, page 0 to 255", &self.reads);
        report.rarest("writes, page 0 to 255", &self.writes);
        report.rarest("counted, byte 5 from 0 to 7", &self.purposes);
        report.rarest("list shifted by 0 to 7 bytes", &self.shifts);
        report.rows("empty list at ", &EMPTIES, &self.empties);
        report.rarest("cut at 0 to 13 places or more", &self.pieces);
        report.row("with an empty piece", self.empty_piece);
        report.row("with a refused piece between", self.refused_piece);
        report.rows("in pieces, ", &STARTS, &self.starts);
        report.row("a count past 2^32", self.past_32_bits);

        println!("one fault alone:");
        report.rows("20: bytes left ", &BYTES_LEFT, &self.cuts);
        report.rows("21: byte ", &BAD_BYTES, &self.bad_bytes);
        report.row("21: byte 5 is 8", self.past_purposes);
        report.row("22", self.full);
        println!("several faults:");
        report.rows("", &SEVERAL, &self.several);
        report.is_whole()
    }
}
