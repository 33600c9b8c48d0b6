//! Which kinds of runs a comparison has seen.

mod steps;

pub use steps::Step;

use super::draw::Drawn;
use crate::bus::{Bus, Purpose, ACCESS, BANK};
use crate::cases::{
    defined_opcodes, Fault, IMAGE_FAULTS, LEAST_ROOM, LONGEST_RECORD, RECORD_FAULTS,
};
use crate::core::{inputs_fit, NMI};
use crate::record::{Part, Record};
use crate::report::{kinds, part_index, Report};
use crate::run::Ran;
use steps::Trail;

kinds! {
    Played "289" "played to the end",
    PlayedLong "289" "the same, over 200 steps",
    PlayedShort "289" "the same, room for no more steps",
    Empty "289" "empty script",
    EmptyNoRoom "289" "empty script, room under 56",
    Refused3 "289" "refusal 3 before anything",
    Refused7 "289" "refusal 7 before anything",
    Order74 "289" "7 before 4",
    Order75 "289" "7 before 5",
    First4 "289" "refusal 4 in the first step",
    First5 "289" "refusal 5 in the first step",
    First6 "289" "refusal 6 in the first step",
    Later4 "289" "refusal 4 after steps done",
    Later5 "289" "refusal 5 after steps done",
    Later6 "289" "refusal 6 after steps done",
    Late4 "289" "refusal 4 after over 50 steps",
    Late5 "289" "refusal 5 after over 50 steps",
    Late6 "289" "refusal 6 after over 50 steps",
    LastStep "289" "refusal in the last step",
    LaterLines "289" "4 after steps done: lines",
    LaterNmi "8" "4 after steps done: NMI",
    LaterPins "29" "4 after steps done: pins",
    Order45 "289" "4 before 5 after steps done",
    Order46 "289" "4 before 6 after steps done",
    Order56 "289" "5 before 6 after steps done",
    Left55 "289" "refusal 5, 55 bytes left",
    Left56 "289" "a step done, 56 bytes left",
    Res "289" "RES after steps done",
    Nmi "29" "NMI after steps done",
    NmiHeld "29" "NMI held since the step before",
    NmiLost "29" "NMI edge lost under RES",
    Irq "289" "IRQ after steps done",
    IrqMasked "289" "IRQ masked by I",
    Pins "8" "port read, pins changed",
    Bank "9" "execution bank changed",
    Modified "289" "opcode that the run wrote",
    Protected "28" "protected write",
    CountWrap "289" "cycle count past 2^32",
    Purposes "289" "accesses for all seven purposes",
    Banks1 "9" "k = 1",
    Banks2 "9" "k = 2",
    Banks4 "9" "k = 4",
    Banks8 "9" "k = 8",
    Banks16 "9" "k = 16",
}

/// A wrong length hides the record, so 1 does not go with 2.
const FAULT_PAIRS: [(u8, u8); 5] = [(1, 3), (1, 7), (2, 3), (2, 7), (3, 7)];

const REFUSED: [u8; 4] = [1, 2, 3, 7];

pub struct Seen {
    is_defined: [bool; 256],
    steps: u64,
    kinds: Vec<[u64; 3]>,
    refused: [u64; REFUSED.len()],
    refused_empty: [u64; REFUSED.len()],
    record_lengths: [u64; LONGEST_RECORD + 1],
    record_faults: [u64; RECORD_FAULTS.len()],
    image_faults: [u64; IMAGE_FAULTS.len()],
    fault_pairs: [u64; FAULT_PAIRS.len()],
    one_byte: u64,
    trail: Trail,
}

impl Seen {
    pub fn new() -> Seen {
        Seen {
            is_defined: defined_opcodes(),
            steps: 0,
            kinds: vec![[0; 3]; KINDS.len()],
            refused: [0; REFUSED.len()],
            refused_empty: [0; REFUSED.len()],
            record_lengths: [0; LONGEST_RECORD + 1],
            record_faults: [0; RECORD_FAULTS.len()],
            image_faults: [0; IMAGE_FAULTS.len()],
            fault_pairs: [0; FAULT_PAIRS.len()],
            one_byte: 0,
            trail: Trail::new(),
        }
    }

    fn saw_if(&mut self, condition: bool, part: Part, kind: Kind) {
        self.kinds[kind as usize][part_index(part)] += u64::from(condition);
    }

    /// A run that was refused before anything.
    pub fn note_refused(&mut self, drawn: &Drawn) {
        let lowest = drawn.faults.trailing_zeros() as u8;
        for (i, number) in REFUSED.iter().enumerate() {
            self.refused[i] += u64::from(*number == lowest);
            self.refused_empty[i] += u64::from(*number == lowest && drawn.script.is_empty());
        }
        match drawn.only_fault {
            Some(Fault::RecordLength(length)) => self.record_lengths[length] += 1,
            Some(Fault::Record(fault)) => self.record_faults[fault] += 1,
            Some(Fault::Image(fault)) => self.image_faults[fault] += 1,
            _ => {}
        }
        for (count, (low, high)) in self.fault_pairs.iter_mut().zip(FAULT_PAIRS) {
            *count += u64::from(lowest == low && drawn.faults & 1 << high != 0);
        }
        if let Ok(record) = Record::read(&drawn.record[..drawn.record_len]) {
            self.note_refused_record(drawn, record.part, lowest);
        }
    }

    fn note_refused_record(&mut self, drawn: &Drawn, part: Part, lowest: u8) {
        self.saw_if(lowest == 3, part, Kind::Refused3);
        if lowest == 7 {
            self.saw_if(true, part, Kind::Refused7);
            self.one_byte += u64::from(drawn.script.len() == 1);
            if let [lines, pins, ..] = drawn.script[..] {
                self.saw_if(!inputs_fit(part, lines, pins), part, Kind::Order74);
                self.saw_if(drawn.room < LEAST_ROOM, part, Kind::Order75);
            }
        }
    }

    /// The end of any other run, with the record and the image as it left them.
    pub fn note_end(&mut self, drawn: &Drawn, ran: Ran, record: &[u8], image: &mut [u8]) {
        let record = Record::read(record).expect("a record that a run left");
        let left = drawn.room - ran.listed as usize * ACCESS;
        self.steps += ran.steps;
        self.note_banks(record.part, drawn.image_len / BANK, ran.steps);
        if ran.word != 0 {
            self.note_stop(drawn, ran, record, left, image);
            return;
        }
        let mut saw = |condition, kind| self.saw_if(condition, record.part, kind);
        let has_room = left >= LEAST_ROOM;
        if drawn.script.is_empty() {
            saw(true, Kind::Empty);
            saw(!has_room, Kind::EmptyNoRoom);
        } else {
            saw(true, Kind::Played);
            saw(ran.steps > 200, Kind::PlayedLong);
            saw(!has_room, Kind::PlayedShort);
        }
    }

    fn note_banks(&mut self, part: Part, banks: usize, steps: u64) {
        let kind = match banks {
            1 => Kind::Banks1,
            2 => Kind::Banks2,
            4 => Kind::Banks4,
            8 => Kind::Banks8,
            _ => Kind::Banks16,
        };
        self.saw_if(steps > 0, part, kind);
    }

    /// The run ended by a step's refusal.
    fn note_stop(
        &mut self,
        drawn: &Drawn,
        ran: Ran,
        record: Record,
        left: usize,
        image: &mut [u8],
    ) {
        let part = record.part;
        let number = ran.word & 0xFF;
        let (first, later, late) = match number {
            4 => (Kind::First4, Kind::Later4, Kind::Late4),
            5 => (Kind::First5, Kind::Later5, Kind::Late5),
            _ => (Kind::First6, Kind::Later6, Kind::Late6),
        };
        self.saw_if(ran.steps == 0, part, first);
        self.saw_if(ran.steps > 0, part, later);
        self.saw_if(ran.steps > 50, part, late);
        self.saw_if(number == 5 && left == 55, part, Kind::Left55);
        if ran.steps == 0 {
            return;
        }
        let at = 2 * ran.steps as usize;
        let (lines, pins) = (drawn.script[at], drawn.script[at + 1]);
        self.saw_if(at + 2 == drawn.script.len(), part, Kind::LastStep);
        if number == 4 {
            self.saw_if(lines > 7, part, Kind::LaterLines);
            self.saw_if(lines & NMI != 0, part, Kind::LaterNmi);
            self.saw_if(pins != 0, part, Kind::LaterPins);
        }
        // The opcode at PC, where no line would take the processor away from it.
        let opcode = Bus::new(&record, pins, image).read(Purpose::Opcode, record.pc);
        let is_undefined = lines & 7 == 0 && !self.is_defined[usize::from(opcode)];
        let is_short = left < LEAST_ROOM;
        self.saw_if(number == 4 && is_short, part, Kind::Order45);
        self.saw_if(number == 4 && is_undefined, part, Kind::Order46);
        self.saw_if(number == 5 && is_undefined, part, Kind::Order56);
    }

    /// Prints every count; false where a needed one is zero.
    pub fn report(&self) -> bool {
        let mut report = Report::new();
        println!("{} steps done", self.steps);
        report.parts();
        report.kinds(KINDS, &self.kinds);
        for (i, number) in REFUSED.iter().enumerate() {
            let text = format!("refusal {} before anything", number);
            report.row(&text, self.refused[i]);
        }
        report.row("7, script of one byte", self.one_byte);
        for (i, number) in REFUSED[..3].iter().enumerate() {
            let text = format!("{}, empty script", number);
            report.row(&text, self.refused_empty[i]);
        }
        println!("one fault alone:");
        report.record_lengths(&self.record_lengths);
        report.rows("record: ", &RECORD_FAULTS, &self.record_faults);
        report.rows("image: ", &IMAGE_FAULTS, &self.image_faults);
        println!("several faults, the lowest two:");
        for ((low, high), count) in FAULT_PAIRS.iter().zip(self.fault_pairs) {
            report.row(&format!("{} before {}", low, high), count);
        }
        report.is_whole()
    }
}
