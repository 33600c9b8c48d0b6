//! Purposes held to what they mean, on any core: laws of every step's list, and for each read whether the step uses its
//! value, which shows where a byte of the image is another one and the same step is done again.

use crate::bus::Purpose::{self, *};
use crate::bus::{purpose_of, ACCESS, BANK, MOST_ACCESSES};
use crate::cases::{Case, Cases, LEAST_ROOM};
use crate::compare::{hex, tell_step};
use crate::core::{IRQ, NMI, RES};
use crate::cores::Tested;
use crate::opcodes::decode;
use crate::opcodes::Instruction::Branch;
use crate::record::{pc_of, Record, I};
use crate::report::Report;

/// What a step is: the instruction of an opcode, or a reset or the entry to an interrupt.
const BRK: usize = 0x00;
const TXS: usize = 0x9A;
const RESET: usize = 256;
const INTERRUPT: usize = 257;
const STEPS: usize = 258;

const PURPOSES: [&str; 7] = ["1", "2", "3", "4", "5", "6", "7"];

/// So often must each read be tried: of another value a compare, say, may answer the same, but not time after time.
const LEAST_TRIED: u64 = 20;

/// Whether the laws of purposes hold of a step that was done: of the records before and after it, and of its list.
pub fn are_lawful(before: &Record, lines: u8, after: &[u8], list: &[u8]) -> bool {
    let accesses: Vec<&[u8]> = list.chunks(ACCESS).collect();
    let step = step_of(before, lines, list);
    let is_lawful = |(at, access): (usize, &&[u8])| {
        let (address, purpose) = (address(access), purpose_of(access));
        let behind = accesses.len() - at - 1;
        let is_fetch = at == 0 && step < RESET;
        let is_vector = behind < 2 && [BRK, RESET, INTERRUPT].contains(&step);
        let is_right = match (purpose, access[4]) {
            (Some(Opcode), 0) => address == before.pc,
            (Some(Operand), 0) => [1, 2].contains(&address.wrapping_sub(before.pc)),
            (Some(Wasted), 0) => true,
            // Behind the opcode stands an operand, or what is read there is wasted.
            (Some(Pointer | Data), 0) => at > 1,
            // The byte that was just read there is written back; what is to stay is written last.
            (Some(Wasted), 1) => at > 0 && access[..4] == accesses[at - 1][..4],
            (Some(Data), 1) => behind == 0,
            (Some(Stack), _) => address >> 8 == 1,
            (Some(Vector), 0) => address >= 0xFFFA,
            _ => false,
        };
        // An instruction's first access is its only opcode; BRK, a reset and an interrupt end with their vector.
        is_right
            && (purpose == Some(Opcode)) == is_fetch
            && (purpose == Some(Vector)) == is_vector
            && access[6..] == [0, 0]
    };
    // Each push and pull moves S by one, and so does each of a reset's stack reads; nothing else moves it but TXS.
    let is_stack = |access: &&&[u8]| purpose_of(access) == Some(Stack);
    let stacked = accesses.iter().filter(is_stack).count() as u8;
    let moved = after[4].wrapping_sub(before.s);
    let is_moved = step == TXS || moved == stacked || moved == stacked.wrapping_neg();
    is_moved && accesses.iter().enumerate().all(is_lawful)
}

/// What is known of an access: of the one at some place in those lists of a step that have one length.
#[derive(Clone, Copy, Default)]
struct Known {
    purpose: Option<Purpose>,
    is_write: bool,
    tried: u64,
    /// Another value changed something else of the step.
    is_used: bool,
    /// It changed an address, or where the step leads.
    is_followed: bool,
}

type Places = [[Known; MOST_ACCESSES]; MOST_ACCESSES + 1];

struct Trial {
    core: Tested,
    cases: Cases,
    known: Vec<Places>,
}

/// What a step answers and leaves, but the image.
struct Done {
    word: u64,
    record: [u8; 16],
    list: Vec<u8>,
}

/// True where no law is broken, and each purpose is what the trials say.
pub fn purposes(core: Tested, steps: u64, seed: u64) -> bool {
    println!("seed {}", seed);
    println!("purposes on {}, {} steps", core.name, steps);
    let mut trial = Trial {
        core,
        cases: Cases::new(seed),
        known: vec![[[Known::default(); MOST_ACCESSES]; MOST_ACCESSES + 1]; STEPS],
    };
    for number in 0..steps {
        if let Err(why) = trial.next() {
            println!("{}, at step {} of seed {}", why, number, seed);
            return false;
        }
    }
    trial.report()
}

impl Trial {
    fn next(&mut self) -> Result<(), &'static str> {
        let case = self.cases.next();
        if case.faults != 0 {
            return Ok(());
        }
        let before = Record::read(&case.record[..16]).expect("a record without a fault");
        let done = self.step(&case);
        self.cases.settle(done.word & 0xFF, &done.record);
        if done.word & 0xFF != 0 {
            return Ok(());
        }
        if !are_lawful(&before, case.lines, &done.record, &done.list) {
            self.tell(&case, &done);
            return Err("a law of purposes is broken");
        }
        let step = step_of(&before, case.lines, &done.list);
        let places = &mut self.known[step][done.list.len() / ACCESS];
        for (known, access) in places.iter_mut().zip(done.list.chunks(ACCESS)) {
            let purpose = purpose_of(access);
            if known.purpose.is_some() && known.purpose != purpose {
                self.tell(&case, &done);
                return Err("a purpose is not that of such steps before");
            }
            known.purpose = purpose;
            known.is_write = access[4] == 1;
        }
        self.try_reads(&case, step, &done);
        Ok(())
    }

    /// Gives another value to each byte that the step reads, one at a time, if the step did not write it before.
    fn try_reads(&mut self, case: &Case, step: usize, done: &Done) {
        let accesses = done.list.chunks(ACCESS);
        let cells: Vec<Option<usize>> = accesses.map(|access| cell(case, access)).collect();
        for (at, cell) in cells.iter().enumerate() {
            let cell = match cell {
                Some(cell) if !cells[..at].contains(&Some(*cell)) && is_read(done, at) => *cell,
                _ => continue,
            };
            let flip = self.cases.random.between(1, 255) as u8;
            let pair = &mut self.cases.pool[case.pair];
            pair.mine[cell] = pair.theirs[cell] ^ flip;
            let other = self.step(case);
            let pair = &mut self.cases.pool[case.pair];
            pair.mine[cell] = pair.theirs[cell];

            let is_its = |&one: &usize| is_read(done, one) && cells[one] == Some(cell);
            let reads: Vec<usize> = (at..cells.len()).filter(is_its).collect();
            let places = &mut self.known[step][cells.len()];
            reads.iter().for_each(|&read| places[read].tried += 1);
            // Of a byte that is read twice one read may be used, and nothing is known of the other.
            if reads.len() == 1 {
                places[at].is_used |= is_other(done, &other, at);
                places[at].is_followed |= leads_elsewhere(done, &other);
            }
        }
    }

    /// The step of this case, on an image that is then as it was.
    fn step(&mut self, case: &Case) -> Done {
        let pair = &mut self.cases.pool[case.pair];
        let mut record = [0; 16];
        record.copy_from_slice(&case.record[..16]);
        let mut accesses = [0; LEAST_ROOM];
        let image = &mut pair.mine[..case.image_len];
        let word = self
            .core
            .step(&mut record, image, case.lines, case.pins, &mut accesses);
        let count = match word & 0xFF {
            0 => (word >> 8) as usize,
            _ => 0,
        };
        let list = accesses[..count * ACCESS].to_vec();
        for access in list.chunks(ACCESS).filter(|access| access[4] == 1) {
            if let Some(cell) = cell(case, access) {
                pair.mine[cell] = pair.theirs[cell];
            }
        }
        Done { word, record, list }
    }

    fn tell(&self, case: &Case, done: &Done) {
        println!("record before      {}", hex(&case.record[..16]));
        println!("lines {:02X} pins {:02X}", case.lines, case.pins);
        tell_step(self.core.name, done.word, &done.record, &done.list);
    }

    /// Prints of each purpose in how many places it was met; false where the trials speak against one.
    fn report(&self) -> bool {
        let mut report = Report::new();
        let mut counts = [0; PURPOSES.len()];
        let mut is_right = true;
        for (step, lengths) in self.known.iter().enumerate() {
            for (count, places) in lengths.iter().enumerate() {
                for (at, known) in places.iter().enumerate() {
                    let purpose = match known.purpose {
                        Some(purpose) => purpose,
                        None => continue,
                    };
                    counts[purpose as usize - 1] += 1;
                    if let Err(why) = known.judge(purpose, step, count) {
                        println!("step {:02X}, access {} of {}: {}", step, at + 1, count, why);
                        is_right = false;
                    }
                }
            }
        }
        report.rows("places of purpose ", &PURPOSES, &counts);
        report.is_whole() && is_right
    }
}

impl Known {
    /// Fails with what the document says otherwise.
    fn judge(&self, purpose: Purpose, step: usize, count: usize) -> Result<(), String> {
        let is_branch = step < RESET && matches!(decode(step as u8), Some(Branch(..)));
        // "But a branch's offset is 2 and a reset's three stack reads are 6."
        let is_excepted = match purpose {
            Operand => is_branch && count == 2,
            Stack => step == RESET,
            _ => false,
        };
        let is_follower = match purpose {
            Opcode | Stack => self.is_followed,
            // An immediate value leads nowhere, nor does the offset of a branch that is not taken.
            Operand => count > 2,
            Pointer | Vector => true,
            Wasted | Data => false,
        };
        let number = purpose as u8;
        match self.tried {
            _ if self.is_write => Ok(()),
            tried if tried < LEAST_TRIED => Err(format!("tried {} times", self.tried)),
            _ if self.is_used == (purpose == Wasted || is_excepted) => match self.is_used {
                true => Err(format!("used, and its purpose is {}", number)),
                false => Err(format!("not used, and its purpose is {}", number)),
            },
            _ if self.is_followed != is_follower => match self.is_followed {
                true => Err(format!("leads elsewhere, and its purpose is {}", number)),
                false => Err(format!("leads nowhere, and its purpose is {}", number)),
            },
            _ => Ok(()),
        }
    }
}

fn step_of(before: &Record, lines: u8, list: &[u8]) -> usize {
    let is_edge = lines & NMI != 0 && before.nmi_level == 0;
    let is_asked = lines & IRQ != 0 && before.p & I == 0;
    match lines & RES {
        0 if is_edge || is_asked => INTERRUPT,
        0 => usize::from(list[3]),
        _ => RESET,
    }
}

fn address(access: &[u8]) -> u16 {
    u16::from_le_bytes([access[0], access[1]])
}

fn is_read(done: &Done, at: usize) -> bool {
    done.list[at * ACCESS + 4] == 0
}

/// The image byte that an access reached; none for a register.
fn cell(case: &Case, access: &[u8]) -> Option<usize> {
    let bank = usize::from(access[2]) % (case.image_len / BANK);
    match (case.record[0], address(access)) {
        (8 | 9, 0x0000 | 0x0001) => None,
        (8, address @ 0x0100..=0x01FF) => Some(usize::from(address - 0x0100)),
        (_, address) => Some(bank * BANK + usize::from(address)),
    }
}

/// Whether anything differs but the value of this read.
fn is_other(done: &Done, other: &Done, read: usize) -> bool {
    let value = read * ACCESS + 3;
    let mut bytes = done.list.iter().zip(&other.list).enumerate();
    done.word != other.word
        || done.record != other.record
        || bytes.any(|(at, (one, two))| at != value && one != two)
}

/// Whether the accesses are at other addresses, or the next step is.
fn leads_elsewhere(done: &Done, other: &Done) -> bool {
    let accesses = done.list.chunks(ACCESS).zip(other.list.chunks(ACCESS));
    done.word != other.word
        || pc_of(&done.record) != pc_of(&other.record)
        || accesses.into_iter().any(|(one, two)| one[..2] != two[..2])
}
