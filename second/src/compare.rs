//! Random steps on the second program and on a core, byte against byte.

use crate::bus::{ACCESS, BANK};
use crate::cases::{Case, Cases, GUARD, LONGEST_RECORD, LONGEST_ROOM, MOST_SHIFT};
use crate::core::step;
use crate::cores::Tested;
use crate::coverage::Coverage;
use crate::purposes::are_lawful;
use crate::record::Record;

/// What is lent besides the image, with room around it that must not change.
struct Lent {
    record: [u8; MOST_SHIFT + LONGEST_RECORD + GUARD],
    accesses: Vec<u8>,
}

impl Lent {
    fn new() -> Lent {
        Lent {
            record: [0; MOST_SHIFT + LONGEST_RECORD + GUARD],
            accesses: vec![0; MOST_SHIFT + LONGEST_ROOM + GUARD],
        }
    }
}

struct Comparison {
    core: Tested,
    cases: Cases,
    mine: Lent,
    theirs: Lent,
}

/// Where in their buffers the two slices of a step lie.
struct Places {
    record: usize,
    accesses: usize,
}

/// True where no step differed and no needed kind was missing.
pub fn compare(core: Tested, steps: u64, seed: u64) -> bool {
    println!("seed {}", seed);
    println!("second program against {}, {} steps", core.name, steps);
    let mut coverage = Coverage::new();
    let mut comparison = Comparison {
        core,
        cases: Cases::new(seed),
        mine: Lent::new(),
        theirs: Lent::new(),
    };
    for number in 0..steps {
        if !comparison.next(&mut coverage) {
            println!("first difference at step {} of seed {}", number, seed);
            return false;
        }
    }
    coverage.report()
}

impl Comparison {
    fn next(&mut self, coverage: &mut Coverage) -> bool {
        let case = self.cases.next();
        let places = self.lend(&case);
        let records = places.record..places.record + case.record_len;
        let rooms = places.accesses..places.accesses + case.room;
        let empty = self.cases.random.pick(&[0, 1, usize::MAX]);

        let pair = &mut self.cases.pool[case.pair];
        let mine = step(
            &mut self.mine.record[records.clone()],
            &mut pair.mine[..case.image_len],
            case.lines,
            case.pins,
            &mut self.mine.accesses[rooms.clone()],
        );
        let theirs = self.core.step_empty_at(
            empty,
            &mut self.theirs.record[records.clone()],
            &mut pair.theirs[..case.image_len],
            case.lines,
            case.pins,
            &mut self.theirs.accesses[rooms.clone()],
        );

        let touchable = rooms.end + GUARD;
        let agree = mine == theirs
            && self.mine.record == self.theirs.record
            && self.mine.accesses[..touchable] == self.theirs.accesses[..touchable]
            && pair.mine == pair.theirs;
        if !agree {
            self.tell(&case, &places, mine, theirs);
            return false;
        }
        if !answers_its_case(&case, mine) {
            println!("the second program's {:X} is not the damage's", mine);
            self.tell(&case, &places, mine, theirs);
            return false;
        }
        let record = &self.mine.record[records];
        if !keeps_the_laws(&case, mine, record, &self.mine.accesses[rooms.clone()]) {
            println!("the second program breaks a law of purposes");
            self.tell(&case, &places, mine, theirs);
            return false;
        }
        coverage.note(&case, mine, record, &self.mine.accesses[rooms]);
        self.cases.settle(mine & 0xFF, record);
        true
    }

    fn lend(&mut self, case: &Case) -> Places {
        let random = &mut self.cases.random;
        let places = Places {
            record: random.between(0, MOST_SHIFT),
            accesses: random.between(0, MOST_SHIFT),
        };
        random.fill(&mut self.mine.record);
        self.mine.record[places.record..places.record + case.record_len]
            .copy_from_slice(&case.record[..case.record_len]);
        self.theirs.record = self.mine.record;

        // The list and the guard behind a short buffer; what lies further is equal from before.
        let front = MOST_SHIFT + 64 + GUARD;
        random.fill(&mut self.mine.accesses[..front]);
        self.theirs.accesses[..front].copy_from_slice(&self.mine.accesses[..front]);
        places
    }

    fn tell(&self, case: &Case, places: &Places, mine: u64, theirs: u64) {
        let name = self.core.name;
        let pair = &self.cases.pool[case.pair];
        println!(
            "record before      {}",
            hex(&case.record[..case.record_len])
        );
        println!("lines {:02X} pins {:02X}", case.lines, case.pins);
        println!("image {} bytes, room {} bytes", case.image_len, case.room);
        println!("bytes at PC        {}", hex(&case.at_pc));
        let numbers = (1..=6).filter(|n| case.faults & 1 << n != 0);
        println!("refusals due       {:?}", numbers.collect::<Vec<u8>>());
        for (who, word, lent) in [("second", mine, &self.mine), (name, theirs, &self.theirs)] {
            let record = &lent.record[places.record..places.record + case.record_len];
            let accesses = &lent.accesses[places.accesses..places.accesses + case.room];
            tell_step(who, word, record, accesses);
        }
        tell_first(
            "record byte",
            places.record,
            &self.mine.record,
            &self.theirs.record,
        );
        tell_first(
            "access byte",
            places.accesses,
            &self.mine.accesses,
            &self.theirs.accesses,
        );
        if let Some(at) = first_difference(&pair.mine, &pair.theirs) {
            println!(
                "image bank {} address {:04X}: second {:02X}, core {:02X}",
                at / BANK,
                at % BANK,
                pair.mine[at],
                pair.theirs[at]
            );
        }
    }
}

/// A damaged case is refused with its lowest number, any other is done or has an undefined opcode.
fn answers_its_case(case: &Case, word: u64) -> bool {
    match case.faults {
        0 => matches!(word & 0xFF, 0 | 6),
        faults => word & 0xFF == u64::from(faults.trailing_zeros()),
    }
}

/// Those of purposes, which only a step that was done can break.
fn keeps_the_laws(case: &Case, word: u64, record: &[u8], accesses: &[u8]) -> bool {
    match Record::read(&case.record[..case.record_len]) {
        Ok(before) if word & 0xFF == 0 => {
            let list = &accesses[..(word >> 8) as usize * ACCESS];
            are_lawful(&before, case.lines, record, list)
        }
        _ => true,
    }
}

/// What one of two left of a step.
pub fn tell_step(who: &str, word: u64, record: &[u8], accesses: &[u8]) {
    println!("{:<10} word    {:X}", who, word);
    println!("{:<10} record  {}", who, hex(record));
    let count = ((word >> 8) as usize & 7) * usize::from(word & 0xFF == 0);
    for access in accesses.chunks(ACCESS).take(count) {
        println!("{:<10} access  {}", who, hex(access));
    }
}

pub fn tell_first(what: &str, start: usize, mine: &[u8], theirs: &[u8]) {
    if let Some(at) = first_difference(mine, theirs) {
        println!(
            "{} {}: second {:02X}, core {:02X}",
            what,
            at as isize - start as isize,
            mine[at],
            theirs[at]
        );
    }
}

pub fn first_difference(mine: &[u8], theirs: &[u8]) -> Option<usize> {
    mine.iter().zip(theirs).position(|(a, b)| a != b)
}

pub fn hex(bytes: &[u8]) -> String {
    bytes.iter().map(|byte| format!("{:02X}", byte)).collect()
}
