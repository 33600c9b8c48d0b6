//! Random runs, byte against byte: the second program, a core's run, and that core's own steps one after the other.

pub mod draw;
mod seen;

use crate::bus::ACCESS;
use crate::cases::{GUARD, LONGEST_RECORD, MOST_SHIFT};
use crate::compare::{hex, tell_first};
use crate::cores::{Noise, Tested};
use crate::record::Record;
use crate::run::{run, Ran};
use draw::{Draw, Drawn, LONGEST_ROOM, LONGEST_SCRIPT};
use seen::{Seen, Step};
use std::ops::Range;

/// Everything that is lent stands three times.
const MINE: usize = 0;
const THEIRS: usize = 1;
const STEPPED: usize = 2;

/// What is lent besides the image, with room around it that must not change.
#[derive(Clone, PartialEq)]
struct Lent {
    record: Vec<u8>,
    script: Vec<u8>,
    accesses: Vec<u8>,
}

impl Lent {
    fn new() -> Lent {
        let lent = |longest| vec![0; MOST_SHIFT + longest + GUARD];
        Lent {
            record: lent(LONGEST_RECORD),
            script: lent(LONGEST_SCRIPT),
            accesses: lent(LONGEST_ROOM),
        }
    }
}

/// Where in their buffers the slices of a run lie.
struct Places {
    record: Range<usize>,
    script: Range<usize>,
    accesses: Range<usize>,
}

struct Comparison {
    core: Tested,
    draw: Draw,
    lent: [Lent; 3],
    seen: Seen,
}

/// True where no run differed and no needed kind was missing.
pub fn runs(core: Tested, runs: u64, seed: u64) -> bool {
    println!("seed {}", seed);
    println!("second program against {}, {} runs", core.name, runs);
    let mut comparison = Comparison {
        core,
        draw: Draw::new(seed),
        lent: [(); 3].map(|()| Lent::new()),
        seen: Seen::new(),
    };
    for number in 0..runs {
        if !comparison.next() {
            println!("first difference at run {} of seed {}", number, seed);
            return false;
        }
    }
    comparison.seen.report()
}

impl Comparison {
    fn next(&mut self) -> bool {
        let drawn = self.draw.next();
        let places = self.lend(&drawn);
        let mine = self.run_mine(&drawn, &places);
        if !answers_its_faults(&drawn, mine) {
            println!("the second program's {:X} is not the damage's", mine.word);
            return false;
        }
        let theirs = self.run_theirs(&drawn, &places);
        if !self.agree(&drawn, &places, mine, THEIRS, theirs) {
            return false;
        }
        if drawn.faults != 0 {
            self.seen.note_refused(&drawn);
            return true;
        }
        let stepped = self.step_by_step(&drawn, &places);
        if !self.agree(&drawn, &places, mine, STEPPED, stepped) {
            return false;
        }
        let record = &self.lent[MINE].record[places.record];
        let image = &mut self.draw.pool[drawn.images].copies[MINE][..drawn.image_len];
        self.seen.note_end(&drawn, mine, record, image);
        true
    }

    fn lend(&mut self, drawn: &Drawn) -> Places {
        let random = &mut self.draw.random;
        let mut place = |length| {
            let start = random.between(0, MOST_SHIFT);
            start..start + length
        };
        let places = Places {
            record: place(drawn.record_len),
            script: place(drawn.script.len()),
            accesses: place(drawn.room),
        };
        // What lies behind the guards is equal from before.
        let ends = [&places.record, &places.script, &places.accesses].map(|at| at.end + GUARD);
        let [mine, others @ ..] = &mut self.lent;
        random.fill(&mut mine.record[..ends[0]]);
        random.fill(&mut mine.script[..ends[1]]);
        random.fill(&mut mine.accesses[..ends[2]]);
        mine.record[places.record.clone()].copy_from_slice(&drawn.record[..drawn.record_len]);
        mine.script[places.script.clone()].copy_from_slice(&drawn.script);
        for other in others {
            other.record[..ends[0]].copy_from_slice(&mine.record[..ends[0]]);
            other.script[..ends[1]].copy_from_slice(&mine.script[..ends[1]]);
            other.accesses[..ends[2]].copy_from_slice(&mine.accesses[..ends[2]]);
        }
        places
    }

    fn run_mine(&mut self, drawn: &Drawn, places: &Places) -> Ran {
        let lent = &mut self.lent[MINE];
        let image = &mut self.draw.pool[drawn.images].copies[MINE];
        run(
            &mut lent.record[places.record.clone()],
            &mut image[..drawn.image_len],
            &lent.script[places.script.clone()],
            &mut lent.accesses[places.accesses.clone()],
        )
    }

    fn run_theirs(&mut self, drawn: &Drawn, places: &Places) -> Ran {
        let noise = Noise {
            empty: self.draw.random.pick(&[0, 1, usize::MAX]),
            steps: self.draw.random.next(),
            listed: self.draw.random.next(),
        };
        let lent = &mut self.lent[THEIRS];
        let image = &mut self.draw.pool[drawn.images].copies[THEIRS];
        self.core.run(
            noise,
            &mut lent.record[places.record.clone()],
            &mut image[..drawn.image_len],
            &lent.script[places.script.clone()],
            &mut lent.accesses[places.accesses.clone()],
        )
    }

    /// Only for a run that is refused by none of 1, 2, 3 and 7.
    fn step_by_step(&mut self, drawn: &Drawn, places: &Places) -> Ran {
        let lent = &mut self.lent[STEPPED];
        let record = &mut lent.record[places.record.clone()];
        let accesses = &mut lent.accesses[places.accesses.clone()];
        let image = &mut self.draw.pool[drawn.images].copies[STEPPED][..drawn.image_len];
        let mut ran = Ran {
            word: 0,
            steps: 0,
            listed: 0,
        };
        for inputs in lent.script[places.script.clone()].chunks(2) {
            let before = Record::read(record).expect("a record that steps left");
            let rest = &mut accesses[ran.listed as usize * ACCESS..];
            let word = self.core.step(record, image, inputs[0], inputs[1], rest);
            if word & 0xFF != 0 {
                ran.word = word;
                break;
            }
            let step = Step {
                number: ran.steps,
                lines: inputs[0],
                pins: inputs[1],
                before,
                left: rest.len(),
                list: &rest[..(word >> 8) as usize * ACCESS],
            };
            step.note(&mut self.seen);
            ran.steps += 1;
            ran.listed += word >> 8;
        }
        ran
    }

    /// Whether one of the others did what the second program did; tells the differences.
    fn agree(&self, drawn: &Drawn, places: &Places, mine: Ran, other: usize, its: Ran) -> bool {
        let copies = &self.draw.pool[drawn.images].copies;
        let [my_lent, its_lent] = [&self.lent[MINE], &self.lent[other]];
        if mine == its && my_lent == its_lent && copies[MINE] == copies[other] {
            return true;
        }
        let its_name = ["", "core's run", "core's steps"][other];
        tell_drawn(drawn);
        for (name, ran) in [("second", mine), (its_name, its)] {
            println!(
                "{:<14} word {:X}, {} steps, {} listed",
                name, ran.word, ran.steps, ran.listed
            );
        }
        let start = [&places.record, &places.script, &places.accesses].map(|at| at.start);
        tell_first("record byte", start[0], &my_lent.record, &its_lent.record);
        tell_first("script byte", start[1], &my_lent.script, &its_lent.script);
        tell_first(
            "access byte",
            start[2],
            &my_lent.accesses,
            &its_lent.accesses,
        );
        tell_first("image byte", 0, &copies[MINE], &copies[other]);
        false
    }
}

fn tell_drawn(drawn: &Drawn) {
    println!("record before  {}", hex(&drawn.record[..drawn.record_len]));
    println!("script         {}", hex(&drawn.script));
    println!("image {} bytes, room {} bytes", drawn.image_len, drawn.room);
}

/// A damaged run is refused with its lowest number and does nothing; no other is refused before anything.
fn answers_its_faults(drawn: &Drawn, ran: Ran) -> bool {
    match drawn.faults {
        0 => matches!(ran.word & 0xFF, 0 | 4 | 5 | 6),
        faults => {
            let word = u64::from(faults.trailing_zeros());
            ran == Ran {
                word,
                steps: 0,
                listed: 0,
            }
        }
    }
}
