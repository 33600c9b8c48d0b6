//! Restart files of every length and the appends to them, on the second program and on the archive.

use crate::cases::{fresh_record, malform, GUARD, MOST_SHIFT, RECORD_FAULTS};
use crate::compare::{hex, tell_first};
use crate::cores;
use crate::random::Random;
use crate::report::Report;
use crate::restart::{append_at, restart};

const LONGEST: usize = 70_000;
const RECORD: usize = 16;
const RANDOM_LENGTHS: usize = 1_000_000;

/// One file twice, with room around it: the second program's and the archive's.
struct Files {
    random: Random,
    start: usize,
    mine: Vec<u8>,
    theirs: Vec<u8>,
    seen: Seen,
}

#[derive(Default)]
struct Seen {
    tails: [u64; RECORD],
    malformed: [u64; RECORD_FAULTS.len()],
    short: u64,
    long: u64,
}

/// True where no answer differed and no needed kind was missing.
pub fn restarts(seed: u64) -> bool {
    println!("seed {}", seed);
    let mut files = Files::new(seed);
    for length in 0..=LONGEST {
        for is_malformed in [false, true] {
            if !files.next(length, is_malformed) {
                return false;
            }
        }
    }
    println!("restart files of 0 to {} bytes agree", LONGEST);
    appends(&mut files.random) && files.seen.report()
}

impl Files {
    fn new(seed: u64) -> Files {
        let mut random = Random::new(seed);
        let mut mine = vec![0; MOST_SHIFT + LONGEST + GUARD];
        random.fill(&mut mine);
        Files {
            start: random.between(0, MOST_SHIFT),
            theirs: mine.clone(),
            mine,
            random,
            seen: Seen::default(),
        }
    }

    fn next(&mut self, length: usize, is_malformed: bool) -> bool {
        let fault = self.write(length, is_malformed);
        let file = self.start..self.start + length;
        let mine = restart(&self.mine[file.clone()]);
        let empty = self.random.pick(&[0, 1, usize::MAX]);
        let theirs = cores::restart(&self.theirs[file.clone()], empty);
        let expected = match (length, fault) {
            (0..=15, _) | (65_537.., _) => 8,
            (_, Some(_)) => 2,
            _ => 0,
        };
        if mine & 0xFF == expected && mine == theirs && self.mine == self.theirs {
            self.seen.note(length, fault);
            return true;
        }
        println!("a file of {} bytes, {} expected", length, expected);
        println!("second {:X}, archive {:X}", mine, theirs);
        println!("its end {}", hex(&self.mine[file][length.max(32) - 32..]));
        tell_first("file byte", self.start, &self.mine, &self.theirs);
        false
    }

    /// A well-formed record, a last one that is well formed or not, and a tail; the tail may be of a cut record, of which
    /// the rest then lies behind the file. The fault is one of RECORD_FAULTS.
    fn write(&mut self, length: usize, is_malformed: bool) -> Option<usize> {
        let whole = length - length % RECORD;
        let (mut last, part) = self.record();
        let fault = is_malformed.then(|| malform(&mut self.random, part, &mut last));
        let (mut cut, _) = self.record();
        if self.random.one_in(2) {
            self.random.fill(&mut cut);
        }
        self.put(whole, &cut);
        if whole >= RECORD {
            self.put(whole - RECORD, &last);
        }
        if whole >= 2 * RECORD {
            let (older, _) = self.record();
            self.put(whole - 2 * RECORD, &older);
        }
        fault
    }

    fn record(&mut self) -> ([u8; RECORD], u8) {
        let part = self.random.pick(&[2, 8, 9]);
        (fresh_record(&mut self.random, part), part)
    }

    fn put(&mut self, place: usize, record: &[u8]) {
        let at = self.start + place..self.start + place + RECORD;
        self.mine[at.clone()].copy_from_slice(record);
        self.theirs[at].copy_from_slice(record);
    }
}

fn appends(random: &mut Random) -> bool {
    let powers = (0..64).map(|bit| 1_u64 << bit);
    let edges =
        powers.flat_map(|power| (0..40).map(move |n| power.wrapping_add(n).wrapping_sub(20)));
    let lengths = (0..=LONGEST as u64)
        .chain(edges)
        .chain((0..RANDOM_LENGTHS).map(|_| {
            let shift = random.below(64);
            random.next() >> shift
        }));
    let (mut taken, mut full) = (0, 0);
    for length in lengths {
        let (mine, theirs) = (append_at(length), cores::append_at(length));
        if mine != theirs {
            println!(
                "append at {}: second {:X}, archive {:X}",
                length, mine, theirs
            );
            return false;
        }
        match mine {
            8 => full += 1,
            _ => taken += 1,
        }
    }
    println!("lengths to append to agree: {} taken, {} full", taken, full);
    true
}

impl Seen {
    fn note(&mut self, length: usize, fault: Option<usize>) {
        match (length, fault) {
            (0..=15, _) => self.short += 1,
            (65_537.., _) => self.long += 1,
            (_, Some(fault)) => self.malformed[fault] += 1,
            _ => self.tails[length % RECORD] += 1,
        }
    }

    fn report(&self) -> bool {
        let mut report = Report::new();
        report.rarest("found, tail 0 to 15", &self.tails);
        report.rows("last record: ", &RECORD_FAULTS, &self.malformed);
        report.row("under 16 bytes", self.short);
        report.row("over 65,536 bytes", self.long);
        report.is_whole()
    }
}
