//! Access lists counted by page, on the second program and on a core: every length, every byte, every edge of the
//! total, and random lists in random pieces.

mod draw;
mod edges;
mod lent;
mod seen;

pub use draw::records;

use crate::bus::ACCESS;
use crate::cases::{GUARD, MOST_SHIFT};
use crate::compare::{hex, tell_first};
use crate::cores::Counter;
use crate::pages::{pages, total};
use crate::random::Random;
use draw::{cut, ends, malform, Draw, Fault};
use lent::{Lent, Places, Tables};
use seen::{Seen, Start};

/// So many records of a list are told where it was counted wrongly.
const MOST_TOLD: usize = 64;

/// Where the pointer of an empty list may lead.
const EMPTY: [usize; 3] = [0, 1, usize::MAX];

/// The counts twice, with room around them: the second program's and the core's. The list once, for both only read it.
struct Comparison {
    core: Counter,
    random: Random,
    draw: Draw,
    places: Places,
    mine: Lent,
    theirs: Lent,
    list: Vec<u8>,
    list_before: Vec<u8>,
    seen: Seen,
}

/// True where no answer differed and no needed kind was missing.
pub fn countings(core: Counter, lists: u64, seed: u64) -> bool {
    println!("seed {}", seed);
    println!("second program against {}, {} lists", core.name, lists);
    let mut comparison = Comparison::new(core, seed);
    if !comparison.edges() {
        return false;
    }
    for number in 0..lists {
        if !comparison.next() {
            println!("first difference at list {} of seed {}", number, seed);
            return false;
        }
    }
    comparison.seen.report()
}

impl Comparison {
    fn new(core: Counter, seed: u64) -> Comparison {
        let mut random = Random::new(seed);
        Comparison {
            core,
            draw: Draw::new(random.next()),
            places: Places::draw(&mut random),
            random,
            mine: Lent::new(),
            theirs: Lent::new(),
            list: Vec::new(),
            list_before: Vec::new(),
            seen: Seen::new(),
        }
    }

    /// One list, in pieces or damaged.
    fn next(&mut self) -> bool {
        let list = self.draw.next(&mut self.random, &mut self.seen);
        match self.random.below(8) {
            0 | 1 => self.refuse(&list),
            2 => self.feed_bytes(list.len()),
            _ => self.feed_in_pieces(&list),
        }
    }

    /// "The counts equal those of the joined list", whatever was refused between.
    fn feed_in_pieces(&mut self, list: &[u8]) -> bool {
        let records = list.len() / ACCESS;
        let (start, before) = self.start(records);
        self.set(&before);
        let ends = ends(&mut self.random, records);
        let mut begin = 0;
        for &end in ends.iter().chain([&records]) {
            let piece = &list[begin * ACCESS..end * ACCESS];
            let is_right = self.feed_damaged(piece) && self.feed(piece, Some(0));
            if !is_right {
                return false;
            }
            begin = end;
        }
        let in_pieces = self.mine.tables(self.places);
        let is_full = match start {
            Start::Full(spare) => self.fill(spare),
            _ => true,
        };
        self.set(&before);
        if !is_full || !self.feed(list, Some(0)) {
            return false;
        }
        if self.mine.tables(self.places) != in_pieces {
            println!("the pieces are counted otherwise than the list");
            return false;
        }
        self.seen.note_pieces(&ends);
        self.seen.note_start(start);
        self.seen.note_growth(&before, &in_pieces);
        true
    }

    /// Where the total is short of 2^64 - 1 by so many records, one more is refused and these go in.
    fn fill(&mut self, spare: usize) -> bool {
        let more = records(&mut self.random, spare + 1);
        self.feed(&more, Some(22)) && self.feed(&more[ACCESS..], Some(0))
    }

    /// Now and then, a piece that is cut or has a bad record, or both.
    fn feed_damaged(&mut self, piece: &[u8]) -> bool {
        let mut piece = piece.to_vec();
        let chosen = self.random.below(8);
        match self.damage(chosen, &mut piece).first() {
            Some(fault) => {
                self.seen.note_refused_piece();
                self.feed(&piece, Some(fault.number()))
            }
            None => true,
        }
    }

    /// One, two or all of the three faults.
    fn refuse(&mut self, list: &[u8]) -> bool {
        let mut list = list.to_vec();
        let chosen = self.random.between(1, 7);
        let mut faults = self.damage(chosen, &mut list);
        let records = list.len() / ACCESS;
        let before = match chosen & 4 {
            0 => self.start(records).1,
            _ => {
                faults.push(Fault::Total);
                self.too_full(records)
            }
        };
        self.set(&before);
        match faults.first() {
            Some(fault) => {
                self.seen.note_faults(&faults);
                self.feed(&list, Some(fault.number()))
            }
            None => self.feed(&list, Some(0)),
        }
    }

    /// Of 1 a cut, of 2 a bad record, of 3 both; the lowest number first.
    fn damage(&mut self, chosen: usize, list: &mut Vec<u8>) -> Vec<Fault> {
        let mut faults = Vec::new();
        if chosen & 1 != 0 {
            faults.extend(cut(&mut self.random, list));
        }
        if chosen & 2 != 0 {
            faults.extend(malform(&mut self.random, list));
        }
        faults
    }

    /// Mere bytes, which are hardly ever a list.
    fn feed_bytes(&mut self, length: usize) -> bool {
        let mut bytes = vec![0; length + self.random.below(ACCESS)];
        self.random.fill(&mut bytes);
        let (_, before) = self.start(bytes.len() / ACCESS);
        self.set(&before);
        let expected = match bytes.len() % ACCESS {
            0 => None,
            _ => Some(20),
        };
        self.seen.bytes += 1;
        self.feed(&bytes, expected)
    }

    /// Counts that leave room for so many records.
    fn start(&mut self, records: usize) -> (Start, Tables) {
        let random = &mut self.random;
        match random.below(8) {
            0..=3 => (Start::Zero, Tables::zero()),
            4 | 5 => (Start::Any, Tables::any(random)),
            6 => (Start::Near32, Tables::near_32_bits(random)),
            _ => {
                let spare = random.below(9);
                let full = u128::from(u64::MAX) - (records + spare) as u128;
                let holders = random.pick(&[1, 2, 3, 40, 512]);
                let tables = Tables::with_total(random, full, holders);
                (Start::Full(spare), tables)
            }
        }
    }

    /// Counts that leave room for fewer records, or that pass 64 bits by themselves.
    fn too_full(&mut self, records: usize) -> Tables {
        let random = &mut self.random;
        let least = (1 << 64) - records as u128;
        let (total, holders) = match random.below(4) {
            0 | 1 => (least, random.between(2, 512)),
            2 => (least + random.below(9) as u128, random.between(2, 512)),
            // A sum that wrapped would be small.
            _ => {
                let times = random.between(1, 511);
                let over = random.below(9) as u128;
                (
                    ((times as u128) << 64) + over,
                    random.between(times + 1, 512),
                )
            }
        };
        Tables::with_total(random, total, holders)
    }

    /// Lends these counts to both, at a new place.
    fn set(&mut self, tables: &Tables) {
        self.places = Places::draw(&mut self.random);
        self.mine.set(&mut self.random, self.places, tables);
        self.theirs = self.mine.clone();
    }

    /// Feeds a list to both, which must answer this word if it is known, and compares all that was lent.
    fn feed(&mut self, list: &[u8], expected: Option<u64>) -> bool {
        let lent = self.lend(list);
        let before = self.mine.tables(self.places);
        let empty = self.random.below(EMPTY.len());

        let (reads, writes) = self.mine.counts(self.places);
        let mine = pages(reads, writes, &self.list[lent.clone()]);
        let (reads, writes) = self.theirs.counts(self.places);
        let theirs = self
            .core
            .pages(reads, writes, &self.list[lent.clone()], EMPTY[empty]);

        let after = self.mine.tables(self.places);
        let is_right =
            expected.map_or(true, |word| mine == word) && keeps(mine, list, &before, &after);
        let is_same = mine == theirs && self.mine == self.theirs && self.list == self.list_before;
        if is_right && is_same {
            self.seen.note_fed(mine, list, lent.start, empty);
            return true;
        }
        if !is_right {
            println!("the second program itself is wrong");
        }
        self.tell(list, expected, mine, theirs, &before);
        tell_first("list byte", lent.start, &self.list_before, &self.list);
        false
    }

    /// The list between bytes that are none of it: records, which would be counted, or bytes that would be refused.
    fn lend(&mut self, list: &[u8]) -> std::ops::Range<usize> {
        let start = self.random.between(0, MOST_SHIFT);
        let mut around = [0; MOST_SHIFT + GUARD];
        match self.random.one_in(2) {
            true => self.random.fill(&mut around),
            false => {
                around[MOST_SHIFT..].copy_from_slice(&records(&mut self.random, GUARD / ACCESS))
            }
        }
        self.list.clear();
        self.list.extend(&around[..start]);
        self.list.extend(list);
        self.list.extend(&around[MOST_SHIFT..]);
        self.list_before.clone_from(&self.list);
        start..start + list.len()
    }

    fn tell(&self, list: &[u8], expected: Option<u64>, mine: u64, theirs: u64, before: &Tables) {
        if let Some(word) = expected {
            println!("{} expected", word);
        }
        println!("second {}, {} {}", mine, self.core.name, theirs);
        println!("a list of {} bytes", list.len());
        for (index, record) in list.chunks(ACCESS).enumerate().take(MOST_TOLD) {
            println!("{:>5} {}", index, hex(record));
        }
        println!("total before {}", total_of(before));
        self.mine.tell_first(&self.theirs, self.places, before);
    }
}

/// What the document says of every call: a refusal leaves the counts, and else they have grown by the records.
fn keeps(word: u64, list: &[u8], before: &Tables, after: &Tables) -> bool {
    match word {
        0 => total_of(after) == total_of(before) + (list.len() / ACCESS) as u128,
        _ => after == before,
    }
}

fn total_of(tables: &Tables) -> u128 {
    total(&tables.reads, &tables.writes)
}
