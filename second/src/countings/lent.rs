//! The counts that are lent: 256 of reads and 256 of writes, and where they lie.

use crate::pages::{Counts, PAGES};
use crate::random::Random;

/// Words around the counts, and at most between them, which nobody may touch.
const AROUND: usize = 8;
const WORDS: usize = 2 * PAGES + 3 * AROUND;

pub const ALL: usize = 2 * PAGES;

#[derive(Clone, PartialEq, Eq)]
pub struct Tables {
    pub reads: Counts,
    pub writes: Counts,
}

/// Where the counts begin among the words.
#[derive(Clone, Copy)]
pub struct Places {
    reads: usize,
    writes: usize,
}

#[derive(Clone, PartialEq, Eq)]
pub struct Lent {
    words: Vec<u64>,
}

impl Tables {
    /// "Starting from all zero."
    pub fn zero() -> Tables {
        Tables {
            reads: [0; PAGES],
            writes: [0; PAGES],
        }
    }

    /// All of them together are under 2^63.
    pub fn any(random: &mut Random) -> Tables {
        let shift = random.between(10, 60);
        let mut tables = Tables::zero();
        tables.each(|count| *count = random.next() >> shift);
        tables
    }

    /// Each passes 32 bits with the next few records, or the next few thousand.
    pub fn near_32_bits(random: &mut Random) -> Tables {
        let most = random.pick(&[2, 10, 2000]);
        let mut tables = Tables::zero();
        tables.each(|count| *count = u64::from(u32::MAX) - random.below(most) as u64);
        tables
    }

    /// So many counts hold the total, evenly, the first ones as much as fits, or by chance; the others are zero.
    pub fn with_total(random: &mut Random, total: u128, holders: usize) -> Tables {
        let most = u128::from(u64::MAX);
        let way = random.below(3);
        let first = random.below(ALL);
        let mut tables = Tables::zero();
        let mut left = total;
        for holder in 0..holders {
            let behind = (holders - holder - 1) as u128;
            let least = left.saturating_sub(behind * most);
            let share = match way {
                _ if behind == 0 => left,
                0 => left / (behind + 1),
                1 => left.min(most),
                _ => least + u128::from(random.next()) % (left.min(most) - least + 1),
            };
            // 211 is odd, so that 512 steps of it reach every count.
            *tables.at((first + 211 * holder) % ALL) = share as u64;
            left -= share;
        }
        tables
    }

    /// One of all 512: first those of the reads.
    pub fn at(&mut self, index: usize) -> &mut u64 {
        match index {
            0..=255 => &mut self.reads[index],
            _ => &mut self.writes[index - PAGES],
        }
    }

    /// All 512, in the same order.
    pub fn counts(&self) -> impl Iterator<Item = u64> + '_ {
        self.reads.iter().chain(&self.writes).copied()
    }

    fn each(&mut self, change: impl FnMut(&mut u64)) {
        self.reads
            .iter_mut()
            .chain(&mut self.writes)
            .for_each(change);
    }
}

impl Places {
    /// Either may come first, and the other may follow at once.
    pub fn draw(random: &mut Random) -> Places {
        let low = random.between(1, AROUND);
        let high = low + PAGES + random.between(0, AROUND);
        let (reads, writes) = random.pick(&[(low, high), (high, low)]);
        Places { reads, writes }
    }
}

impl Lent {
    pub fn new() -> Lent {
        Lent {
            words: vec![0; WORDS],
        }
    }

    pub fn set(&mut self, random: &mut Random, places: Places, tables: &Tables) {
        self.words.fill_with(|| random.next());
        let (reads, writes) = self.counts(places);
        *reads = tables.reads;
        *writes = tables.writes;
    }

    pub fn counts(&mut self, places: Places) -> (&mut Counts, &mut Counts) {
        let (front, back) = self.words.split_at_mut(places.reads.max(places.writes));
        let low = counts_of(&mut front[places.reads.min(places.writes)..]);
        let high = counts_of(back);
        match places.reads < places.writes {
            true => (low, high),
            false => (high, low),
        }
    }

    pub fn tables(&self, places: Places) -> Tables {
        let copied = |start| {
            let mut counts = [0; PAGES];
            counts.copy_from_slice(&self.words[start..start + PAGES]);
            counts
        };
        Tables {
            reads: copied(places.reads),
            writes: copied(places.writes),
        }
    }

    /// The first word that is another one's, if there is any.
    pub fn tell_first(&self, theirs: &Lent, places: Places, before: &Tables) {
        let mut words = self.words.iter().zip(&theirs.words).enumerate();
        let (at, (mine, theirs)) = match words.find(|(_, (mine, theirs))| mine != theirs) {
            Some(found) => found,
            None => return,
        };
        let inside = |start: usize| (start..start + PAGES).contains(&at);
        if inside(places.reads) {
            let page = at - places.reads;
            print!("reads of page {:02X}, before {}", page, before.reads[page]);
        } else if inside(places.writes) {
            let page = at - places.writes;
            print!(
                "writes of page {:02X}, before {}",
                page, before.writes[page]
            );
        } else {
            let [reads, writes] =
                [places.reads, places.writes].map(|start| at as isize - start as isize);
            print!(
                "a word that was not lent, {} from the reads, {} from the writes",
                reads, writes
            );
        }
        println!(": second {}, core {}", mine, theirs);
    }
}

fn counts_of(words: &mut [u64]) -> &mut Counts {
    (&mut words[..PAGES]).try_into().expect("256 counts")
}
