//! What is tried whole and not by chance: every length, every value of every byte, every way to the edge of the total.

use super::draw::{least_bad, records};
use super::lent::{Tables, ALL};
use super::Comparison;
use crate::bus::{access, ACCESS};
use crate::pages::PAGES;

const LONGEST: usize = 300;
/// Around the lengths at which a loop that takes several records at once would change its way.
const BYTES_OF: [usize; 14] = [1, 2, 3, 4, 5, 7, 8, 9, 15, 16, 17, 31, 32, 33];
const RECORDS_AT_THE_EDGE: [usize; 8] = [0, 1, 2, 3, 8, 9, 64, 100];
const ALIKE: [usize; 6] = [2, 32, 64, 128, 256, 65_536];
const LONG: [usize; 2] = [70_000, 1_000_000];

impl Comparison {
    pub fn edges(&mut self) -> bool {
        self.lengths()
            && self.bytes()
            && self.pairs_of_bytes()
            && self.totals()
            && self.past_64_bits()
            && self.long()
    }

    /// Right lists and such with a bad record at each end, each with room for it in the counts and without.
    fn lengths(&mut self) -> bool {
        for length in 0..=LONGEST {
            let whole = length / ACCESS;
            let list = records(&mut self.random, whole + 1);
            for bad in [None, Some(0), Some(whole.max(1) - 1)] {
                let mut list = list[..length].to_vec();
                if let Some(byte) = bad.and_then(|record| list.get_mut(record * ACCESS + 5)) {
                    *byte = least_bad(5);
                }
                for is_full in [false, true] {
                    let word = match (length % ACCESS, bad, is_full) {
                        (1.., _, _) => 20,
                        (0, Some(_), _) if whole > 0 => 21,
                        (_, _, true) => 22,
                        _ => 0,
                    };
                    let total = (1 << 64) - whole as u128 - u128::from(!is_full);
                    if !self.feed_from_total(total, 2, &list, word) {
                        return false;
                    }
                }
            }
        }
        println!("lists of 0 to {} bytes agree, right and bad", LONGEST);
        true
    }

    /// All values of each byte of each record.
    fn bytes(&mut self) -> bool {
        let mut tried = 0;
        for count in BYTES_OF {
            let mut list = records(&mut self.random, count);
            for at in 0..list.len() {
                let right = list[at];
                for value in 0..=255 {
                    list[at] = value;
                    let word = match is_bad(at, value) {
                        true => 21,
                        false => 0,
                    };
                    self.set(&Tables::zero());
                    if !self.feed(&list, Some(word)) {
                        return false;
                    }
                    tried += 1;
                }
                list[at] = right;
            }
        }
        println!("every value of every byte agrees, {} lists", tried);
        true
    }

    /// Two bytes of one record or of two, equal or adding up to 256, both bad but where one is a purpose; and lists of
    /// nothing but bad records, or of the last purpose. Whoever adds bytes up finds nothing bad in some of them, or
    /// something bad where all is right.
    fn pairs_of_bytes(&mut self) -> bool {
        let right = records(&mut self.random, 2);
        for one in 0..right.len() {
            for other in (0..one).filter(|&other| other % ACCESS > 3 && one % ACCESS > 3) {
                for value in 2..=255_u8 {
                    for second in [value, value.wrapping_neg().max(2)] {
                        let mut list = right.clone();
                        list[one] = value;
                        list[other] = second;
                        let word = match is_bad(one, value) || is_bad(other, second) {
                            true => 21,
                            false => 0,
                        };
                        self.set(&Tables::zero());
                        if !self.feed(&list, Some(word)) {
                            return false;
                        }
                    }
                }
            }
        }
        let right = access(0, 0x1234, 0, 0, 7);
        for count in ALIKE {
            self.set(&Tables::zero());
            if !self.feed(&right.repeat(count), Some(0)) {
                return false;
            }
            for at in 4..ACCESS {
                let mut record = right;
                record[at] = least_bad(at);
                self.set(&Tables::zero());
                if !self.feed(&record.repeat(count), Some(21)) {
                    return false;
                }
            }
        }
        println!("lists with two bad bytes or more agree");
        true
    }

    /// The counts leave room for a list, and for one record less: all in one count, which the list takes to 2^64 - 1,
    /// and in several.
    fn totals(&mut self) -> bool {
        for count in RECORDS_AT_THE_EDGE {
            let most = u128::from(u64::MAX) - count as u128;
            for holder in 0..ALL {
                let (page, written) = (holder % PAGES, holder / PAGES);
                let record = access(0, page as u16 * 256, 0, written as u8, 0);
                let list = record.repeat(count);
                let mut tables = Tables::zero();
                *tables.at(holder) = most as u64;
                self.set(&tables);
                if !self.feed(&list, Some(0)) {
                    return false;
                }
                // One more, in this count or in another; 2^64 - 1 takes none.
                let away = self.random.between(usize::from(count == 0), ALL - 1);
                *tables.at((holder + away) % ALL) += 1;
                self.set(&tables);
                if !self.feed(&list, Some(22)) {
                    return false;
                }
            }
            for holders in 2..=ALL {
                let list = records(&mut self.random, count);
                for (total, word) in [(most, 0), (most + 1, 22)] {
                    if !self.feed_from_total(total, holders, &list, word) {
                        return false;
                    }
                }
            }
        }
        println!(
            "totals at the edge agree, in each count and in 2 to {} of them",
            ALL
        );
        true
    }

    /// Totals that pass 2^64 once to 511 times, of which 64 bits are 0 or little, and the largest.
    fn past_64_bits(&mut self) -> bool {
        for times in 1..ALL {
            for (over, count) in [(0, 0), (0, 1), (1, 3), (100, 100)] {
                let total = ((times as u128) << 64) + over;
                let list = records(&mut self.random, count);
                for holders in [times + 1, ALL] {
                    if !self.feed_from_total(total, holders, &list, 22) {
                        return false;
                    }
                }
            }
        }
        for count in RECORDS_AT_THE_EDGE {
            let list = records(&mut self.random, count);
            if !self.feed_from_total(ALL as u128 * u128::from(u64::MAX), ALL, &list, 22) {
                return false;
            }
        }
        println!("totals past 2^64 agree, once to {} times past it", ALL - 1);
        true
    }

    /// Counts of one page that need more than 16 bits, and long lists of all pages.
    fn long(&mut self) -> bool {
        for count in LONG {
            for is_mixed in [false, true] {
                let list = match is_mixed {
                    true => records(&mut self.random, count),
                    false => access(0, 0x1234, 0, 1, 5).repeat(count),
                };
                self.set(&Tables::zero());
                if !self.feed(&list, Some(0)) {
                    return false;
                }
            }
        }
        println!("lists of {} and {} records agree", LONG[0], LONG[1]);
        true
    }

    fn feed_from_total(&mut self, total: u128, holders: usize, list: &[u8], word: u64) -> bool {
        let tables = Tables::with_total(&mut self.random, total, holders);
        self.set(&tables);
        self.feed(list, Some(word))
    }
}

fn is_bad(at: usize, value: u8) -> bool {
    at % ACCESS >= 4 && value >= least_bad(at % ACCESS)
}
