//! The page report, as the program of that name must print it; and long lists to hold it to.

use crate::bus::ACCESS;
use crate::countings::records;
use crate::pages::{pages, total, PAGES};
use crate::random::Random;

/// So many records of a list that is written keep to the same pages.
const ALIKE: usize = 1000;

/// Each file is one list. True where a report was printed, or a refusal.
pub fn page_report(files: &[String]) -> bool {
    let (mut reads, mut writes) = ([0; PAGES], [0; PAGES]);
    for file in files {
        let list = match std::fs::read(file) {
            Ok(list) => list,
            Err(why) => {
                eprintln!("{}: {}", file, why);
                return false;
            }
        };
        match pages(&mut reads, &mut writes, &list) {
            0 => {}
            number => {
                println!("E {}", number);
                return true;
            }
        }
    }
    for (page, (reads, writes)) in reads.iter().zip(&writes).enumerate() {
        if (*reads, *writes) != (0, 0) {
            println!("{:02X} {} {}", page, reads, writes);
        }
    }
    println!("T {}", total(&reads, &writes));
    true
}

/// Writes a list of so many random records.
pub fn write_list(file: &str, count: u64, seed: u64) -> bool {
    let mut random = Random::new(seed);
    let mut list = Vec::with_capacity(count as usize * ACCESS);
    while list.len() < count as usize * ACCESS {
        let left = count as usize - list.len() / ACCESS;
        list.extend(records(&mut random, left.min(ALIKE)));
    }
    match std::fs::write(file, list) {
        Ok(()) => true,
        Err(why) => {
            eprintln!("{}: {}", file, why);
            false
        }
    }
}
