//! The restart file: state records in a row.

use crate::record::Record;

const RECORD: usize = 16;
const LONGEST: usize = 65_536;

/// Answers the board's word: 8, 2, or where the last whole record stands and how many tail bytes follow.
pub fn restart(file: &[u8]) -> u64 {
    if file.len() < RECORD || file.len() > LONGEST {
        return 8;
    }
    let tail = file.len() % RECORD;
    let place = file.len() - tail - RECORD;
    match Record::read(&file[place..place + RECORD]) {
        Ok(_) => (place as u64) << 16 | (tail as u64) << 8,
        Err(number) => number,
    }
}

/// "An append drops a tail first and never takes the file past 65,536 bytes."
pub fn append_at(length: u64) -> u64 {
    let place = length - length % RECORD as u64;
    if place > (LONGEST - RECORD) as u64 {
        return 8;
    }
    place << 16
}
