//! Random lists: of runs on all parts, and of random records; and what damages one.

use super::seen::Seen;
use crate::bus::{access, ACCESS};
use crate::random::Random;
use crate::record::Record;
use crate::report::part_index;
use crate::run::run;
use crate::runs::draw::{Draw as Runs, LONGEST_ROOM};

/// What a list is refused for.
#[derive(Clone, Copy)]
pub enum Fault {
    /// So many bytes of a record are left at its end.
    Cut(usize),
    /// Of a record, the byte that is wrong, and what it is.
    Record(usize, u8),
    Total,
}

impl Fault {
    pub fn number(self) -> u64 {
        match self {
            Fault::Cut(_) => 20,
            Fault::Record(..) => 21,
            Fault::Total => 22,
        }
    }
}

pub struct Draw {
    runs: Runs,
    accesses: Vec<u8>,
}

impl Draw {
    pub fn new(seed: u64) -> Draw {
        Draw {
            runs: Runs::new(seed),
            accesses: vec![0; LONGEST_ROOM],
        }
    }

    pub fn next(&mut self, random: &mut Random, seen: &mut Seen) -> Vec<u8> {
        let records = match random.below(2000) {
            0 => random.between(65_537, 150_000),
            1..=20 => random.between(1000, 10_000),
            21..=300 => random.between(0, 300),
            301..=900 => random.between(0, 20),
            _ => return self.of_a_run(seen),
        };
        seen.random += 1;
        self::records(random, records)
    }

    /// What the steps of a random run listed, by the second program's own step.
    fn of_a_run(&mut self, seen: &mut Seen) -> Vec<u8> {
        loop {
            let mut drawn = self.runs.next();
            if drawn.faults != 0 {
                continue;
            }
            let image = &mut self.runs.pool[drawn.images].copies[0][..drawn.image_len];
            let (record, room) = (&mut drawn.record[..16], &mut self.accesses[..drawn.room]);
            let ran = run(record, image, &drawn.script, room);
            let list = &self.accesses[..ran.listed as usize * ACCESS];
            if let Ok(left) = Record::read(&drawn.record[..16]) {
                seen.note_run(part_index(left.part), list);
            }
            return list.to_vec();
        }
    }
}

/// Records of any pages, or of few or one. The bytes that do not count are random, so far as a list may have them.
pub fn records(random: &mut Random, records: usize) -> Vec<u8> {
    let (page, others) = (random.byte(), random.pick(&[0x00, 0x01, 0x0F, 0x80, 0xFF]));
    let mut list = Vec::with_capacity(records * ACCESS);
    for _ in 0..records {
        let bytes = random.next().to_le_bytes();
        let address = u16::from_le_bytes([bytes[0], page ^ bytes[1] & others]);
        let (written, purpose) = (bytes[4] & 1, bytes[5] & 7);
        list.extend(access(bytes[2], address, bytes[3], written, purpose));
    }
    list
}

/// Where the pieces of a list end, but the last, in records.
pub fn ends(random: &mut Random, records: usize) -> Vec<usize> {
    let pieces = match random.below(8) {
        0 => 0,
        1..=4 => random.between(1, 3),
        5 | 6 => random.between(4, 12),
        _ => random.between(13, 40),
    };
    let mut ends: Vec<usize> = (0..pieces).map(|_| random.between(0, records)).collect();
    ends.sort_unstable();
    ends
}

/// Leaves a part of a record at the list's end. None where it has no record.
pub fn cut(random: &mut Random, list: &mut Vec<u8>) -> Option<Fault> {
    let record = any_record(random, list)?;
    let left = random.between(1, ACCESS - 1);
    list.truncate(record * ACCESS + left);
    Some(Fault::Cut(left))
}

/// Spoils a record. None where the list has none, or where byte 5 has become another that is right.
pub fn malform(random: &mut Random, list: &mut [u8]) -> Option<Fault> {
    let record = any_record(random, list)?;
    let byte = random.between(4, 7);
    let value = match random.one_in(2) {
        true => 1 << random.below(8),
        false => random.byte(),
    };
    let value = match byte {
        5 => random.pick(&[7, 8, value, value]),
        _ => value.max(least_bad(byte)),
    };
    list[record * ACCESS + byte] = value;
    (value >= least_bad(byte)).then_some(Fault::Record(byte, value))
}

/// From this value on, a byte of a record is bad. Bytes 0 to 3 have none.
pub fn least_bad(byte: usize) -> u8 {
    match byte {
        4 => 2,
        5 => 8,
        _ => 1,
    }
}

/// The first and the last are drawn more often.
fn any_record(random: &mut Random, list: &[u8]) -> Option<usize> {
    let records = list.len() / ACCESS;
    match random.below(4) {
        _ if records == 0 => None,
        0 => Some(0),
        1 => Some(records - 1),
        _ => Some(random.below(records)),
    }
}
