//! Cycles by page: the reads and the writes of access lists.

use crate::bus::ACCESS;

pub const PAGES: usize = 256;

/// One count for each page, of its reads or of its writes.
pub type Counts = [u64; PAGES];

/// Answers the board's word: 20, 21 or 22, "and the counts stay", or 0 where the list was counted.
pub fn pages(reads: &mut Counts, writes: &mut Counts, list: &[u8]) -> u64 {
    if list.len() % ACCESS != 0 {
        return 20;
    }
    if !list.chunks(ACCESS).all(is_well_formed) {
        return 21;
    }
    let records = (list.len() / ACCESS) as u128;
    // "A total of all counts that would pass 64 bits."
    if total(reads, writes) + records > u128::from(u64::MAX) {
        return 22;
    }
    for record in list.chunks(ACCESS) {
        let page = usize::from(record[1]);
        match record[4] {
            0 => reads[page] += 1,
            _ => writes[page] += 1,
        }
    }
    0
}

/// Of all 512, in as many bits as it takes.
pub fn total(reads: &Counts, writes: &Counts) -> u128 {
    reads
        .iter()
        .chain(writes)
        .map(|&count| u128::from(count))
        .sum()
}

/// "A record with byte 4 above 1" is none, and "21 now judges byte 5 as 0 to 7, where 0 is a list from before this
/// change, and bytes 6 and 7 as zero". "On the 6509 banks are ignored."
fn is_well_formed(record: &[u8]) -> bool {
    record[4] <= 1 && record[5] <= 7 && record[6..] == [0, 0]
}
