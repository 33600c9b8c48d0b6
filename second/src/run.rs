//! A run: a script of steps on one record and image.

use crate::bus::ACCESS;
use crate::core::{image_fits, step};
use crate::record::Record;

/// The board's word, and what a run sets beside it.
#[derive(Clone, Copy, PartialEq, Eq)]
pub struct Ran {
    pub word: u64,
    pub steps: u64,
    pub listed: u64,
}

/// The script has two bytes per step, lines and pins.
pub fn run(record: &mut [u8], image: &mut [u8], script: &[u8], accesses: &mut [u8]) -> Ran {
    let mut ran = Ran {
        word: 0,
        steps: 0,
        listed: 0,
    };
    if let Err(number) = fits(record, image, script) {
        ran.word = number;
        return ran;
    }
    for inputs in script.chunks(2) {
        // "Each step's list is written into the rest of the access buffer."
        let rest = &mut accesses[ran.listed as usize * ACCESS..];
        let word = step(record, image, inputs[0], inputs[1], rest);
        // "A refusal in a step ends it, with the steps done standing and counted."
        if word & 0xFF != 0 {
            ran.word = word;
            break;
        }
        ran.steps += 1;
        ran.listed += word >> 8;
    }
    ran
}

/// "Run: 1, 2, 3, 7 before anything."
fn fits(record: &[u8], image: &[u8], script: &[u8]) -> Result<(), u64> {
    let read = Record::read(record)?;
    if !image_fits(read.part, image.len()) {
        return Err(3);
    }
    if script.len() % 2 == 1 {
        return Err(7);
    }
    Ok(())
}
