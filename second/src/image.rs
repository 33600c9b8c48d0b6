//! Self-checking images, as the published functional test is one: played until they stand still, and where they then
//! stand says whether they are content.

use crate::bus::{ACCESS, BANK, MOST_ACCESSES};
use crate::cores::Tested;
use crate::pair::Pair;
use crate::record::{of_6502, pc_of};

/// The published functional test takes some thirty million.
pub const MOST_STEPS: u64 = 200_000_000;
/// The images are compared after so many steps, and at the end.
const STRIDE: u64 = 1000;

/// What is asked of a file.
pub struct Asked<'a> {
    pub file: &'a str,
    /// Where its first byte goes; without it the file is the whole image.
    pub load: Option<u16>,
    pub start: u16,
    pub success: u16,
    pub most: u64,
}

/// Where an image stands still.
struct End {
    at: u16,
    steps: u64,
    cycles: u64,
}

/// True where the second program and the core agree at each step until the image stands still at its success address.
pub fn image(core: Tested, asked: &Asked) -> bool {
    let (is_success, said) = match read(asked).and_then(|image| play(core, image, asked)) {
        Ok(end) => (end.at == asked.success, end.said()),
        Err(why) => (false, why),
    };
    let verdict = match is_success {
        true => "success",
        false => "no success",
    };
    println!(
        "{}: {} at {:04X}: {}",
        asked.file, verdict, asked.success, said
    );
    is_success
}

impl End {
    fn said(&self) -> String {
        format!(
            "stands at {:04X} after {} steps, {} cycles",
            self.at, self.steps, self.cycles
        )
    }
}

/// Zero where the file says nothing.
fn read(asked: &Asked) -> Result<Vec<u8>, String> {
    let bytes = std::fs::read(asked.file).map_err(|why| why.to_string())?;
    let start = usize::from(asked.load.unwrap_or(0));
    match (asked.load, bytes.len()) {
        (None, BANK) => Ok(bytes),
        (None, length) => Err(format!(
            "{} bytes, and without --load an image has {}",
            length, BANK
        )),
        (Some(_), length) if length == 0 || start + length > BANK => Err(format!(
            "{} bytes, and from {:04X} on an image has 1 to {}",
            length,
            start,
            BANK - start
        )),
        (Some(_), length) => {
            let mut image = vec![0; BANK];
            image[start..start + length].copy_from_slice(&bytes);
            Ok(image)
        }
    }
}

/// A step that leaves PC where it was is the end: a jump or a branch to itself.
fn play(core: Tested, image: Vec<u8>, asked: &Asked) -> Result<End, String> {
    let record = of_6502([0, 0, 0, 0xFF, 0x24], asked.start);
    let mut pair = Pair::new(core, record, image, MOST_ACCESSES * ACCESS);
    let (mut at, mut cycles) = (asked.start, 0);
    for steps in 1..=asked.most {
        let with_step = |why| format!("{} at step {}", why, steps);
        let word = pair.step().map_err(with_step)?;
        let before = std::mem::replace(&mut at, pc_of(&pair.mine.record));
        let is_still = at == before;
        if is_still || steps % STRIDE == 0 || steps == asked.most {
            pair.compare_images().map_err(with_step)?;
        }
        cycles += counted(word).map_err(with_step)?;
        if is_still {
            return Ok(End { at, steps, cycles });
        }
    }
    Err(format!(
        "does not stand still within {} steps, PC is {:04X}",
        asked.most, at
    ))
}

/// The cycles that a word tells, or its refusal.
fn counted(word: u64) -> Result<u64, String> {
    match word & 0xFF {
        0 => Ok(word >> 8),
        number => Err(format!(
            "refused by {}, opcode {:02X}, PC {:04X},",
            number,
            word >> 8 & 0xFF,
            word >> 16
        )),
    }
}
