//! A board twice, on the second program and on a core, step by step; nothing is asserted on its lines.

use crate::compare::{tell_first, tell_step};
use crate::core::step;
use crate::cores::Tested;

/// What one of the two was lent, and the word of its last step.
#[derive(Clone)]
pub struct Lent {
    pub record: [u8; 16],
    pub image: Vec<u8>,
    pub accesses: Vec<u8>,
    word: u64,
}

pub struct Pair {
    core: Tested,
    pub mine: Lent,
    pub theirs: Lent,
}

impl Pair {
    pub fn new(core: Tested, record: [u8; 16], image: Vec<u8>, room: usize) -> Pair {
        let mine = Lent {
            record,
            image,
            accesses: vec![0; room],
            word: 0,
        };
        let theirs = mine.clone();
        Pair { core, mine, theirs }
    }

    /// The word of the step. Fails where words, records or access lists are not the same, and tells them; the images
    /// are compared apart, for they are long.
    pub fn step(&mut self) -> Result<u64, String> {
        let (mine, theirs) = (&mut self.mine, &mut self.theirs);
        mine.word = step(&mut mine.record, &mut mine.image, 0, 0, &mut mine.accesses);
        let (record, image) = (&mut theirs.record, &mut theirs.image);
        theirs.word = self.core.step(record, image, 0, 0, &mut theirs.accesses);
        let are_same = mine.word == theirs.word
            && mine.record == theirs.record
            && mine.accesses == theirs.accesses;
        match are_same {
            true => Ok(mine.word),
            false => self.differ(),
        }
    }

    /// Fails as a step does.
    pub fn compare_images(&self) -> Result<(), String> {
        match self.mine.image == self.theirs.image {
            true => Ok(()),
            false => self.differ(),
        }
    }

    fn differ<T>(&self) -> Result<T, String> {
        for (who, lent) in [("second", &self.mine), (self.core.name, &self.theirs)] {
            tell_step(who, lent.word, &lent.record, &lent.accesses);
        }
        tell_first("image byte", 0, &self.mine.image, &self.theirs.image);
        Err(format!("second and {} differ", self.core.name))
    }
}
