//! Random runs: images of opcodes, scripts in which lines keep their levels for a while, short rooms, damaged inputs.

use crate::bus::BANK;
use crate::cases::{
    defined_opcodes, fresh_record, malform, spoil_inputs, wrong_image_length, Fault, GUARD,
    LEAST_ROOM, LONGEST_RECORD,
};
use crate::random::Random;

pub const MOST_STEPS: usize = 400;
pub const LONGEST_SCRIPT: usize = 2 * MOST_STEPS + 1;
pub const LONGEST_ROOM: usize = (MOST_STEPS + 1) * LEAST_ROOM;

/// What lies behind the last bank.
const UNTOUCHED: u8 = 0xEE;

/// One image three times: the second program's, that of the core's run and that of the core's steps.
pub struct Images {
    banks: usize,
    /// How many of a bank's bytes are set to undefined opcodes.
    undefined: usize,
    pub copies: [Vec<u8>; 3],
}

pub struct Drawn {
    pub images: usize,
    pub image_len: usize,
    pub record: [u8; LONGEST_RECORD],
    pub record_len: usize,
    pub script: Vec<u8>,
    pub room: usize,
    /// Bit n where refusal n, of 1, 2, 3 and 7, would apply if no lower one did.
    pub faults: u8,
    pub only_fault: Option<Fault>,
}

pub struct Draw {
    pub random: Random,
    pub pool: Vec<Images>,
    /// A defined opcode for every byte.
    code: Vec<u8>,
    undefined: Vec<u8>,
}

/// Banks and undefined opcodes. The images of 17 banks lend 16, or all as a fault; those of 32 are for a fault alone.
const POOL: [(usize, usize); 8] = [
    (1, 0),
    (1, 600),
    (1, 6000),
    (2, 100),
    (4, 100),
    (8, 100),
    (17, 100),
    (32, 0),
];

impl Draw {
    pub fn new(seed: u64) -> Draw {
        let is_defined = defined_opcodes();
        let (defined, undefined): (Vec<u8>, _) =
            (0..=255).partition(|&opcode| is_defined[usize::from(opcode)]);
        let mut draw = Draw {
            random: Random::new(seed),
            pool: POOL.iter().map(|&of| Images::new(of)).collect(),
            code: defined.iter().copied().cycle().take(256).collect(),
            undefined,
        };
        for (images, (banks, _)) in POOL.iter().enumerate() {
            (0..*banks).for_each(|bank| draw.write_bank(images, bank));
        }
        draw
    }

    pub fn next(&mut self) -> Drawn {
        let part = self.random.pick(&[2, 8, 9]);
        let images = self.images_for(part);
        let banks = self.pool[images].banks.min(16);
        // Runs wear an image out: what they write is any byte.
        if self.random.one_in(16) {
            let bank = self.random.below(banks);
            self.write_bank(images, bank);
        }
        let steps = self.steps();
        let mut record = [0; LONGEST_RECORD];
        self.random.fill(&mut record[16..]);
        record[..16].copy_from_slice(&fresh_record(&mut self.random, part));
        let mut drawn = Drawn {
            images,
            image_len: banks * BANK,
            record,
            record_len: 16,
            script: self.script(part, steps),
            room: self.room(steps),
            faults: 0,
            only_fault: None,
        };
        if self.random.one_in(8) {
            self.damage(part, &mut drawn);
        }
        drawn
    }

    /// Every byte of an image is compared after every run, so large ones are the smaller share.
    fn images_for(&mut self, part: u8) -> usize {
        match (part, self.random.below(100)) {
            (9, 0..=15) => 3,
            (9, 16..=23) => 4,
            (9, 24..=27) => 5,
            (9, 28..=30) => 6,
            _ => self.random.below(3),
        }
    }

    /// Defined opcodes all over, and some undefined ones. A run over mere random bytes would end at once.
    fn write_bank(&mut self, images: usize, bank: usize) {
        let Images {
            undefined, copies, ..
        } = &mut self.pool[images];
        let [mine, theirs, stepped] = copies;
        let bank = bank * BANK..(bank + 1) * BANK;
        let mine = &mut mine[bank.clone()];
        self.random.fill(mine);
        for byte in mine.iter_mut() {
            *byte = self.code[usize::from(*byte)];
        }
        for _ in 0..*undefined {
            mine[self.random.below(BANK)] = self.random.pick(&self.undefined);
        }
        theirs[bank.clone()].copy_from_slice(mine);
        stepped[bank].copy_from_slice(mine);
    }

    fn steps(&mut self) -> usize {
        match self.random.below(16) {
            0 => 0,
            1..=7 => self.random.between(1, 8),
            8..=12 => self.random.between(8, 80),
            _ => self.random.between(80, MOST_STEPS),
        }
    }

    fn script(&mut self, part: u8, steps: usize) -> Vec<u8> {
        let random = &mut self.random;
        let is_calm = random.one_in(2);
        let mut lines = 0;
        let mut script = Vec::with_capacity(LONGEST_SCRIPT);
        for _ in 0..steps {
            if !is_calm && random.one_in(6) {
                lines = random.byte() & if part == 8 { 0x05 } else { 0x07 };
                // Under RES a run goes nowhere.
                lines &= random.pick(&[0x06, 0x06, 0x06, 0x07]);
            }
            let pins = if part == 8 { random.byte() } else { 0 };
            script.extend([lines, pins]);
        }
        if steps > 0 && random.one_in(4) {
            let among = random.pick(&[1, steps, steps]);
            let at = 2 * random.below(among);
            let (lines, pins) = script[at..].split_at_mut(1);
            spoil_inputs(random, part, (&mut lines[0], &mut pins[0]));
        }
        script
    }

    /// For no step; for more or fewer steps than there are, by their usual length; or for all, whatever they do.
    fn room(&mut self, steps: usize) -> usize {
        match self.random.below(8) {
            0 => self.random.below(LEAST_ROOM),
            1..=3 => LEAST_ROOM + self.random.below(32 * steps + 8),
            _ => LEAST_ROOM * steps + self.random.below(LEAST_ROOM),
        }
    }

    fn damage(&mut self, part: u8, drawn: &mut Drawn) {
        let is_alone = self.random.one_in(2);
        let most = if is_alone { 1 } else { 3 };
        for _ in 0..self.random.between(1, most) {
            let (number, fault) = match self.random.below(4) {
                0 => (1, Some(self.damage_record_length(drawn))),
                1 => {
                    let fault = malform(&mut self.random, part, &mut drawn.record);
                    (2, Some(Fault::Record(fault)))
                }
                2 => (3, Some(self.damage_image(part, drawn))),
                _ => {
                    self.damage_script(drawn);
                    (7, None)
                }
            };
            drawn.faults |= 1 << number;
            drawn.only_fault = fault.filter(|_| is_alone);
        }
    }

    fn damage_record_length(&mut self, drawn: &mut Drawn) -> Fault {
        while drawn.record_len == 16 {
            drawn.record_len = self.random.between(0, LONGEST_RECORD);
        }
        Fault::RecordLength(drawn.record_len)
    }

    fn damage_image(&mut self, part: u8, drawn: &mut Drawn) -> Fault {
        let (fault, length) = wrong_image_length(&mut self.random, part);
        let holds = |images: &Images| length <= images.banks * BANK + GUARD;
        if !holds(&self.pool[drawn.images]) {
            drawn.images = self.pool.iter().position(holds).expect("the largest holds");
        }
        drawn.image_len = length;
        Fault::Image(fault)
    }

    fn damage_script(&mut self, drawn: &mut Drawn) {
        if drawn.script.len() % 2 == 1 {
            return;
        }
        if drawn.script.is_empty() || self.random.one_in(2) {
            drawn.script.push(self.random.byte() & 0x07);
        } else {
            drawn.script.pop();
        }
    }
}

impl Images {
    fn new((banks, undefined): (usize, usize)) -> Images {
        Images {
            banks,
            undefined,
            copies: [(); 3].map(|()| vec![UNTOUCHED; banks * BANK + GUARD]),
        }
    }
}
