//! Demand 3 on admitted firmwares: resets, interrupt requests and neighbours' writes, and every clause at each step.

mod faults;
mod player;
mod seen;

use crate::admission::admit;
use crate::bus::{ACCESS, MOST_ACCESSES};
use crate::cases::fresh_record;
use crate::compare::hex;
use crate::core::{IRQ, RES};
use crate::cores::{Noise, Tested};
use crate::firmware::{Draw, Firmware, Shape};
use crate::random::Random;
use player::Player;
use seen::Seen;

/// Of each firmware.
const MOST_STEPS: u64 = 4000;
const RUN: usize = 400;
/// Tries to alter a firmware, times the records of its map.
const MOST_STRAY: usize = 5_000;
/// TXS, CLI, SEI, PHA, PHP, PLA, PLP, RTS, RTI, BRK: those that have a rule of their own, and SEI.
const OF_ONE_BYTE: [u8; 10] = [0x9A, 0x58, 0x78, 0x48, 0x08, 0x68, 0x28, 0x60, 0x40, 0x00];

struct Promise {
    core: Tested,
    draw: Draw,
    seen: Seen,
}

/// True where every clause held at each step, the checker finds faults, and no needed kind was missing.
pub fn promise(core: Tested, steps: u64, seed: u64) -> bool {
    if !faults::are_found(core) {
        return false;
    }
    println!("seed {}", seed);
    println!("demand 3 on {}, {} steps", core.name, steps);
    let mut promise = Promise {
        core,
        draw: Draw::new(Random::new(seed)),
        seen: Seen::new(),
    };
    let mut done = 0;
    while done < steps {
        let next = MOST_STEPS.min(steps - done);
        if !promise.play_next(next) {
            println!("after {} steps of seed {}", done, seed);
            return false;
        }
        done += next;
    }
    promise.seen.report()
}

impl Promise {
    fn play_next(&mut self, steps: u64) -> bool {
        let firmware = self.firmware();
        if !is_admitted(&firmware) {
            println!("a firmware that should be admitted is not");
            tell(&firmware);
            return false;
        }
        let record = fresh_record(&mut self.draw.random, 2);
        let mut player = Player::new(self.core, &firmware, record);
        self.seen.begin(&firmware);
        let mut lines = Lines::new(&mut self.draw.random);
        for number in 0..steps {
            let random = &mut self.draw.random;
            self.seen.neighbours += neighbours_write(random, &firmware, &mut player.image);
            let lines = match number {
                0 => RES,
                _ => lines.next(random),
            };
            match player.step(lines) {
                Ok(done) => self.seen.note(lines, &done),
                Err(clause) => {
                    println!("broken at step {}: {:?}", number, clause);
                    println!("lines {:02X}, record then {}", lines, hex(&player.record));
                    tell(&firmware);
                    return false;
                }
            }
        }
        if self.run_agrees(player) {
            return true;
        }
        println!("a run does not play its script to the end as its steps do");
        tell(&firmware);
        false
    }

    fn firmware(&mut self) -> Firmware {
        let random = &mut self.draw.random;
        let (routines, length) = match random.below(4) {
            0 => (random.below(2), random.below(8)),
            1 => (random.below(6), random.below(80)),
            _ => (random.below(8), random.below(30)),
        };
        let shape = Shape {
            routines,
            length,
            islands: 0,
            is_overlapped: random.one_in(4),
            is_deep: random.one_in(4),
            is_spare: random.one_in(4),
            records: match random.one_in(200) {
                true => random.between(2000, 8192),
                false => 0,
            },
        };
        let mut firmware = self.draw.firmware(shape);
        if self.draw.random.one_in(3) {
            self.stray(&mut firmware);
        }
        firmware
    }

    /// Other bytes in code and map, as long as it is still admitted: what nobody had in mind.
    fn stray(&mut self, firmware: &mut Firmware) {
        let random = &mut self.draw.random;
        for _ in 0..MOST_STRAY / firmware.marks.len() {
            let mut altered = firmware.clone();
            let index = random.below(altered.marks.len());
            let mark = &mut altered.marks[index];
            let address = mark.address;
            match random.below(8) {
                0 => mark.height = mark.height.wrapping_add(random.pick(&[1, 255])),
                1 => mark.need = mark.need.wrapping_add(random.pick(&[1, 255])),
                2 => altered.c = altered.c.wrapping_sub(1),
                3..=5 => altered.put(address, &[random.pick(&OF_ONE_BYTE)]),
                _ => {
                    let at = address.saturating_add(random.pick(&[0, 1, 2]));
                    altered.put(at, &[random.edge_or_byte()]);
                }
            }
            if admit(&altered.image, altered.c, &altered.map()) == 0 {
                self.seen.strays += 1;
                *firmware = altered;
            }
        }
    }

    /// The same script as a run and as steps, both from what the player has come to.
    fn run_agrees(&mut self, mut player: Player) -> bool {
        let random = &mut self.draw.random;
        let mut lines = Lines::new(random);
        let mut script = vec![RES, 0];
        for _ in 1..random.between(1, RUN) {
            script.extend([lines.next(random), 0]);
        }
        let (mut record, mut image) = (player.record, player.image.clone());
        let mut accesses = vec![0; script.len() / 2 * MOST_ACCESSES * ACCESS];
        let noise = Noise::default();
        let ran = self
            .core
            .run(noise, &mut record, &mut image, &script, &mut accesses);
        let mut stepped = Vec::with_capacity(accesses.len());
        for inputs in script.chunks(2) {
            match player.step(inputs[0]) {
                Ok(done) => stepped.extend(done.list),
                Err(clause) => {
                    println!("broken in a run: {:?}", clause);
                    return false;
                }
            }
        }
        self.seen.runs += 1;
        ran.word == 0
            && ran.steps == script.len() as u64 / 2
            && accesses[..ran.listed as usize * ACCESS] == stepped
            && record == player.record
            && image == player.image
    }
}

#[cfg(not(yardstick_only))]
fn is_admitted(firmware: &Firmware) -> bool {
    let (image, c, map) = (&firmware.image, firmware.c, firmware.map());
    admit(image, c, &map) == 0 && crate::cores::admit(image, c, &map, 0) == 0
}

#[cfg(yardstick_only)]
fn is_admitted(firmware: &Firmware) -> bool {
    admit(&firmware.image, firmware.c, &firmware.map()) == 0
}

/// Levels that stay for a while. NMI is quiet.
struct Lines {
    now: u8,
    left: usize,
    /// One level in so many is an interrupt request, and of the others one in so many a reset.
    irq: usize,
    reset: usize,
}

impl Lines {
    fn new(random: &mut Random) -> Lines {
        Lines {
            now: 0,
            left: 0,
            irq: random.pick(&[1, 2, 2, 4, 20]),
            reset: random.pick(&[20, 100, 500]),
        }
    }

    fn next(&mut self, random: &mut Random) -> u8 {
        if self.left == 0 {
            let irq = if random.one_in(self.irq) { IRQ } else { 0 };
            let reset = random.one_in(self.reset);
            self.now = irq | if reset { RES } else { 0 };
            self.left = match reset {
                true => random.between(1, 3),
                false => random.pick(&[1, 1, 2, 5, 30, 200]),
            };
        }
        self.left -= 1;
        self.now
    }
}

/// Anywhere outside the stack page and the protected pages; answers how many bytes.
fn neighbours_write(random: &mut Random, firmware: &Firmware, image: &mut [u8]) -> u64 {
    let most = match random.below(64) {
        0 => 40,
        1..=8 => 2,
        _ => return 0,
    };
    let mut written = 0;
    for _ in 0..most {
        let at = match random.below(4) {
            0 | 1 => random.below(0x0100),
            2 => random.between(0x0200, 0x02FF),
            _ => random.below(firmware.first_protected()),
        };
        if at >> 8 != 1 && at < firmware.first_protected() {
            image[at] = random.edge_or_byte();
            written += 1;
        }
    }
    written
}

fn tell(firmware: &Firmware) {
    println!(
        "c {}, vectors {}",
        firmware.c,
        hex(&firmware.image[0xFFFC..])
    );
    for mark in firmware.marks.iter().take(400) {
        let at = usize::from(mark.address);
        let code = &firmware.image[at..firmware.image.len().min(at + 3)];
        println!("{} {}", hex(&mark.write()), hex(code));
    }
}
