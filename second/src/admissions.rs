//! Maps nearly right, on the second program's judge and on the archive's.

mod case;
mod damage;
mod examples;
mod seen;

use crate::admission::admit;
use crate::bus::BANK;
use crate::cases::{GUARD, MOST_SHIFT};
use crate::compare::{hex, tell_first};
use crate::cores;
use crate::firmware::{Draw, Firmware, Shape};
use crate::random::Random;
use case::{Aim, Case};
use damage::{ANY, DAMAGES};
use seen::Seen;

/// How many maps are made of one firmware.
const MAPS_OF_ONE: u64 = 8;

/// What the archive is lent, with room around it; the second program's answer comes first and changes nothing.
struct Comparison {
    draw: Draw,
    firmware: Firmware,
    image: Vec<u8>,
    image_before: Vec<u8>,
    map: Vec<u8>,
    map_before: Vec<u8>,
    seen: Seen,
}

/// True where no answer differed and no needed kind was missing.
pub fn admissions(maps: u64, seed: u64) -> bool {
    if !examples::examples() {
        return false;
    }
    println!("seed {}", seed);
    println!("second program against archive, {} maps", maps);
    let mut comparison = Comparison::new(seed);
    for number in 0..maps {
        if number % MAPS_OF_ONE == 0 {
            comparison.next_firmware();
        }
        if !comparison.next() {
            println!("first difference at map {} of seed {}", number, seed);
            return false;
        }
    }
    comparison.seen.report(maps)
}

impl Comparison {
    fn new(seed: u64) -> Comparison {
        let mut draw = Draw::new(Random::new(seed));
        let mut image = vec![0; 2 * BANK + GUARD];
        draw.random.fill(&mut image);
        Comparison {
            firmware: draw.firmware(Shape::default()),
            draw,
            image_before: image.clone(),
            image,
            map: Vec::new(),
            map_before: Vec::new(),
            seen: Seen::new(),
        }
    }

    fn next_firmware(&mut self) {
        let random = &mut self.draw.random;
        let (routines, length) = match random.below(4) {
            0 => (random.below(2), random.below(6)),
            1 | 2 => (random.below(4), random.below(24)),
            _ => (random.below(6), random.below(60)),
        };
        let records = match random.below(2000) {
            0 => 8192,
            1..=3 => random.between(500, 8192),
            _ => 0,
        };
        let shape = Shape {
            routines,
            length,
            islands: random.pick(&[0, 0, 1, 3]),
            is_overlapped: random.one_in(6),
            is_deep: records == 0 && random.one_in(16),
            is_spare: random.one_in(3),
            records,
        };
        self.firmware = self.draw.firmware(shape);
    }

    fn next(&mut self) -> bool {
        let mut case = Case {
            map: self.firmware.map(),
            firmware: self.firmware.clone(),
            image_len: BANK,
        };
        let damages = self.damage(&mut case);
        self.lend(&case);
        let shift = self.draw.random.between(0, MOST_SHIFT);
        let lent = shift..shift + case.map.len();
        self.map.splice(0..0, vec![0; shift]);
        self.map_before.splice(0..0, vec![0; shift]);

        let mine = admit(
            &self.image_before[..case.image_len],
            case.firmware.c,
            &self.map_before[lent.clone()],
        );
        if !answers_its_damage(&case, &damages, mine) {
            println!("the second program's {:X} is not the damage's", mine);
            self.tell(&case, &damages);
            return false;
        }
        let empty = self.draw.random.pick(&[0, 1, usize::MAX]);
        let theirs = cores::admit(
            &self.image[..case.image_len],
            case.firmware.c,
            &self.map[lent],
            empty,
        );
        if mine != theirs || self.image != self.image_before || self.map != self.map_before {
            println!("second {:X}, archive {:X}", mine, theirs);
            tell_first("image byte", 0, &self.image_before, &self.image);
            tell_first("map byte", shift, &self.map_before, &self.map);
            self.tell(&case, &damages);
            return false;
        }
        self.seen.note(&case, &damages, mine);
        true
    }

    /// None, one, or several; answers which of DAMAGES.
    fn damage(&mut self, case: &mut Case) -> Vec<(usize, Aim)> {
        let random = &mut self.draw.random;
        let most = match random.below(6) {
            0 => 0,
            1 => random.between(2, 3),
            _ => 1,
        };
        let mut damages = Vec::new();
        while damages.len() < most {
            let damage = random.below(DAMAGES.len());
            if case.map.is_empty() {
                break;
            }
            if let Some(aim) = (DAMAGES[damage].apply)(random, case) {
                damages.push((damage, aim));
            }
        }
        damages
    }

    fn lend(&mut self, case: &Case) {
        for image in [&mut self.image, &mut self.image_before] {
            image[..BANK].copy_from_slice(&case.firmware.image);
        }
        for map in [&mut self.map, &mut self.map_before] {
            map.clear();
            map.extend(&case.map);
            map.extend([0xEE; GUARD]);
        }
    }

    fn tell(&self, case: &Case, damages: &[(usize, Aim)]) {
        for (damage, _) in damages {
            println!(
                "damage {} {}",
                DAMAGES[*damage].number, DAMAGES[*damage].name
            );
        }
        println!("image {} bytes, c {}", case.image_len, case.firmware.c);
        println!("vectors {}", hex(&case.firmware.image[0xFFFC..]));
        println!("map {} bytes", case.map.len());
        for (index, record) in case.map.chunks(8).enumerate().take(200) {
            let at = usize::from(record[0]) | usize::from(*record.get(1).unwrap_or(&0)) << 8;
            let code = &case.firmware.image[at..BANK.min(at + 3)];
            println!("{:>5} {} {}", index, hex(record), hex(code));
        }
    }
}

/// One damage alone is answered by its number, and where it is known by its record; none by 0.
fn answers_its_damage(case: &Case, damages: &[(usize, Aim)], word: u64) -> bool {
    let (damage, aim) = match damages {
        [] => return word == 0,
        [one] => *one,
        _ => return true,
    };
    let number = DAMAGES[damage].number;
    // A byte that is of two instructions may break a rule at either.
    if number == ANY || case.firmware.is_overlapped && !(10..=12).contains(&number) {
        return true;
    }
    match aim {
        Aim::Whole => word == number,
        Aim::Record(index) => word == number | (index as u64) << 16,
        Aim::Unknown => true,
    }
}
