//! Every ADC # and SBC #: both modes, all pairs of bytes, both carries.

use crate::bus::BANK;
use crate::cores::Tested;
use crate::pair::Pair;
use crate::record::of_6502;

const START: u16 = 0x8000;

pub fn arithmetic(core: Tested) -> bool {
    let start = usize::from(START);
    let mut pair = Pair::new(core, of_6502([0; 5], START), vec![0; BANK], 56);
    let mut count = 0;
    for opcode in [0x69, 0xE9] {
        for p in [0x20, 0x21, 0x28, 0x29] {
            for a in 0..=255 {
                for m in 0..=255 {
                    for lent in [&mut pair.mine, &mut pair.theirs] {
                        lent.record = of_6502([a, 0, 0, 0xFF, p], START);
                        lent.image[start..start + 2].copy_from_slice(&[opcode, m]);
                    }
                    if pair.step() != Ok(0x200) || pair.compare_images().is_err() {
                        println!(
                            "opcode {:02X} A {:02X} P {:02X} operand {:02X}",
                            opcode, a, p, m
                        );
                        return false;
                    }
                    count += 1;
                }
            }
        }
    }
    println!("{} sums and differences agree with {}", count, core.name);
    true
}
