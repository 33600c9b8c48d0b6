//! Firmwares that must not be admitted, each of which breaks one clause: what shows that the checker can fail.

use super::player::{Clause, Player};
use crate::admission::{admit, Kind, Mark};
use crate::bus::BANK;
use crate::core::{IRQ, IRQ_VECTOR, RES, RES_VECTOR};
use crate::cores::Tested;
use crate::firmware::Firmware;

const START: u16 = 0xFE00;
const HANDLER: u16 = 0xFFF0;
const STEPS: usize = 2000;

/// IRQ is asserted from this step on.
const IRQ_FROM: usize = 600;

/// The code from START on, as instructions: all of them are marked as main. The handler is an RTI.
struct Fault {
    name: &'static str,
    code: Vec<Vec<u8>>,
    clause: Option<Clause>,
}

fn fault(name: &'static str, code: &[&[u8]], clause: Clause) -> Fault {
    Fault {
        name,
        code: code.iter().map(|bytes| bytes.to_vec()).collect(),
        clause: Some(clause),
    }
}

/// As many pushes, and then nothing but IRQs.
fn pushes(name: &'static str, count: usize, clause: Option<Clause>) -> Fault {
    let mut code = vec![vec![0x58]];
    code.extend(vec![vec![0x48]; count]);
    let [low, high] = (START + 1 + count as u16).to_le_bytes();
    code.push(vec![0x4C, low, high]);
    Fault { name, code, clause }
}

fn faults() -> Vec<Fault> {
    use Clause::*;
    const AGAIN: &[u8] = &[0x4C, 0x00, 0xFE];
    vec![
        fault("undefined opcode", &[&[0x02]], NeverRefuses),
        fault(
            "JMP out of the map",
            &[&[0x4C, 0x80, 0xFE]],
            RunsWhatIsMarked,
        ),
        fault("JMP (a)", &[&[0x6C, 0x10, 0x00]], RunsWhatIsMarked),
        fault(
            "STA 0150",
            &[&[0x8D, 0x50, 0x01], AGAIN],
            WritesTheStackByPushes,
        ),
        fault(
            "INC 0150",
            &[&[0xEE, 0x50, 0x01], AGAIN],
            WritesTheStackByPushes,
        ),
        fault(
            "STA 0080,X",
            &[&[0xA2, 0x90], &[0x9D, 0x80, 0x00], AGAIN],
            WritesTheStackByPushes,
        ),
        fault(
            "STA (10),Y",
            &[&[0xA9, 0x01], &[0x85, 0x11], &[0x91, 0x10], AGAIN],
            WritesTheStackByPushes,
        ),
        fault("BRK", &[&[0x00]], WritesTheStackByPushes),
        fault("PLA at height 0", &[&[0x68], AGAIN], AtLeast0),
        fault("RTS in main", &[&[0x60]], AtLeast0),
        fault("RTI in main", &[&[0x40]], AtLeast0),
        fault("PHA without end", &[&[0x48], AGAIN], AtMost256),
        fault("JSR without end", &[&[0x20, 0x00, 0xFE]], AtMost256),
        fault("PHP, PLP", &[&[0x08], &[0x28], AGAIN], AtMost256),
        pushes("254 bytes and an IRQ", 254, Some(AtMost256)),
        pushes("253 bytes and an IRQ", 253, None),
    ]
}

impl Fault {
    fn firmware(&self) -> Firmware {
        let mut firmware = Firmware {
            image: vec![0; BANK],
            c: 2,
            marks: Vec::new(),
            is_overlapped: false,
        };
        let (mut address, mut height) = (START, 0);
        let deepest = self.code.iter().filter(|bytes| bytes[0] == 0x48).count() as u8;
        for bytes in &self.code {
            firmware.put(address, bytes);
            firmware.marks.push(Mark {
                address,
                kind: Kind::Main,
                height,
                need: deepest - height,
            });
            address += bytes.len() as u16;
            height += u8::from(bytes[0] == 0x48);
        }
        firmware.put(HANDLER, &[0x40]);
        firmware.marks.push(Mark {
            address: HANDLER,
            kind: Kind::Handler,
            height: 0,
            need: 0,
        });
        firmware.put(RES_VECTOR, &START.to_le_bytes());
        firmware.put(IRQ_VECTOR, &HANDLER.to_le_bytes());
        firmware
    }

    fn holds(&self, core: Tested) -> bool {
        let firmware = self.firmware();
        let word = admit(&firmware.image, firmware.c, &firmware.map());
        let record = [2, 0, 0, 0, 0xFF, 0x24, 0, 0x80, 0, 0, 0, 0, 0, 0, 0, 0];
        let mut player = Player::new(core, &firmware, record);
        let broken = (0..STEPS).find_map(|number| {
            let lines = match number {
                0 => RES,
                1..=IRQ_FROM => 0,
                _ => IRQ,
            };
            player.step(lines).err()
        });
        let holds = broken == self.clause && (word == 0) == self.clause.is_none();
        if !holds {
            println!("{}: {:?}, answer {:X}", self.name, broken, word);
            println!("  expected {:?}", self.clause);
        }
        holds
    }
}

/// True where the checker finds each fault, by its clause, and admission turns it away.
pub fn are_found(core: Tested) -> bool {
    let faults = faults();
    let failed = faults.iter().filter(|fault| !fault.holds(core)).count();
    println!("{} firmwares with faults: {} failed", faults.len(), failed);
    failed == 0
}
