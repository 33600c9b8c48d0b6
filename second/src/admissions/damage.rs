//! Ways to spoil an admitted map, image, c or length: one at a time, and most by very little.

use super::case::*;
use crate::admission::{Kind, Mark};
use crate::bus::BANK;
use crate::core::{IRQ_VECTOR, RES_VECTOR};
use crate::opcodes::decode;
use crate::opcodes::Instruction::*;
use crate::random::Random;

/// For damage that may lead to any answer.
pub const ANY: u64 = 99;

pub struct Damage {
    /// The number it is for; 0 where the map is to pass nevertheless.
    pub number: u64,
    pub name: &'static str,
    /// None where the firmware has no place for it.
    pub apply: fn(&mut Random, &mut Case) -> Option<Aim>,
}

macro_rules! damages {
    ($($number:tt $name:literal $apply:expr,)*) => {
        pub const DAMAGES: &[Damage] = &[$(Damage { number: $number, name: $name, apply: $apply },)*];
    };
}

damages! {
    10 "image: empty" |_, case| case.cut_image(0),
    10 "image: 1 to 65534" |random, case| case.cut_image(random.between(1, BANK - 2)),
    10 "image: 65535" |_, case| case.cut_image(BANK - 1),
    10 "image: 65537" |_, case| case.cut_image(BANK + 1),
    10 "image: 131072" |_, case| case.cut_image(2 * BANK),
    10 "c: 0" |_, case| case.set_c(0),
    10 "c: 255" |_, case| case.set_c(255),
    10 "map: empty" |_, case| case.cut_map(0),
    10 "map: bytes missing" |random, case| case.cut_map(case.map.len().saturating_sub(random.between(1, 7))),
    10 "map: bytes too many" |random, case| case.cut_map(case.map.len() + random.between(1, 7)),
    10 "map: 65537 to 65543 bytes" |random, case| case.long_map(random.between(1, 7)),
    10 "map: 65544 bytes" |_, case| case.long_map(8),
    11 "kind: 0" |random, case| case.set_byte(random, 2, 0),
    11 "kind: 4" |random, case| case.set_byte(random, 2, 4),
    11 "kind: 5 to 255" |random, case| {
        let kind = random.between(5, 255) as u8;
        case.set_byte(random, 2, kind)
    },
    11 "byte 5" |random, case| case.set_zero(random, 5),
    11 "byte 6" |random, case| case.set_zero(random, 6),
    11 "byte 7" |random, case| case.set_zero(random, 7),
    11 "address: that before it" |random, case| case.lower(random, 0),
    11 "address: below that before it" |random, case| case.lower(random, 1),
    11 "records: swapped" swap,
    11 "records: doubled" double,
    12 "FFFC: no record" |random, case| case.aim_nowhere(random, RES_VECTOR),
    12 "FFFC: routine" |random, case| case.aim(random, RES_VECTOR, |mark| is(mark, Kind::Routine, 0)),
    12 "FFFC: handler" |random, case| case.aim(random, RES_VECTOR, |mark| is(mark, Kind::Handler, 0)),
    12 "FFFC: height over 0" |random, case| case.aim(random, RES_VECTOR, |mark| is_high(mark, Kind::Main)),
    12 "FFFE: no record" |random, case| case.aim_nowhere(random, IRQ_VECTOR),
    12 "FFFE: routine" |random, case| case.aim(random, IRQ_VECTOR, |mark| is(mark, Kind::Routine, 0)),
    12 "FFFE: main" |random, case| case.aim(random, IRQ_VECTOR, |mark| is(mark, Kind::Main, 0)),
    12 "FFFE: height over 0" |random, case| case.aim(random, IRQ_VECTOR, |mark| is_high(mark, Kind::Handler)),
    12 "room: 257" |_, case| case.fill_room(254),
    12 "room: 258" |_, case| case.fill_room(255),
    13 "place: c too small" smaller_c,
    13 "place: begins a byte too low" begin_low,
    13 "place: ends past FFFF" |random, case| case.add_top(random, |length, left| length > left),
    13 "undefined" |random, case| {
        let mut opcode = random.byte();
        while decode(opcode).is_some() {
            opcode = random.byte();
        }
        case.replace(random, opcode)
    },
    13 "BRK" |random, case| case.replace(random, 0x00),
    13 "PLP" |random, case| case.replace(random, 0x28),
    13 "JMP (a)" |random, case| case.replace(random, 0x6C),
    13 "81" |random, case| case.replace(random, 0x81),
    13 "91" |random, case| case.replace(random, 0x91),
    14 "absolute: 0100" |random, case| case.store(random, false, 0x0100),
    14 "absolute: 01FF" |random, case| case.store(random, false, 0x01FF),
    14 "absolute: between" |random, case| {
        let address = random.between(0x0101, 0x01FE);
        case.store(random, false, address as u16)
    },
    14 "a,X or a,Y: 0001" |random, case| case.store(random, true, 0x0001),
    14 "a,X or a,Y: 01FF" |random, case| case.store(random, true, 0x01FF),
    14 "a,X or a,Y: between" |random, case| {
        let address = random.between(0x0002, 0x01FE);
        case.store(random, true, address as u16)
    },
    15 "TXS: routine" |random, case| case.put_at(random, 0x9A, |mark| is(mark, Kind::Routine, 0)),
    15 "TXS: handler" |random, case| case.put_at(random, 0x9A, |mark| is(mark, Kind::Handler, 0)),
    15 "TXS: height over 0" |random, case| case.put_at(random, 0x9A, |mark| is_high(mark, Kind::Main)),
    15 "CLI: routine" |random, case| case.put_at(random, 0x58, |mark| mark.kind == Kind::Routine),
    15 "CLI: handler" |random, case| case.put_at(random, 0x58, |mark| mark.kind == Kind::Handler),
    15 "RTS: main" |random, case| case.put_at(random, 0x60, |mark| is(mark, Kind::Main, 0)),
    15 "RTS: handler" |random, case| case.put_at(random, 0x60, |mark| is(mark, Kind::Handler, 0)),
    15 "RTS: height over 0" |random, case| case.put_at(random, 0x60, |mark| is_high(mark, Kind::Routine)),
    15 "RTI: main" |random, case| case.put_at(random, 0x40, |mark| is(mark, Kind::Main, 0)),
    15 "RTI: routine" |random, case| case.put_at(random, 0x40, |mark| is(mark, Kind::Routine, 0)),
    15 "RTI: height over 0" |random, case| case.put_at(random, 0x40, |mark| is_high(mark, Kind::Handler)),
    15 "PLA: height 0" |random, case| case.put_at(random, 0x68, |mark| mark.height == 0),
    16 "next: not marked" |random, case| case.drop_record(random),
    16 "next: past FFFF" |random, case| case.add_top(random, |length, left| length == left),
    16 "next: need, push" |random, case| case.short_need(random, |it| matches!(it, Pha | Php), 0),
    16 "next: need, PLA" |random, case| case.short_need(random, |it| matches!(it, Pla), 2),
    16 "next: need, others" |random, case| {
        case.short_need(random, |it| !matches!(it, Pha | Php | Pla | Jmp | Rts | Rti), 1)
    },
    16 "height: one more" |random, case| case.add_to_byte(random, 3, 1),
    16 "height: one less" |random, case| case.add_to_byte(random, 3, 255),
    16 "need: one more" |random, case| case.add_to_byte(random, 4, 1),
    16 "need: one less" |random, case| case.add_to_byte(random, 4, 255),
    16 "kind: another" |random, case| case.other_kind(random),
    16 "branch: offset" |random, case| case.bend(random, |it| matches!(it, Branch(..))),
    16 "JMP: target" |random, case| case.bend(random, |it| matches!(it, Jmp)),
    16 "JSR: target" |random, case| case.bend(random, |it| matches!(it, Jsr)),
    16 "JSR: main" |random, case| case.call(random, |mark| is(mark, Kind::Main, 0)),
    16 "JSR: handler" |random, case| case.call(random, |mark| is(mark, Kind::Handler, 0)),
    16 "JSR: height over 0" |random, case| case.call(random, |mark| is_high(mark, Kind::Routine)),
    16 "JSR: need" short_call,
    0 "absolute: 00FF, 0200" |random, case| {
        let address = random.pick(&[0x00FF, 0x0200]);
        case.move_store(random, false, address)
    },
    0 "a,X or a,Y: 0000, 0200" |random, case| {
        let address = random.pick(&[0x0000, 0x0200]);
        case.move_store(random, true, address)
    },
    0 "room: 256" |_, case| case.fill_room(253),
    0 "c: larger" |random, case| {
        let c = usize::from(case.firmware.c).min(254);
        case.set_c(random.between(c, 254) as u8)
    },
    0 "image: byte elsewhere" byte_elsewhere,
    ANY "map: any byte" any_map_byte,
    ANY "image: any byte of code" any_code_byte,
    ANY "c: any" |random, case| case.set_c(random.byte()),
}

fn is(mark: &Mark, kind: Kind, height: u8) -> bool {
    mark.kind == kind && mark.height == height
}

fn is_high(mark: &Mark, kind: Kind) -> bool {
    mark.kind == kind && mark.height > 0
}
