//! Cases in the layout of the published suites of single instructions: a step of each, held to all that the case says.
//! That is an address, a value and a kind for each access: in its purpose the core is held to the second program alone.

mod case;

use crate::bus::{ACCESS, MOST_ACCESSES};
use crate::compare::first_difference;
use crate::cores::Tested;
use crate::json;
use crate::opcodes::decode;
use crate::pair::{Lent, Pair};
use case::{list, Case, TOLD};

const RECORD: [&str; 16] = [
    "part", "A", "X", "Y", "S", "P", "PC low", "PC high", "byte 8", "byte 9", "byte 10", "byte 11",
    "cycles", "cycles", "cycles", "cycles",
];

#[derive(Clone, Copy)]
enum Kind {
    Agrees,
    /// An undefined opcode.
    Refused,
}

/// What a step must answer and leave.
struct Wanted {
    word: u64,
    record: [u8; 16],
    list: Vec<[u8; TOLD]>,
    image: Vec<u8>,
}

/// True where every case of every file agrees or is refused as it must be. A file is left at its first case that does neither.
pub fn published(core: Tested, files: &[String]) -> bool {
    let (mut counts, mut failed) = ([0_u64; 2], 0);
    for file in files {
        if let Err(why) = play_file(core, file, &mut counts) {
            println!("{}: {}", file, why);
            failed += 1;
        }
    }
    let [agree, refused] = counts;
    println!(
        "{} files, {} cases: {} agree, {} refused as document 01 says",
        files.len(),
        agree + refused,
        agree,
        refused
    );
    if failed > 0 {
        println!("{} files failed", failed);
    }
    failed == 0
}

fn play_file(core: Tested, file: &str, counts: &mut [u64; 2]) -> Result<(), String> {
    let text = std::fs::read_to_string(file).map_err(|why| why.to_string())?;
    let value = json::read(&text)?;
    let cases = list(&value)?;
    if cases.is_empty() {
        return Err("no case".to_string());
    }
    for (value, number) in cases.iter().zip(1..) {
        let case = Case::read(value).map_err(|why| format!("case {}: {}", number, why))?;
        let kind = play(core, &case)
            .map_err(|why| format!("case {}, \"{}\": {}", number, case.name, why))?;
        counts[kind as usize] += 1;
    }
    Ok(())
}

fn play(core: Tested, case: &Case) -> Result<Kind, String> {
    let image = case.image();
    let opcode = image[usize::from(case.before.pc())];
    let (kind, wanted) = match decode(opcode) {
        Some(_) => (Kind::Agrees, told(case, &image)),
        None => (Kind::Refused, refused(case, &image, opcode)),
    };
    let mut pair = Pair::new(core, case.before.record, image, MOST_ACCESSES * ACCESS);
    // Their lists are compared whole, purposes too.
    let word = pair.step()?;
    pair.compare_images()?;
    match difference(word, &pair.theirs, &wanted) {
        None => Ok(kind),
        Some(why) => Err(why),
    }
}

/// What the case itself says.
fn told(case: &Case, before: &[u8]) -> Wanted {
    let mut image = before.to_vec();
    case.after.put(&mut image);
    let cycles = case.list.len();
    let mut record = case.after.record;
    record[12..16].copy_from_slice(&(cycles as u32).to_le_bytes());
    Wanted {
        word: (cycles as u64) << 8,
        record,
        list: case.list.clone(),
        image,
    }
}

/// Whatever the case says of an undefined opcode: refusal 6, and no byte moves.
fn refused(case: &Case, before: &[u8], opcode: u8) -> Wanted {
    Wanted {
        word: 6 | u64::from(opcode) << 8 | u64::from(case.before.pc()) << 16,
        record: case.before.record,
        list: Vec::new(),
        image: before.to_vec(),
    }
}

/// The first thing that is not as wanted.
fn difference(word: u64, lent: &Lent, wanted: &Wanted) -> Option<String> {
    if word != wanted.word {
        let (word, wanted) = (answer(word), answer(wanted.word));
        return Some(format!("{}, wanted {}", word, wanted));
    }
    let listed = lent.accesses.chunks(ACCESS).zip(&wanted.list);
    for ((listed, cycle), number) in listed.zip(1..) {
        if listed[..TOLD] != cycle[..] {
            let (listed, cycle) = (shown(listed), shown(cycle));
            return Some(format!("cycle {} is {}, wanted {}", number, listed, cycle));
        }
    }
    if let Some(at) = first_difference(&lent.record, &wanted.record) {
        return Some(format!(
            "{} is {:02X}, wanted {:02X}",
            RECORD[at], lent.record[at], wanted.record[at]
        ));
    }
    if lent.image == wanted.image {
        return None;
    }
    first_difference(&lent.image, &wanted.image).map(|at| {
        format!(
            "{:04X} holds {:02X}, wanted {:02X}",
            at, lent.image[at], wanted.image[at]
        )
    })
}

fn answer(word: u64) -> String {
    match word & 0xFF {
        0 => format!("{} cycles", word >> 8),
        number => format!("refusal {} ({:X})", number, word),
    }
}

fn shown(access: &[u8]) -> String {
    let kind = if access[4] == 0 { 'R' } else { 'W' };
    format!(
        "{} {:02X}{:02X} {:02X}",
        kind, access[1], access[0], access[3]
    )
}
