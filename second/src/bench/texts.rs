//! What assembling takes beside ca65's whole runs on the same text, and what listing takes.

use crate::cores;
use crate::lister::listing;
use crate::mnemonics::named;
use crate::random::Random;
use crate::texts::{byte, instruction, Style};
use std::fs;
use std::process::Command;
use std::time::Instant;

const MILLION: usize = 1_000_000;
const SPACE: usize = 65_536;
/// The least of so many is steady.
const ROUNDS: usize = 5;
const ROUNDS_OF_CA65: usize = 2;

const HEAD: &str = ".setcpu \"6502\"\n.define BYTE .byte\n.org $0000\n";

/// Pieces that make 65,536 bytes each but the last, so that each begins at 0000: the archive gets them in one text, and
/// ca65 one by one.
struct Text {
    pieces: Vec<Vec<u8>>,
    lines: usize,
}

/// Prints a table. False where ca65 cannot be run, or refuses a text.
pub fn texts(folder: &str) -> bool {
    println!("| | archive, ms | archive, ns a line or byte | ca65's whole runs, ms |");
    println!("|---|--:|--:|--:|");
    let mut random = Random::new(1);
    let rows = [
        (
            "lines as the lister writes them",
            listed(&mut random, MILLION),
        ),
        (
            "lines with sums, tabs and comments",
            written(&mut random, MILLION),
        ),
    ];
    for (name, text) in rows {
        let archive = assembling(&text.pieces.concat());
        let ca65 = match ca65(folder, &text) {
            Ok(ms) => format!("{:.0}", ms),
            Err(why) => {
                println!("{}", why);
                return false;
            }
        };
        row("assembling a million ", name, archive, text.lines, &ca65);
    }
    let short = listed(&mut random, 1000);
    let archive = assembling(&short.pieces.concat());
    row(
        "assembling a thousand ",
        "of these lines",
        archive,
        short.lines,
        "",
    );
    let bytes = instructions(&mut random, SPACE);
    row(
        "listing 65,536 bytes, ",
        "instructions",
        list(&bytes),
        SPACE,
        "",
    );
    let bytes: Vec<u8> = (0..SPACE).map(|_| random.byte()).collect();
    row(
        "listing 65,536 bytes, ",
        "at random",
        list(&bytes),
        SPACE,
        "",
    );
    true
}

fn row(what: &str, name: &str, ms: f64, parts: usize, ca65: &str) {
    let each = ms * 1e6 / parts as f64;
    println!("| {}{} | {:.2} | {:.1} | {} |", what, name, ms, each, ca65);
}

/// The least time of some rounds, in milliseconds.
fn least(rounds: usize, mut work: impl FnMut()) -> f64 {
    let mut least = f64::INFINITY;
    for _ in 0..rounds {
        let start = Instant::now();
        work();
        least = least.min(start.elapsed().as_nanos() as f64 / 1e6);
    }
    least
}

fn assembling(text: &[u8]) -> f64 {
    let mut bytes = vec![0; text.len()];
    least(ROUNDS, || {
        let word = cores::assemble(text, 0, &mut bytes, 0);
        assert_eq!(
            word & 0xFF,
            0,
            "a text of the bench is refused, line {}",
            word >> 16
        );
    })
}

fn list(bytes: &[u8]) -> f64 {
    let mut text = vec![0; 12 * bytes.len()];
    least(20 * ROUNDS, || {
        let word = cores::list(bytes, 0, &mut text, 0);
        assert_eq!(word & 0xFF, 0, "bytes of the bench are refused");
    })
}

/// From the start of the program to its end, for all pieces together. One file with all of them would take it minutes:
/// its time grows with the square of the lines.
fn ca65(folder: &str, text: &Text) -> Result<f64, String> {
    let place = format!("{}/text.s", folder);
    let mut sum = 0.0;
    for piece in &text.pieces {
        let whole = [HEAD.as_bytes(), piece].concat();
        fs::create_dir_all(folder)
            .and_then(|()| fs::write(&place, whole))
            .map_err(|why| format!("{}: {}", place, why))?;
        let mut said = None;
        sum += least(ROUNDS_OF_CA65, || {
            let mut command = Command::new("ca65");
            command.args(["-W0", &place, "-o", "/dev/null"]);
            said = match command.output() {
                Ok(ran) if ran.status.success() => None,
                Ok(ran) => Some(String::from_utf8_lossy(&ran.stderr).into_owned()),
                Err(why) => Some(why.to_string()),
            };
        });
        if let Some(why) = said {
            return Err(format!("ca65: {}", why));
        }
    }
    Ok(sum)
}

/// So many lines, in pieces of 65,536 bytes; each line is drawn for its address, and must not make more than is left.
fn pieces(count: usize, mut line: impl FnMut(u16, usize) -> (Vec<u8>, usize)) -> Text {
    let (mut pieces, mut lines) = (Vec::new(), 0);
    while lines < count {
        let (mut piece, mut made) = (Vec::new(), 0);
        while lines < count && made < SPACE {
            let (text, bytes) = line(made as u16, SPACE - made);
            piece.extend(text);
            piece.push(b'\n');
            made += bytes;
            lines += 1;
        }
        pieces.push(piece);
    }
    Text { pieces, lines }
}

fn listed(random: &mut Random, count: usize) -> Text {
    pieces(count, |address, left| loop {
        let opcode = random.byte();
        let (row, form) = match named(opcode) {
            Some(named) if named.1.length() <= left => named,
            _ => continue,
        };
        let mut bytes = vec![opcode, random.byte(), random.byte()];
        bytes.truncate(form.length());
        // What ca65 would take otherwise, or not at all.
        let is_short = form.short().map_or(false, |short| row.has(short)) && bytes[2] == 0;
        let is_far = opcode & 0x1F == 0x10 && !(128..65_406).contains(&address);
        if !is_short && !is_far {
            let mut text = listing(&bytes, address);
            text.pop();
            return (text, bytes.len());
        }
    })
}

fn written(random: &mut Random, count: usize) -> Text {
    pieces(count, |address, left| {
        let opcode = random.byte();
        let (text, bytes) = match named(opcode) {
            Some((_, form)) if form.length() <= left => {
                instruction(random, Style::Common, opcode, address)
            }
            _ => byte(random, Style::Common),
        };
        (text, bytes.len())
    })
}

fn instructions(random: &mut Random, length: usize) -> Vec<u8> {
    let mut bytes = Vec::new();
    while bytes.len() < length {
        let opcode = random.byte();
        if let Some((_, form)) = named(opcode) {
            bytes.push(opcode);
            bytes.extend((1..form.length()).map(|_| random.byte()));
        }
    }
    bytes.truncate(length);
    bytes
}
