//! The second program's assembler and lister beside ca65 and 64tass, on the language that all have in common: what the
//! lister writes of real images and of random bytes, and random lines with sums.

use crate::assembler::assemble;
use crate::compare::{first_difference, hex};
use crate::lister::{lines, listing, Listed};
use crate::mnemonics::{named, row, Form, ROWS};
use crate::opcodes::decode;
use crate::program::{PROGRAM, START};
use crate::random::Random;
use crate::report::Report;
use crate::texts::{byte, instruction, Style};
use std::fs;
use std::process::Command;

const SPACE: usize = 65_536;
const MOST_RANDOM: usize = 4_000;

/// Another assembler, and what it must be told.
struct Other {
    name: &'static str,
    /// What stands before the text, without the start address.
    head: &'static str,
    origin: &'static str,
    /// Before an address under 256 that is not to become one of page zero.
    whole: &'static str,
    /// Whether a branch may go across FFFF.
    wraps: bool,
    commands: &'static [&'static [&'static str]],
}

/// For ld65: all that was assembled, and nothing else.
const LAYOUT: &str =
    "MEMORY { ALL: start = 0, size = $10000; }\nSEGMENTS { CODE: load = ALL, type = ro; }\n";

const OTHERS: [Other; 2] = [
    Other {
        name: "ca65",
        head: ".setcpu \"6502\"\n.define BYTE .byte\n",
        origin: ".org ",
        whole: "a:",
        wraps: false,
        commands: &[
            &["ca65", "text", "-o", "object"],
            &["ld65", "-C", "layout", "object", "-o", "bytes"],
        ],
    },
    Other {
        name: "64tass",
        head: "BYTE .macro\n .byte \\1\n .endm\n",
        origin: "* = ",
        whole: "@w ",
        wraps: true,
        commands: &[&["64tass", "--quiet", "--nostart", "text", "-o", "bytes"]],
    },
];

/// Of one of them: what was compared, and what had to be written otherwise.
#[derive(Default)]
struct Counts {
    lines: u64,
    under_256: u64,
    across: u64,
}

struct Comparison<'a> {
    folder: &'a str,
    random: Random,
    counts: [Counts; 2],
    real: u64,
    bytes: u64,
    listed: u64,
    drawn: u64,
    opcodes: [u64; 256],
    alone: u64,
    cut: u64,
}

/// Each file is `START:FILE`. True where all agree and nothing that is needed was missing.
pub fn assemblers(images: u64, seed: u64, folder: &str, files: &[String]) -> bool {
    println!("seed {}", seed);
    let mut comparison = Comparison {
        folder,
        random: Random::new(seed),
        counts: Default::default(),
        real: 0,
        bytes: 0,
        listed: 0,
        drawn: 0,
        opcodes: [0; 256],
        alone: 0,
        cut: 0,
    };
    match comparison.compare(images, files) {
        Ok(()) => comparison.report(),
        Err(why) => {
            println!("{}", why);
            false
        }
    }
}

impl Comparison<'_> {
    fn compare(&mut self, images: u64, files: &[String]) -> Result<(), String> {
        table_agrees()?;
        let layout = format!("{}/layout", self.folder);
        fs::create_dir_all(self.folder)
            .and_then(|()| fs::write(&layout, LAYOUT))
            .map_err(|why| format!("{}: {}", layout, why))?;
        for other in 0..OTHERS.len() {
            self.compare_short(other)?;
        }
        self.real("the bench's program", START, PROGRAM)?;
        for file in files {
            let (start, name) = file.split_once(':').ok_or("a file is START:FILE")?;
            let start = u16::from_str_radix(start, 16).map_err(|why| why.to_string())?;
            let bytes = fs::read(name).map_err(|why| format!("{}: {}", name, why))?;
            self.real(name, start, &bytes)?;
        }
        for number in 0..images {
            let length = self.random.between(1, MOST_RANDOM);
            let bytes = match number % 2 {
                0 => (0..length).map(|_| self.random.byte()).collect(),
                _ => self.instructions(length),
            };
            // At either end a branch may go across FFFF.
            let last = SPACE - bytes.len();
            let start = match self.random.below(4) {
                0 => 0,
                1 => last,
                _ => self.random.between(0, last),
            } as u16;
            self.bytes += 1;
            self.listed(start, &bytes)
                .map_err(|why| format!("random image {}: {}", number, why))?;
            self.drawn(length / 3)
                .map_err(|why| format!("random text {}: {}", number, why))?;
        }
        Ok(())
    }

    fn real(&mut self, name: &str, start: u16, bytes: &[u8]) -> Result<(), String> {
        let before: Vec<u64> = self.counts.iter().map(|counts| counts.under_256).collect();
        self.listed(start, bytes)
            .map_err(|why| format!("{}: {}", name, why))?;
        self.real += 1;
        println!(
            "{} at {:04X}: {} bytes in {} lines, {} of them with an absolute address under 256",
            name,
            start,
            bytes.len(),
            lines(bytes, start).len(),
            self.counts[0].under_256 - before[0]
        );
        Ok(())
    }

    /// Any of the 151, with operands at every edge.
    fn instructions(&mut self, length: usize) -> Vec<u8> {
        let mut bytes = Vec::new();
        while bytes.len() < length {
            let opcode = self.random.byte();
            let operands = named(opcode).map_or(0, |(_, form)| form.length() - 1);
            bytes.push(opcode);
            bytes.extend((0..operands).map(|_| self.random.edge_or_byte()));
        }
        bytes.truncate(length);
        bytes
    }

    /// What the lister writes makes the same bytes, here and elsewhere.
    fn listed(&mut self, start: u16, bytes: &[u8]) -> Result<(), String> {
        let text = listing(bytes, start);
        same("second", bytes, &assembled(&text, start, bytes.len())?)?;
        let lines = lines(bytes, start);
        for line in &lines {
            self.opcodes[usize::from(line.bytes[0])] += 1;
            self.alone += u64::from(line.text.starts_with("BYTE"));
        }
        let is_cut =
            |line: &Listed| line.text.starts_with("BYTE") && named(line.bytes[0]).is_some();
        self.cut += u64::from(lines.iter().any(is_cut));
        self.listed += lines.len() as u64;
        for (other, counts) in OTHERS.iter().zip(&mut self.counts) {
            let text: String = lines
                .iter()
                .map(|line| other.written(line, counts) + "\n")
                .collect();
            counts.lines += lines.len() as u64;
            let theirs = other.assembled(self.folder, text.as_bytes(), start)?;
            same(other.name, bytes, &theirs)?;
        }
        Ok(())
    }

    /// Random lines, with sums. Those with brackets the others cannot read: there the bytes that were drawn decide.
    fn drawn(&mut self, count: usize) -> Result<(), String> {
        let start = self.random.between(0, SPACE - 3 * count - 1) as u16;
        let (text, bytes) = self.text(Style::Free, start, count);
        same("second", &bytes, &assembled(&text, start, bytes.len())?)?;
        let (text, bytes) = self.text(Style::Common, start, count);
        same("second", &bytes, &assembled(&text, start, bytes.len())?)?;
        for other in &OTHERS {
            let theirs = other.assembled(self.folder, &text, start)?;
            same(other.name, &bytes, &theirs)?;
        }
        self.drawn += count as u64;
        Ok(())
    }

    fn text(&mut self, style: Style, start: u16, count: usize) -> (Vec<u8>, Vec<u8>) {
        let (mut text, mut bytes) = (Vec::new(), Vec::new());
        for _ in 0..count {
            let opcode = self.random.byte();
            let (line, more) = match named(opcode) {
                Some(_) => {
                    let address = start + bytes.len() as u16;
                    instruction(&mut self.random, style, opcode, address)
                }
                None => byte(&mut self.random, style),
            };
            text.extend(line);
            text.push(b'\n');
            bytes.extend(more);
        }
        (text, bytes)
    }

    /// That the others do take page zero from four digits, so that those lines must be written otherwise for them.
    fn compare_short(&self, other: usize) -> Result<(), String> {
        let other = &OTHERS[other];
        let (mut text, mut bytes) = (String::new(), Vec::new());
        for row in ROWS {
            for (form, behind) in [
                (Form::Absolute, ""),
                (Form::AbsoluteX, ",X"),
                (Form::AbsoluteY, ",Y"),
            ] {
                let short = form.short().and_then(|short| row.opcode(short));
                if let (Some(opcode), true) = (short, row.has(form)) {
                    text += &format!("{} $0012{}\n", row.name, behind);
                    bytes.extend([opcode, 0x12]);
                }
            }
        }
        let theirs = other.assembled(self.folder, text.as_bytes(), 0x8000)?;
        same(other.name, &bytes, &theirs).map_err(|why| format!("four digits, short: {}", why))
    }

    fn report(&self) -> bool {
        let mut report = Report::new();
        report.row("real images", self.real);
        report.row("random images", self.bytes);
        report.row("listed lines", self.listed);
        report.row("of BYTE", self.alone);
        report.row("images with a cut instruction", self.cut);
        report.row("random lines", self.drawn);
        report.rarest("listed, byte 0 to 255", &self.opcodes);
        for (other, counts) in OTHERS.iter().zip(&self.counts) {
            println!("{}, of {} listed lines:", other.name, counts.lines);
            report.row("absolute address under 256", counts.under_256);
            match other.wraps {
                true => println!("branches across FFFF are taken as they stand"),
                false => report.row("branch across FFFF", counts.across),
            }
        }
        report.is_whole()
    }
}

impl Other {
    /// A listed line as this assembler takes it.
    fn written(&self, line: &Listed, counts: &mut Counts) -> String {
        let (row, form) = match named(line.bytes[0]) {
            Some(named) if !line.text.starts_with("BYTE") => named,
            _ => return line.text.clone(),
        };
        let short = form.short().map_or(false, |short| row.has(short));
        if short && line.bytes[2] == 0 {
            counts.under_256 += 1;
            return line.text.replace('$', &format!("{}$", self.whole));
        }
        if form == Form::Relative && !self.wraps {
            let target = i32::from(line.address) + 2 + i32::from(line.bytes[1] as i8);
            if u16::try_from(target).is_err() {
                counts.across += 1;
                return format!("BYTE ${:02X}\nBYTE ${:02X}", line.bytes[0], line.bytes[1]);
            }
        }
        line.text.clone()
    }

    fn assembled(&self, folder: &str, text: &[u8], start: u16) -> Result<Vec<u8>, String> {
        let failed = |what: &str, why: String| format!("{}, {}: {}", self.name, what, why);
        let mut whole = format!("{}{}${:04X}\n", self.head, self.origin, start).into_bytes();
        whole.extend(text);
        let place = |name: &str| format!("{}/{}", folder, name);
        fs::write(place("text"), &whole).map_err(|why| failed("text", why.to_string()))?;
        for command in self.commands {
            let ran = Command::new(command[0])
                .args(&command[1..])
                .current_dir(folder)
                .output()
                .map_err(|why| failed(command[0], why.to_string()))?;
            if !ran.status.success() {
                let said = String::from_utf8_lossy(&ran.stderr);
                return Err(failed(
                    command[0],
                    said.lines().take(8).collect::<Vec<_>>().join("\n"),
                ));
            }
        }
        fs::read(place("bytes")).map_err(|why| failed("bytes", why.to_string()))
    }
}

/// The table of names and that of the steps say the same of all 256.
fn table_agrees() -> Result<(), String> {
    for opcode in 0..=255 {
        let length = named(opcode).map(|(_, form)| form.length());
        if length != decode(opcode).map(|it| usize::from(it.length())) {
            return Err(format!(
                "opcode {:02X} has two lengths, or none and one",
                opcode
            ));
        }
        let again = named(opcode).and_then(|(its, form)| row(its.name)?.opcode(form));
        if again != named(opcode).map(|_| opcode) {
            return Err(format!("opcode {:02X} has another one's name", opcode));
        }
    }
    match ROWS.len() {
        56 => Ok(()),
        count => Err(format!("{} mnemonics", count)),
    }
}

fn assembled(text: &[u8], start: u16, room: usize) -> Result<Vec<u8>, String> {
    let mut bytes = vec![0; room];
    let word = assemble(text, start, &mut bytes);
    match word & 0xFF {
        0 => Ok(bytes[..(word >> 16) as usize].to_vec()),
        number => Err(format!(
            "second: refused by {} at line {}",
            number,
            word >> 16
        )),
    }
}

fn same(who: &str, right: &[u8], theirs: &[u8]) -> Result<(), String> {
    if right == theirs {
        return Ok(());
    }
    let at = first_difference(right, theirs).unwrap_or(right.len().min(theirs.len()));
    let some = |bytes: &[u8]| hex(&bytes[at..bytes.len().min(at + 8)]);
    Err(format!(
        "{}: {} bytes for {}, and from {} on {} for {}",
        who,
        theirs.len(),
        right.len(),
        at,
        some(theirs),
        some(right)
    ))
}
