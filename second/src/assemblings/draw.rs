//! Texts to be assembled: right ones, ones with a bad line, damaged ones, and mere words and bytes.

use super::bad::KINDS;
use crate::assembler::NOT_A_LINE;
use crate::lister::listing;
use crate::mnemonics::{named, ROWS};
use crate::program::{PROGRAM, START};
use crate::random::Random;
use crate::texts::{any_case, byte, instruction, spaced, Style};

/// What is known of a text before anyone has read it.
pub enum Right {
    Bytes(Vec<u8>),
    /// The refusal, and the line from 1.
    Refused(u64, u64),
    Unknown,
}

#[derive(Clone, Copy, PartialEq, Eq)]
pub enum Source {
    Lines,
    LastCr,
    OneBad(usize),
    SeveralBad,
    Damaged,
    RealDamaged,
    Listed,
    ListedDamaged,
    Words,
    Bytes,
}

pub struct Text {
    pub text: Vec<u8>,
    pub start: u16,
    pub right: Right,
    pub source: Source,
    /// The bytes of each line that was drawn as an instruction, where all lines are right.
    pub instructions: Vec<Vec<u8>>,
}

/// What a text is written of, for edits.
const LETTERS: &[u8] = b"LDASTXYBEQNOPRJM$$$##(),,+-[]  \t;\r\n\n0123456789ABCDEFabcdefxya";

pub fn text(random: &mut Random) -> Text {
    let start = start(random);
    let count = match random.below(16) {
        0 => 0,
        1 => random.between(20, 60),
        _ => random.between(1, 12),
    };
    match random.below(13) {
        0 if random.one_in(8) => last_cr(random, start, count),
        0..=2 => right(random, start, count),
        3..=6 => {
            let kind = random.below(KINDS.len());
            one_bad(random, start, count, kind)
        }
        7 => several_bad(random, start, count),
        8 => {
            let text = right(random, start, count.max(1)).text;
            damaged(random, start, text, Source::Damaged)
        }
        9 => {
            let length = random.between(1, 60);
            let bytes: Vec<u8> = (0..length).map(|_| random.byte()).collect();
            let text = listing(&bytes, start);
            match random.below(3) {
                0 => Text {
                    text,
                    start,
                    right: Right::Bytes(bytes),
                    source: Source::Listed,
                    instructions: Vec::new(),
                },
                _ => damaged(random, start, text, Source::ListedDamaged),
            }
        }
        10 => words(random, start, count),
        11 => {
            let from = random.below(PROGRAM.len());
            let end = PROGRAM.len().min(from + random.between(1, 60));
            let start = START + from as u16;
            let text = listing(&PROGRAM[from..end], start);
            damaged(random, start, text, Source::RealDamaged)
        }
        _ => {
            let length = random.below(60);
            let any = random.one_in(2);
            let one = |_| match any {
                true => random.byte(),
                false => random.pick(LETTERS),
            };
            Text {
                text: (0..length).map(one).collect(),
                start,
                right: Right::Unknown,
                source: Source::Bytes,
                instructions: Vec::new(),
            }
        }
    }
}

/// Often so that the text goes across FFFF.
fn start(random: &mut Random) -> u16 {
    match random.below(4) {
        0 => random.between(0xFFE0, 0xFFFF) as u16,
        1 => random.below(4) as u16,
        _ => random.edge_or_address(),
    }
}

/// Lines so far, with what they make.
struct Lines {
    text: Vec<u8>,
    start: u16,
    bytes: Vec<u8>,
    instructions: Vec<Vec<u8>>,
    count: u64,
    /// How a line ends: LF, CR LF, or either.
    ends: usize,
}

impl Lines {
    fn new(random: &mut Random, start: u16) -> Lines {
        Lines {
            text: Vec::new(),
            start,
            bytes: Vec::new(),
            instructions: Vec::new(),
            count: 0,
            ends: random.below(4),
        }
    }

    fn address(&self) -> u16 {
        self.start.wrapping_add(self.bytes.len() as u16)
    }

    fn add(&mut self, random: &mut Random, line: Vec<u8>) {
        self.text.extend(line);
        let is_crlf = match self.ends {
            0 | 1 => false,
            2 => true,
            _ => random.one_in(2),
        };
        self.text.extend(if is_crlf { &b"\r\n"[..] } else { b"\n" });
        self.count += 1;
    }

    fn add_right(&mut self, random: &mut Random) {
        let opcode = match random.below(6) {
            // Branches have every offset to try.
            0 => random.byte() & 0xE0 | 0x10,
            _ => random.byte(),
        };
        let (line, bytes) = match (named(opcode), random.below(4)) {
            (Some(_), _) => instruction(random, Style::Free, opcode, self.address()),
            // Nothing, or a comment.
            (None, 0) => (spaced(random, Style::Free, &[]), Vec::new()),
            (None, _) => byte(random, Style::Free),
        };
        self.bytes.extend(&bytes);
        if named(opcode).is_some() {
            self.instructions.push(bytes);
        }
        self.add(random, line);
    }

    /// The last line may lack its LF.
    fn text(mut self, random: &mut Random) -> (Vec<u8>, Vec<u8>) {
        if random.one_in(3) && self.text.ends_with(b"\n") {
            self.text.pop();
            if self.text.ends_with(b"\r") {
                self.text.pop();
            }
        }
        (self.text, self.bytes)
    }
}

fn right(random: &mut Random, start: u16, count: usize) -> Text {
    let mut lines = Lines::new(random, start);
    for _ in 0..count {
        lines.add_right(random);
    }
    let instructions = std::mem::take(&mut lines.instructions);
    let (text, bytes) = lines.text(random);
    Text {
        text,
        start,
        right: Right::Bytes(bytes),
        source: Source::Lines,
        instructions,
    }
}

/// A CR that no LF follows is no line's end.
fn last_cr(random: &mut Random, start: u16, count: usize) -> Text {
    let mut lines = Lines::new(random, start);
    for _ in 0..count {
        lines.add_right(random);
    }
    lines
        .text
        .extend(random.pick(&[&b"\r"[..], b"NOP\r", b" \r", b"LDA $12 \r"]));
    Text {
        text: lines.text,
        start,
        right: Right::Refused(NOT_A_LINE, lines.count + 1),
        source: Source::LastCr,
        instructions: Vec::new(),
    }
}

/// One line of this kind among right ones.
pub fn one_bad(random: &mut Random, start: u16, count: usize, kind: usize) -> Text {
    let mut lines = Lines::new(random, start);
    let at = random.between(0, count);
    let mut right = Right::Unknown;
    for number in 0..=count {
        if number != at {
            lines.add_right(random);
            continue;
        }
        let line = KINDS[kind].draw(random, lines.address());
        lines.add(random, line);
        if KINDS[kind].number == 0 {
            break;
        }
        right = Right::Refused(KINDS[kind].number, lines.count);
    }
    let (text, _) = lines.text(random);
    Text {
        text,
        start,
        right,
        source: Source::OneBad(kind),
        instructions: Vec::new(),
    }
}

fn several_bad(random: &mut Random, start: u16, count: usize) -> Text {
    let mut lines = Lines::new(random, start);
    let mut right = Right::Unknown;
    for _ in 0..count + 2 {
        let kind = &KINDS[random.below(KINDS.len())];
        if kind.number == 0 || random.one_in(2) {
            lines.add_right(random);
            continue;
        }
        let line = kind.draw(random, lines.address());
        lines.add(random, line);
        // "For the first bad line."
        if let Right::Unknown = right {
            right = Right::Refused(kind.number, lines.count);
        }
    }
    let (text, bytes) = lines.text(random);
    if let Right::Unknown = right {
        right = Right::Bytes(bytes);
    }
    Text {
        text,
        start,
        right,
        source: Source::SeveralBad,
        instructions: Vec::new(),
    }
}

fn damaged(random: &mut Random, start: u16, mut text: Vec<u8>, source: Source) -> Text {
    for _ in 0..random.between(1, 3) {
        edit(random, &mut text);
    }
    Text {
        text,
        start,
        right: Right::Unknown,
        source,
        instructions: Vec::new(),
    }
}

/// One byte more, less or another; a few lost; or a few twice.
fn edit(random: &mut Random, text: &mut Vec<u8>) {
    let at = random.below(text.len() + 1);
    let end = text.len().min(at + random.between(1, 6));
    let letter = match random.below(8) {
        0 => random.byte(),
        _ => random.pick(LETTERS),
    };
    match random.below(5) {
        0 => text.insert(at, letter),
        1 if at < text.len() => text[at] = letter,
        2 => drop(text.drain(at..end)),
        3 => {
            let again = text[at..end].to_vec();
            text.splice(at..at, again);
        }
        _ if at < text.len() => drop(text.remove(at)),
        _ => {}
    }
}

/// Lines of words that are all of the language, in an order that seldom is.
fn words(random: &mut Random, start: u16, count: usize) -> Text {
    let mut lines = Lines::new(random, start);
    for _ in 0..count.min(3) + 1 {
        let length = random.below(8);
        let mut words = vec![match random.below(8) {
            0 => "BYTE".to_string(),
            _ => ROWS[random.below(ROWS.len())].name.to_string(),
        }];
        words.extend((0..length).map(|_| {
            let value = random.edge_or_address() >> random.pick(&[0, 8, 8, 12]);
            let number = format!("${:X}", value);
            let word = match random.below(4) {
                0 | 1 => number.as_str(),
                _ => random.pick(&[
                    "#", "(", ")", ",", ",", "+", "-", "[", "]", "A", "X", "Y", ")", "]",
                ]),
            };
            any_case(random, word)
        }));
        let line = spaced(random, Style::Free, &words);
        lines.add(random, line);
    }
    let (text, _) = lines.text(random);
    Text {
        text,
        start,
        right: Right::Unknown,
        source: Source::Words,
        instructions: Vec::new(),
    }
}
