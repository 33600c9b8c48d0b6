//! Lines that make an instruction, drawn at random with the bytes that they must make.

use crate::mnemonics::{named, Form};
use crate::random::Random;

/// How freely a line is written.
#[derive(Clone, Copy, PartialEq, Eq)]
pub enum Style {
    /// As other assemblers take it too: no brackets, no sum that leaves 16 bits, a space behind the mnemonic.
    Common,
    /// Whatever the language has.
    Free,
}

/// So many terms a sum has at most, beside the last one.
const MOST_TERMS: usize = 4;

/// A line without its end, the instruction's operand being drawn too.
pub fn instruction(
    random: &mut Random,
    style: Style,
    opcode: u8,
    address: u16,
) -> (Vec<u8>, Vec<u8>) {
    let (row, form) = named(opcode).expect("one of the 151");
    let mut bytes = vec![opcode];
    let mut words = vec![any_case(random, row.name)];
    let value = match form.length() {
        1 => 0,
        2 => u16::from(random.edge_or_byte()),
        _ => random.edge_or_address(),
    };
    bytes.extend(&value.to_le_bytes()[..form.length() - 1]);
    let value = match form {
        // The common language has no branch across FFFF.
        Form::Relative => {
            let target = i32::from(address) + 2 + i32::from(value as u8 as i8);
            if style == Style::Common && u16::try_from(target).is_err() {
                return instruction(random, style, opcode, address);
            }
            target as u16
        }
        _ => value,
    };
    let is_short = matches!(form, Form::Zero | Form::ZeroX | Form::ZeroY);
    let short = form.short().map_or(false, |short| row.has(short));
    if form.length() > 1 {
        words.extend(match form {
            Form::Immediate => vec!["#".to_string()],
            Form::Indirect | Form::IndirectX | Form::IndirectY => vec!["(".to_string()],
            _ => vec![],
        });
        match short && value < 256 {
            // No other assembler takes the absolute form from four digits.
            true if style == Style::Common => return instruction(random, style, opcode, address),
            true => words.push(digits(random, value, 4)),
            false => words.extend(sum(random, style, value, !is_short)),
        }
    }
    let behind: &[&str] = match form {
        Form::Accumulator => &["A"],
        Form::ZeroX | Form::AbsoluteX => &[",", "X"],
        Form::ZeroY | Form::AbsoluteY => &[",", "Y"],
        Form::Indirect => &[")"],
        Form::IndirectX => &[",", "X", ")"],
        Form::IndirectY => &[")", ",", "Y"],
        _ => &[],
    };
    words.extend(behind.iter().map(|word| any_case(random, word)));
    (spaced(random, style, &words), bytes)
}

/// A line of BYTE.
pub fn byte(random: &mut Random, style: Style) -> (Vec<u8>, Vec<u8>) {
    let value = random.edge_or_byte();
    let mut words = vec![match style {
        // A name that was given to another assembler's own word.
        Style::Common => "BYTE".to_string(),
        Style::Free => any_case(random, "BYTE"),
    }];
    words.extend(sum(random, style, u16::from(value), true));
    (spaced(random, style, &words), vec![value])
}

/// The words of a sum with this value; four digits alone only where they may stand.
pub fn sum(random: &mut Random, style: Style, value: u16, may_be_four: bool) -> Vec<String> {
    if random.one_in(2) {
        let most = if may_be_four { 4 } else { 3 };
        return vec![number(random, value, most)];
    }
    let deepest = match (style, random.below(8)) {
        (Style::Common, _) => 0,
        (_, 0..=3) => random.below(3),
        (_, 4..=6) => random.between(0, 16),
        // 16 is the deepest that is allowed.
        _ => random.between(14, 16),
    };
    terms(random, style, value, deepest)
}

/// The words of a sum with this value, in which so many brackets stand open at once, and never more.
#[cfg(not(yardstick_only))]
pub fn deep_sum(random: &mut Random, value: u16, depth: usize) -> Vec<String> {
    terms(random, Style::Free, value, depth)
}

/// At least two terms, or one in brackets.
fn terms(random: &mut Random, style: Style, value: u16, deepest: usize) -> Vec<String> {
    let before = match deepest {
        0 => random.between(1, MOST_TERMS),
        _ => random.below(MOST_TERMS),
    };
    let (mut words, mut partial) = (Vec::new(), 0u16);
    // One of the terms goes as deep as it can.
    let deep = random.below(before + 1);
    for number in 0..=before {
        let (sign, next) = match (number, style) {
            (0, _) if before == 0 => ("", value),
            (0, _) => ("", random.edge_or_address()),
            (_, Style::Common) if number == before => match value >= partial {
                true => ("+", value - partial),
                false => ("-", partial - value),
            },
            (_, Style::Common) => match random.one_in(2) {
                true => (
                    "+",
                    random.below(usize::from(u16::MAX - partial) + 1) as u16,
                ),
                false => ("-", random.below(usize::from(partial) + 1) as u16),
            },
            _ => match (random.one_in(2), number == before) {
                (true, true) => ("+", value.wrapping_sub(partial)),
                (true, false) => ("+", random.edge_or_address()),
                (false, true) => ("-", partial.wrapping_sub(value)),
                (false, false) => ("-", random.edge_or_address()),
            },
        };
        if !sign.is_empty() {
            words.push(sign.to_string());
        }
        words.extend(match deepest {
            0 => vec![self::number(random, next, 4)],
            _ if number == deep => bracketed(random, style, next, deepest - 1),
            _ => match random.below(4) {
                0 => bracketed(random, style, next, 0),
                _ => vec![self::number(random, next, 4)],
            },
        });
        partial = match sign {
            "-" => partial.wrapping_sub(next),
            _ => partial.wrapping_add(next),
        };
    }
    words
}

fn bracketed(random: &mut Random, style: Style, value: u16, deepest: usize) -> Vec<String> {
    let mut words = vec!["[".to_string()];
    match deepest == 0 && random.one_in(2) {
        true => words.push(number(random, value, 4)),
        false => words.extend(terms(random, style, value, deepest)),
    }
    words.push("]".to_string());
    words
}

/// With any number of digits that it fits into.
fn number(random: &mut Random, value: u16, most: usize) -> String {
    let least = format!("{:X}", value).len();
    let length = random.between(least, most.max(least));
    digits(random, value, length)
}

fn digits(random: &mut Random, value: u16, length: usize) -> String {
    let text = format!("{:0width$X}", value, width = length);
    format!("${}", any_case(random, &text))
}

/// Small or large letters in any mixture.
pub fn any_case(random: &mut Random, text: &str) -> String {
    let way = random.below(4);
    text.chars()
        .map(|letter| match way {
            0 | 1 => letter,
            2 => letter.to_ascii_lowercase(),
            _ if random.one_in(2) => letter.to_ascii_lowercase(),
            _ => letter,
        })
        .collect()
}

/// The words with spaces and tabs between them, or none where none is needed; now and then a comment.
pub fn spaced(random: &mut Random, style: Style, words: &[String]) -> Vec<u8> {
    let mut line = Vec::new();
    let way = random.below(4);
    let space = |random: &mut Random, line: &mut Vec<u8>| {
        if way == 0 {
            let length = random.below(3);
            line.extend((0..length).map(|_| random.pick(&[b' ', b' ', b'\t'])));
        }
    };
    space(random, &mut line);
    for (number, word) in words.iter().enumerate() {
        line.extend(word.bytes());
        // 64tass fails at (z, X) with a space.
        if style == Style::Free || word != "," {
            space(random, &mut line);
        }
        let is_needed = words
            .get(1)
            .map_or(false, |next| next.to_ascii_uppercase() == "A");
        let is_usual = style == Style::Common || way == 1 || way == 2;
        if number == 0 && words.len() > 1 && (is_needed || is_usual) {
            line.push(b' ');
        }
    }
    if random.one_in(8) {
        line.extend(comment(random, style));
    }
    line
}

/// "A comment may hold any byte but LF."
fn comment(random: &mut Random, style: Style) -> Vec<u8> {
    let length = random.below(12);
    let mut comment = vec![b';'];
    comment.extend((0..length).map(|_| match (style, random.byte()) {
        (Style::Common, byte) => b' ' + byte % 64,
        (_, b'\n') => b'[',
        (_, byte) => byte,
    }));
    comment
}
