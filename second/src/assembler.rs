//! The assembler of document 02, §4, a line at a time and a word at a time, and with no thought of speed.

use crate::mnemonics::{row, Form, Row};

pub const NOT_A_LINE: u64 = 30;
pub const NO_SUCH_MODE: u64 = 31;
pub const BRANCH_TOO_FAR: u64 = 32;
pub const TOO_DEEP: u64 = 33;
pub const NO_ROOM: u64 = 34;

/// "At most 16 deep."
pub const DEEPEST: usize = 16;

/// Answers C's word: how many bytes were written, or the refusal and the number of the bad line, from 1. "The output is
/// then unchanged."
pub fn assemble(text: &[u8], start: u16, bytes: &mut [u8]) -> u64 {
    let mut made = Vec::new();
    for (number, content) in (1..).zip(contents(text)) {
        let address = start.wrapping_add(made.len() as u16);
        let refusal = match line(content, address) {
            Ok(more) if made.len() + more.len() <= bytes.len() => {
                made.extend(more);
                continue;
            }
            Ok(_) => NO_ROOM,
            Err(refusal) => refusal,
        };
        return refusal | number << 16;
    }
    bytes[..made.len()].copy_from_slice(&made);
    (made.len() as u64) << 16
}

/// What stands on each line before its comment, without the line's end: LF, or CR and LF.
fn contents(text: &[u8]) -> impl Iterator<Item = &[u8]> {
    text.split_inclusive(|&byte| byte == b'\n').map(|line| {
        let line = match line {
            [line @ .., b'\r', b'\n'] => line,
            [line @ .., b'\n'] => line,
            line => line,
        };
        match line.iter().position(|&byte| byte == b';') {
            Some(comment) => &line[..comment],
            None => line,
        }
    })
}

/// The bytes that a line makes at this address; "33 first, then the lowest".
fn line(content: &[u8], address: u16) -> Result<Vec<u8>, u64> {
    if is_too_deep(content) {
        return Err(TOO_DEEP);
    }
    let words = words(content).ok_or(NOT_A_LINE)?;
    let (name, rest) = match words.split_first() {
        None => return Ok(Vec::new()),
        Some((Word::Name(name), rest)) => (name.as_str(), rest),
        Some(_) => return Err(NOT_A_LINE),
    };
    let operand = operand(rest).ok_or(NOT_A_LINE)?;
    match (name, row(name), operand) {
        ("BYTE", _, Operand::Sum(sum)) => Ok(vec![byte(sum)?]),
        (_, Some(row), operand) => instruction(row, operand, address),
        _ => Err(NOT_A_LINE),
    }
}

/// More than 16 brackets stand open at some place, whatever else the line is.
fn is_too_deep(content: &[u8]) -> bool {
    let mut open = 0;
    for character in content {
        match character {
            b'[' => open += 1,
            b']' if open > 0 => open -= 1,
            _ => {}
        }
        if open > DEEPEST {
            return true;
        }
    }
    false
}

#[derive(PartialEq, Eq)]
enum Word {
    /// In large letters.
    Name(String),
    Number {
        value: u16,
        digits: usize,
    },
    /// One of # ( ) , + - [ ]
    Sign(u8),
}

/// None where something is no word of the language.
fn words(content: &[u8]) -> Option<Vec<Word>> {
    let mut words = Vec::new();
    let mut rest = content;
    while let [first, behind @ ..] = rest {
        rest = behind;
        match first {
            b' ' | b'\t' => {}
            b'#' | b'(' | b')' | b',' | b'+' | b'-' | b'[' | b']' => words.push(Word::Sign(*first)),
            b'$' => {
                let (digits, behind) = run_of(rest, u8::is_ascii_hexdigit);
                if digits.is_empty() || digits.len() > 4 {
                    return None;
                }
                let value = u16::from_str_radix(&letters(digits), 16).ok()?;
                words.push(Word::Number {
                    value,
                    digits: digits.len(),
                });
                rest = behind;
            }
            letter if letter.is_ascii_alphabetic() => {
                let start = &content[content.len() - behind.len() - 1..];
                let (name, behind) = run_of(start, u8::is_ascii_alphabetic);
                words.push(Word::Name(letters(name).to_ascii_uppercase()));
                rest = behind;
            }
            _ => return None,
        }
    }
    Some(words)
}

/// As many bytes as are so, and what stands behind them.
fn run_of(bytes: &[u8], is_so: impl Fn(&u8) -> bool) -> (&[u8], &[u8]) {
    let length = bytes.iter().position(|byte| !is_so(byte));
    bytes.split_at(length.unwrap_or(bytes.len()))
}

fn letters(bytes: &[u8]) -> String {
    bytes.iter().map(|&byte| char::from(byte)).collect()
}

#[derive(Clone, Copy)]
struct Sum {
    value: u16,
    /// "An address written with four digits alone."
    is_four_digits: bool,
}

enum Operand {
    None,
    Accumulator,
    /// # sum
    Immediate(Sum),
    Sum(Sum),
    /// sum,X
    X(Sum),
    /// sum,Y
    Y(Sum),
    /// (sum,X)
    IndirectX(Sum),
    /// (sum),Y
    IndirectY(Sum),
    /// (sum)
    Indirect(Sum),
}

/// All words behind the mnemonic; None where they are no operand.
fn operand(words: &[Word]) -> Option<Operand> {
    let is = |word: &Word, name: &str| matches!(word, Word::Name(its) if its == name);
    match words {
        [] => return Some(Operand::None),
        [word] if is(word, "A") => return Some(Operand::Accumulator),
        [Word::Sign(b'#'), rest @ ..] => {
            return match sum(rest)? {
                (sum, []) => Some(Operand::Immediate(sum)),
                _ => None,
            }
        }
        [Word::Sign(b'('), rest @ ..] => {
            return match sum(rest)? {
                (sum, [Word::Sign(b','), x, Word::Sign(b')')]) if is(x, "X") => {
                    Some(Operand::IndirectX(sum))
                }
                (sum, [Word::Sign(b')'), Word::Sign(b','), y]) if is(y, "Y") => {
                    Some(Operand::IndirectY(sum))
                }
                (sum, [Word::Sign(b')')]) => Some(Operand::Indirect(sum)),
                _ => None,
            }
        }
        _ => {}
    }
    match sum(words)? {
        (sum, []) => Some(Operand::Sum(sum)),
        (sum, [Word::Sign(b','), x]) if is(x, "X") => Some(Operand::X(sum)),
        (sum, [Word::Sign(b','), y]) if is(y, "Y") => Some(Operand::Y(sum)),
        _ => None,
    }
}

/// "A sum is made of terms": the one that begins here, and the words behind it.
fn sum(words: &[Word]) -> Option<(Sum, &[Word])> {
    let (mut value, mut rest) = term(words)?;
    loop {
        let (sign, behind) = match rest {
            [Word::Sign(sign @ (b'+' | b'-')), behind @ ..] => (*sign, behind),
            _ => break,
        };
        let (next, behind) = term(behind)?;
        value = match sign {
            b'+' => value.wrapping_add(next),
            _ => value.wrapping_sub(next),
        };
        rest = behind;
    }
    let used = &words[..words.len() - rest.len()];
    let is_four_digits = matches!(used, [Word::Number { digits: 4, .. }]);
    let sum = Sum {
        value,
        is_four_digits,
    };
    Some((sum, rest))
}

/// "A bracketed term is again a sum."
fn term(words: &[Word]) -> Option<(u16, &[Word])> {
    match words {
        [Word::Number { value, .. }, rest @ ..] => Some((*value, rest)),
        [Word::Sign(b'['), rest @ ..] => match sum(rest)? {
            (sum, [Word::Sign(b']'), rest @ ..]) => Some((sum.value, rest)),
            _ => None,
        },
        _ => None,
    }
}

fn byte(sum: Sum) -> Result<u8, u64> {
    u8::try_from(sum.value).map_err(|_| NO_SUCH_MODE)
}

fn instruction(row: &Row, operand: Operand, address: u16) -> Result<Vec<u8>, u64> {
    match operand {
        Operand::None => with(row, Form::Implied, &[]),
        Operand::Accumulator => with(row, Form::Accumulator, &[]),
        Operand::Immediate(sum) => with(row, Form::Immediate, &[byte(sum)?]),
        Operand::IndirectX(sum) => with(row, Form::IndirectX, &[byte(sum)?]),
        Operand::IndirectY(sum) => with(row, Form::IndirectY, &[byte(sum)?]),
        Operand::Indirect(sum) => with(row, Form::Indirect, &sum.value.to_le_bytes()),
        Operand::Sum(sum) if row.has(Form::Relative) => {
            let offset = sum.value.wrapping_sub(address).wrapping_sub(2);
            match offset {
                0..=0x7F | 0xFF80..=0xFFFF => with(row, Form::Relative, &[offset as u8]),
                _ => Err(BRANCH_TOO_FAR),
            }
        }
        Operand::Sum(sum) => at(row, Form::Zero, Form::Absolute, sum),
        Operand::X(sum) => at(row, Form::ZeroX, Form::AbsoluteX, sum),
        Operand::Y(sum) => at(row, Form::ZeroY, Form::AbsoluteY, sum),
    }
}

/// "A value under 256 takes the zero-page form where the operation has one; an address written with four digits alone
/// takes the absolute form."
fn at(row: &Row, zero: Form, absolute: Form, sum: Sum) -> Result<Vec<u8>, u64> {
    match u8::try_from(sum.value) {
        Ok(short) if row.has(zero) && !sum.is_four_digits => with(row, zero, &[short]),
        _ => with(row, absolute, &sum.value.to_le_bytes()),
    }
}

fn with(row: &Row, form: Form, operand: &[u8]) -> Result<Vec<u8>, u64> {
    let opcode = row.opcode(form).ok_or(NO_SUCH_MODE)?;
    Ok([&[opcode], operand].concat())
}
