//! The lister of document 02, §4.

use crate::assembler::NO_ROOM;
use crate::mnemonics::{named, Form};

/// A line of a listing: where its bytes stand, which they are, and its text without the line's end.
pub struct Listed<'a> {
    pub address: u16,
    pub bytes: &'a [u8],
    pub text: String,
}

/// Answers C's word: how many characters were written, or 34, and then none was.
pub fn list(bytes: &[u8], start: u16, text: &mut [u8]) -> u64 {
    let whole = listing(bytes, start);
    if whole.len() > text.len() {
        return NO_ROOM;
    }
    text[..whole.len()].copy_from_slice(&whole);
    (whole.len() as u64) << 16
}

pub fn listing(bytes: &[u8], start: u16) -> Vec<u8> {
    let lines = lines(bytes, start).into_iter();
    lines
        .flat_map(|line| (line.text + "\n").into_bytes())
        .collect()
}

pub fn lines(bytes: &[u8], start: u16) -> Vec<Listed<'_>> {
    let mut lines = Vec::new();
    let mut at = 0;
    while at < bytes.len() {
        let address = start.wrapping_add(at as u16);
        let line = line(&bytes[at..], address);
        at += line.bytes.len();
        lines.push(line);
    }
    lines
}

/// "A byte that starts no whole instruction is listed as a line of BYTE and its value."
fn line(rest: &[u8], address: u16) -> Listed<'_> {
    let (bytes, text) = match named(rest[0]) {
        Some((row, form)) if form.length() <= rest.len() => {
            let bytes = &rest[..form.length()];
            (
                bytes,
                format!("{}{}", row.name, operand(form, &bytes[1..], address)),
            )
        }
        _ => (&rest[..1], format!("BYTE ${:02X}", rest[0])),
    };
    Listed {
        address,
        bytes,
        text,
    }
}

/// As the data sheets write it, with the space before it.
fn operand(form: Form, bytes: &[u8], address: u16) -> String {
    let number = match bytes {
        [] => String::new(),
        [offset] if form == Form::Relative => {
            let target = address.wrapping_add(2).wrapping_add(*offset as i8 as u16);
            format!("${:04X}", target)
        }
        [byte] => format!("${:02X}", byte),
        _ => format!("${:02X}{:02X}", bytes[1], bytes[0]),
    };
    match form {
        Form::Implied => String::new(),
        Form::Accumulator => " A".to_string(),
        Form::Immediate => format!(" #{}", number),
        Form::Zero | Form::Absolute | Form::Relative => format!(" {}", number),
        Form::ZeroX | Form::AbsoluteX => format!(" {},X", number),
        Form::ZeroY | Form::AbsoluteY => format!(" {},Y", number),
        Form::Indirect => format!(" ({})", number),
        Form::IndirectX => format!(" ({},X)", number),
        Form::IndirectY => format!(" ({}),Y", number),
    }
}
