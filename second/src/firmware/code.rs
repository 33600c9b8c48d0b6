//! Code with labels in place of addresses, and what an assembler makes of it: bytes, marks and their needs.

use crate::admission::{Kind, Mark};
use crate::opcodes::Instruction::{Branch, Jmp, Jsr, Pha, Php, Pla, Rti, Rts};
use crate::opcodes::{decode, Instruction};

#[derive(Clone, Copy, PartialEq, Eq)]
pub struct Label(pub usize);

#[derive(Clone, Copy)]
pub enum Operand {
    None,
    Byte(u8),
    Word(u16),
    /// A branch's offset, or an address.
    To(Label),
}

#[derive(Clone)]
pub struct Line {
    pub opcode: u8,
    pub operand: Operand,
    pub kind: Kind,
    pub height: usize,
    /// The need is no less than this.
    pub spare: usize,
    /// The operand is an instruction too, and this leads to it.
    pub inside: Option<Label>,
}

#[derive(Clone)]
pub enum Item {
    Line(Line),
    Label(Label),
    Data(Vec<u8>),
}

pub fn instruction<'a>(opcode: u8) -> Instruction<'a> {
    decode(opcode).expect("a defined opcode")
}

pub fn size(items: &[Item]) -> usize {
    let sizes = items.iter().map(|item| match item {
        Item::Line(line) => usize::from(instruction(line.opcode).length()),
        Item::Label(_) => 0,
        Item::Data(bytes) => bytes.len(),
    });
    sizes.sum()
}

pub struct Assembled {
    pub bytes: Vec<u8>,
    pub marks: Vec<Mark>,
    pub labels: Vec<u16>,
}

/// An instruction where it stands, with the places that it leads to: each wants so much more need here than there.
struct Placed {
    address: usize,
    kind: Kind,
    height: usize,
    need: i32,
    leads: Vec<(usize, i32)>,
}

/// None where a need or a height passes a byte.
pub fn assemble(items: &[Item], origin: usize, labels: usize) -> Option<Assembled> {
    let labels = place_labels(items, origin, labels);
    let mut bytes = Vec::new();
    let mut placed = Vec::new();
    for item in items {
        let address = origin + bytes.len();
        match item {
            Item::Label(_) => {}
            Item::Data(data) => bytes.extend(data),
            Item::Line(line) => {
                let own = line_bytes(line, address, &labels);
                placed.push(place(line, address, &own));
                if line.inside.is_some() {
                    placed.push(place(line, address + 1, &own[1..]));
                }
                bytes.extend(own);
            }
        }
    }
    find_needs(&mut placed);
    let marks: Option<Vec<Mark>> = placed.iter().map(mark).collect();
    Some(Assembled {
        bytes,
        marks: marks?,
        labels,
    })
}

fn mark(placed: &Placed) -> Option<Mark> {
    Some(Mark {
        address: placed.address as u16,
        kind: placed.kind,
        height: u8::try_from(placed.height).ok()?,
        need: u8::try_from(placed.need).ok()?,
    })
}

fn place_labels(items: &[Item], origin: usize, labels: usize) -> Vec<u16> {
    let mut places = vec![0; labels];
    let mut address = origin;
    for item in items {
        match item {
            Item::Label(label) => places[label.0] = address as u16,
            Item::Line(Line {
                inside: Some(label),
                ..
            }) => places[label.0] = address as u16 + 1,
            _ => {}
        }
        address += size(std::slice::from_ref(item));
    }
    places
}

fn line_bytes(line: &Line, address: usize, labels: &[u16]) -> Vec<u8> {
    let mut bytes = vec![line.opcode];
    match (line.operand, instruction(line.opcode)) {
        (Operand::None, _) => {}
        (Operand::Byte(byte), _) => bytes.push(byte),
        (Operand::Word(word), _) => bytes.extend(word.to_le_bytes()),
        (Operand::To(label), Branch(..)) => {
            let offset = i32::from(labels[label.0]) - (address as i32 + 2);
            let offset = i8::try_from(offset).expect("a branch that reaches");
            bytes.push(offset as u8);
        }
        (Operand::To(label), _) => bytes.extend(labels[label.0].to_le_bytes()),
    }
    bytes
}

fn place(line: &Line, address: usize, bytes: &[u8]) -> Placed {
    let instruction = instruction(bytes[0]);
    let next = address + usize::from(instruction.length());
    let word = || usize::from(u16::from_le_bytes([bytes[1], bytes[2]]));
    let leads = match instruction {
        Rts | Rti => vec![],
        Jmp => vec![(word(), 0)],
        Jsr => vec![(next, 0), (word(), 2)],
        Pha | Php => vec![(next, 1)],
        Pla => vec![(next, -1)],
        Branch(..) => {
            let target = next as isize + isize::from(bytes[1] as i8);
            vec![(next, 0), (target as usize, 0)]
        }
        _ => vec![(next, 0)],
    };
    Placed {
        address,
        kind: line.kind,
        height: line.height,
        need: line.spare as i32,
        leads,
    }
}

/// The least needs that hold: each grows until it is enough for all that it leads to.
fn find_needs(placed: &mut [Placed]) {
    let at = |placed: &[Placed], address| {
        let found = placed.binary_search_by_key(&address, |one| one.address);
        found.expect("code that leads to code")
    };
    let mut is_settled = false;
    while !is_settled {
        is_settled = true;
        for i in (0..placed.len()).rev() {
            let wants = placed[i].leads.iter();
            let wanted = wants.map(|&(to, more)| placed[at(placed, to)].need + more);
            let wanted = wanted.max().unwrap_or(0);
            if placed[i].need < wanted {
                placed[i].need = wanted;
                is_settled = false;
            }
        }
    }
}
