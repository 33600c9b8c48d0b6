//! Lines that must be refused, by kind, and lines that only look so.

use crate::assembler::{BRANCH_TOO_FAR, DEEPEST, NOT_A_LINE, NO_SUCH_MODE, TOO_DEEP};
use crate::mnemonics::{row, Form, Row, ROWS};
use crate::random::Random;
use crate::texts::{any_case, deep_sum, spaced, sum, Style};

/// What a kind of line is answered: 0 where it is taken.
pub struct Kind {
    pub name: &'static str,
    pub number: u64,
    /// A line without its end, for this address.
    draw: fn(&mut Random, u16) -> Vec<u8>,
}

impl Kind {
    pub fn draw(&self, random: &mut Random, address: u16) -> Vec<u8> {
        (self.draw)(random, address)
    }
}

const TAKEN: u64 = 0;

macro_rules! kind {
    ($number:ident, $name:literal, $draw:expr) => {
        Kind {
            name: $name,
            number: $number,
            draw: $draw,
        }
    };
}

pub const KINDS: &[Kind] = &[
    kind!(NOT_A_LINE, "no mnemonic", no_mnemonic),
    kind!(NOT_A_LINE, "no name first", |random, _| {
        of(random, "$12|#$12|(|)|,|+|-$1|[$1]|[|]|1|$")
    }),
    kind!(NOT_A_LINE, "five digits", |random, _| {
        let digits = random.between(5, 9);
        let zeros = random.below(digits + 1);
        let number: String = (0..digits)
            .map(|at| {
                if at < zeros {
                    '0'
                } else {
                    random.pick(&['1', '9', 'A', 'f'])
                }
            })
            .collect();
        let name = a_row(random).name;
        line(random, &[name, " ", "$", &number])
    }),
    kind!(NOT_A_LINE, "a number that is none", |random, _| {
        of(
            random,
            "LDA $|LDA $ 12|LDA $G|LDA $1 2|LDA $\t12|LDA 12|LDA %101|LDA $$12|LDA #$|LDA $1$|BYTE 1\
             |LDA $12G|LDA $1.2|LDA 0x12|LDA $-1|NOP $|NOP1|LDA1",
        )
    }),
    kind!(NOT_A_LINE, "a sign in front", |random, _| {
        of(
            random,
            "LDA -$12|LDA +$12|LDA #-$1|LDA #+$1|LDA [-$1]|LDA ($1),-Y|LDA (-$1),Y|BYTE -$1|BNE -$2\
             |LDA $1+[-$1]|LDA $1+-$2|LDA $1--$2|LDA $1-+$2",
        )
    }),
    kind!(NOT_A_LINE, "a sign at the end", |random, _| {
        of(
            random,
            "LDA $12+|LDA $12-|LDA #$1-|LDA [$1+]|LDA ($1+),Y|LDA $1+,X|BYTE $1+|LDA +",
        )
    }),
    kind!(NOT_A_LINE, "brackets that do not match", |random, _| {
        of(
            random,
            "LDA [$1|LDA $1]|LDA []|LDA [[$1]|LDA [$1]]|LDA ]$1[|LDA [($1)]|LDA ([$1)],Y|LDA [$1,X]\
             |LDA #[$1|BYTE [|BYTE ]|LDA [$1][$2]|LDA $1[$2]|LDA [$1]$2|NOP []|LDA [A]|LDA ($1]",
        )
    }),
    kind!(NOT_A_LINE, "an operand that is none", |random, _| {
        of(
            random,
            "LDA ($12)+$1|LDA ($12),X|LDA ($12,Y)|LDA ($12,X),Y|LDA $12,Z|LDA $12,|LDA $12,A|LDA ,X\
             |LDA #|LDA ()|LDA (A)|LDA (),Y|LDA (,X)|LDA #($1)|LDA ##$1|LDA #A|LDA #$1,X|LDA $1 $2\
             |LDA $1,X,Y|LDA $1,X Y|LDA $1,XY|LDA $1 X|LDA ($1|LDA $1)|LDA (($1)),Y|LDA ($1),\
             |LDA ($1,X|LDA X|LDA Y|LDA $1,$2|LDA $1+A|LDA ($1)Y|JMP ($1234)+$1|JMP (($1234))\
             |JMP ($1234|JMP $1234)|LDA $12,X)|LDA ($1),Y,",
        )
    }),
    kind!(NOT_A_LINE, "an A that is none", |random, _| {
        of(
            random,
            "ASL A,X|ASL A A|ASL AA|ASLA|ASL #A|ASL (A)|ASL A+$1|ASL $1+A|ASL [A]|ASL A]",
        )
    }),
    kind!(NOT_A_LINE, "two on a line", |random, _| {
        of(
            random,
            "NOP NOP|NOP LDA $1|LDA $1 NOP|LDA LDA|BYTE BYTE $1|BYTE NOP|NOP BYTE $1|NOP,NOP",
        )
    }),
    kind!(NOT_A_LINE, "an operand of none that is bad", |random, _| {
        of(
            random,
            "NOP #|NOP (|NOP ,X|NOP $1+|RTS ]|CLC $12345|TAX X|INX Y|BRK #A",
        )
    }),
    kind!(NOT_A_LINE, "BYTE and no sum", |random, _| {
        of(
            random,
            "BYTE|BYTE A|BYTE #$1|BYTE $1,X|BYTE $1,Y|BYTE ($1)|BYTE ($1,X)|BYTE ($1),Y|BYTE $1,$2\
             |BYTE $100,X|BYTE #$100|BYTES $1|BYT $1|BYTE $1 $2",
        )
    }),
    kind!(NOT_A_LINE, "no character of the language", |random, _| {
        let mut line = of(random, "LDA $12|NOP||LDA #$1|BYTE $1+[$2]|\t");
        let at = random.between(0, line.len());
        line.insert(at, foreign(random));
        line
    }),
    kind!(NOT_A_LINE, "CR within a line", |random, _| {
        of(
            random,
            "LDA\r$12|\rNOP|NOP \r|LDA $\r12|\r|\r;|NOP\r;|\r\r|BYTE $1\r\r",
        )
        .into_iter()
        // One directly before the LF would belong to the line's end.
        .chain([b' '])
        .collect()
    }),
    kind!(NO_SUCH_MODE, "no such mode", |random, _| loop {
        let row = a_row(random);
        let shape = random.below(SHAPES.len());
        if let Some(line) = lacking(random, row, shape) {
            return line;
        }
    }),
    kind!(NO_SUCH_MODE, "a value too large for a byte", |random, _| {
        let (before, behind, name) = random.pick(&[
            ("#", "", "LDA"),
            ("#", "", "CPX"),
            ("#", "", "LDY"),
            ("(", ",X)", "EOR"),
            ("(", "),Y", "STA"),
            ("", "", "BYTE"),
        ]);
        let value = random.between(256, 65_535) as u16;
        let value = random.pick(&[256, 0xFFFF, 0x8000, 0x1FF, value]);
        with_sum(random, name, before, value, behind)
    }),
    kind!(NO_SUCH_MODE, "four digits, no such form", |random, _| {
        let (name, index) = random.pick(&[("STX", ",Y"), ("STY", ",X")]);
        let value = random.pick(&[0x0012, 0x0000, 0x00FF, 0x0100, 0x1234]);
        let digits = format!("${:04X}", value);
        line(random, &[name, " ", &digits, index])
    }),
    kind!(NO_SUCH_MODE, "a large value, no such form", |random, _| {
        let (name, index) = random.pick(&[("STX", ",Y"), ("STY", ",X")]);
        let value = random.between(256, 65_535) as u16;
        with_sum(random, name, "", value, index)
    }),
    kind!(BRANCH_TOO_FAR, "one too far forwards", |random, address| {
        branch(random, address, 128)
    }),
    kind!(
        BRANCH_TOO_FAR,
        "one too far backwards",
        |random, address| { branch(random, address, -129) }
    ),
    kind!(BRANCH_TOO_FAR, "far", |random, address| {
        let offset = random.between(128, 65_407) as i32;
        branch(random, address, offset)
    }),
    kind!(TOO_DEEP, "17 deep", |random, _| {
        let (before, behind) = brackets(DEEPEST + 1);
        line(random, &["LDA ", &before, "$12", &behind])
    }),
    kind!(TOO_DEEP, "a random sum, 17 deep", |random, _| {
        with_depth(random, DEEPEST + 1)
    }),
    kind!(TAKEN, "a random sum, 16 deep", |random, _| {
        with_depth(random, DEEPEST)
    }),
    kind!(TOO_DEEP, "deeper", |random, _| {
        let (before, behind) = brackets(random.between(DEEPEST + 2, 300));
        let name = a_row(random).name;
        line(random, &[name, " ", &before, "$12", &behind])
    }),
    kind!(TOO_DEEP, "17 open and never closed", |random, _| {
        let (before, _) = brackets(DEEPEST + 1);
        let behind = random.pick(&["", "$12", "]", "LDA", " "]);
        line(random, &["LDA ", &before, behind])
    }),
    kind!(TOO_DEEP, "17 deep, and bad besides", |random, _| {
        let (before, behind) = brackets(DEEPEST + 1);
        let around = random.pick(&[
            ("", "$12", ""),
            ("LDQ", "$1", ""),
            ("NOP ", "$1", ""),
            ("LDA -", "$1", ",Q"),
            ("BYTE ", "$100", ",X"),
            ("LDA $12345+", "$1", ""),
            ("BNE ", "$1", ""),
            ("\u{1}", "$1", ""),
            ("]]]", "]]", "]]"),
            ("LDA #", "A", ""),
        ]);
        // Brackets that close before any is open count for nothing.
        line(random, &[around.0, &before, around.1, &behind, around.2])
    }),
    kind!(TOO_DEEP, "17 open among others", |random, _| {
        let mut line = b"LDA ".to_vec();
        let mut open = 0;
        while open <= DEEPEST {
            match random.below(3) {
                0 if open > 0 => {
                    line.push(b']');
                    open -= 1;
                }
                1 => line.extend(random.pick(&[&b"$1"[..], b"+", b"X", b" ", b"("])),
                _ => {
                    line.push(b'[');
                    open += 1;
                }
            }
        }
        line
    }),
    kind!(NOT_A_LINE, "16 open and never closed", |random, _| {
        let (before, _) = brackets(DEEPEST);
        let behind = random.pick(&["", "$12", "]", "$12]]]"]);
        line(random, &["LDA ", &before, behind])
    }),
    kind!(NOT_A_LINE, "17, not all open at once", |random, _| {
        let (before, _) = brackets(DEEPEST);
        line(random, &["LDA ", &before, "][$1"])
    }),
    kind!(TAKEN, "16 deep", |random, _| {
        let (before, behind) = brackets(DEEPEST);
        line(random, &["LDA ", &before, "$12", &behind])
    }),
    kind!(TAKEN, "16 deep twice", |random, _| {
        let (before, behind) = brackets(DEEPEST);
        line(
            random,
            &[
                "LDA ", &before, "$12", &behind, "+", &before, "$34", &behind,
            ],
        )
    }),
    kind!(TAKEN, "17 in a comment", |random, _| {
        let (before, behind) = brackets(random.between(DEEPEST + 1, 40));
        line(random, &["LDA $12 ;", &before, &behind])
    }),
    kind!(TAKEN, "the last branch forwards", |random, address| {
        branch(random, address, 127)
    }),
    kind!(TAKEN, "the last branch backwards", |random, address| {
        branch(random, address, -128)
    }),
    kind!(TAKEN, "anything in a comment", |random, _| {
        of(
            random,
            "; LDQ|;;|;$12345|NOP;NOP|NOP ; \r x| \t;\u{0}|LDA $12;,X",
        )
    }),
    kind!(TAKEN, "no space where none is needed", |random, _| {
        of(
            random,
            "LDA#$12|LDA$12|BYTE$1|LDA($12),Y|LDA[$1]|jmp($1234)|sta$12,x|LDX#[$1]-$1+$0",
        )
    }),
    kind!(TAKEN, "space wherever it may be", |random, _| {
        of(
            random,
            "\tLDA \t#\t$12 | LDA ( $12 ) , Y |LDA\t( $1 + [ $2 ] , X )|ASL\ta\t|  \t \
             | BYTE  $1 - $0 ",
        )
    }),
];

fn a_row(random: &mut Random) -> &'static Row {
    &ROWS[random.below(ROWS.len())]
}

fn line(random: &mut Random, pieces: &[&str]) -> Vec<u8> {
    any_case(random, &pieces.concat()).into_bytes()
}

/// One of these lines, which stand between bars.
fn of(random: &mut Random, lines: &str) -> Vec<u8> {
    let lines: Vec<&str> = lines.split('|').collect();
    let text = random.pick(&lines);
    line(random, &[text])
}

fn brackets(depth: usize) -> (String, String) {
    ("[".repeat(depth), "]".repeat(depth))
}

/// One to five letters that are no name of the language.
fn no_mnemonic(random: &mut Random, _: u16) -> Vec<u8> {
    loop {
        let mut name = match random.below(4) {
            0 => a_row(random).name.to_string() + random.pick(&["A", "X", "Y", "S"]),
            1 => a_row(random).name[..2].to_string(),
            2 => {
                let mut letters = a_row(random).name.as_bytes().to_vec();
                let at = random.below(3);
                letters[at] = b'A' + random.below(26) as u8;
                String::from_utf8_lossy(&letters).into_owned()
            }
            _ => (0..random.between(1, 5))
                .map(|_| char::from(b'A' + random.below(26) as u8))
                .collect(),
        };
        if row(&name).is_none() && name != "BYTE" {
            name += random.pick(&["", " ", " $12", " A", " #$1", ",X", "\t;"]);
            return line(random, &[&name]);
        }
    }
}

/// A byte that no content of a line has.
fn foreign(random: &mut Random) -> u8 {
    loop {
        let byte = match random.below(2) {
            0 => random.byte(),
            _ => random.pick(&[
                0, 0x0B, 0x0C, 0x7F, 0xA0, b':', b'.', b'_', b'*', b'"', b'\'', b'@', b'`', b'{',
                b'}', b'\\', b'^', b'/', b'=', b'<', b'!',
            ]),
        };
        let is_known = byte.is_ascii_alphanumeric() || b" \t\r\n;$#(),+-[]".contains(&byte);
        if !is_known {
            return byte;
        }
    }
}

/// The shapes of an operand, and the modes that each may be.
const SHAPES: [(&str, &str, &[Form]); 9] = [
    ("", "", &[Form::Implied]),
    ("A", "", &[Form::Accumulator]),
    ("#", "", &[Form::Immediate]),
    ("", "", &[Form::Zero, Form::Absolute, Form::Relative]),
    ("", ",X", &[Form::ZeroX, Form::AbsoluteX]),
    ("", ",Y", &[Form::ZeroY, Form::AbsoluteY]),
    ("(", ",X)", &[Form::IndirectX]),
    ("(", "),Y", &[Form::IndirectY]),
    ("(", ")", &[Form::Indirect]),
];

/// A line of this mnemonic with this shape, where it has no such mode.
fn lacking(random: &mut Random, row: &Row, shape: usize) -> Option<Vec<u8>> {
    let (before, behind, forms) = SHAPES[shape];
    if forms.iter().any(|&form| row.has(form)) {
        return None;
    }
    Some(match shape {
        0 => line(random, &[row.name]),
        1 => line(random, &[row.name, " A"]),
        _ => {
            let value = random.edge_or_address();
            with_sum(random, row.name, before, value, behind)
        }
    })
}

/// The value as some sum that is not four digits alone.
fn with_sum(random: &mut Random, name: &str, before: &str, value: u16, behind: &str) -> Vec<u8> {
    let mut words = vec![any_case(random, name)];
    words.extend(before.chars().map(String::from));
    words.extend(sum(random, Style::Free, value, false));
    let behind = any_case(random, behind);
    words.extend(behind.chars().map(String::from));
    spaced(random, Style::Free, &words)
}

fn with_depth(random: &mut Random, depth: usize) -> Vec<u8> {
    let mut words = vec![any_case(random, "LDA"), "#".to_string()];
    let value = u16::from(random.byte());
    words.extend(deep_sum(random, value, depth));
    spaced(random, Style::Free, &words)
}

/// To so many bytes behind the branch's own two.
fn branch(random: &mut Random, address: u16, offset: i32) -> Vec<u8> {
    let branches = ["BPL", "BMI", "BVC", "BVS", "BCC", "BCS", "BNE", "BEQ"];
    let name = random.pick(&branches);
    let target = (i32::from(address) + 2 + offset) as u16;
    with_sum(random, name, "", target, "")
}
