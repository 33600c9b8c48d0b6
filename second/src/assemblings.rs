//! Texts assembled and bytes listed, on the second program and on the archive: every kind of line, good and bad, rooms
//! of every size round the need, and back again.

mod bad;
mod draw;
mod seen;

use crate::assembler::{assemble, NO_ROOM};
use crate::cases::{GUARD, MOST_SHIFT};
use crate::compare::{hex, tell_first};
use crate::cores;
use crate::lister::{list, listing};
use crate::mnemonics::named;
use crate::random::Random;
use draw::{Right, Source, Text};
use seen::Seen;

/// Where the pointer of an empty buffer may lead.
const EMPTY: [usize; 3] = [0, 1, usize::MAX];

/// So many bytes of a text are told where it was answered wrongly.
const MOST_TOLD: usize = 2_000;

struct Comparison {
    random: Random,
    seen: Seen,
}

/// A call of either function: from what is only read to what is written, and the word.
type Call<'a> = &'a dyn Fn(&[u8], &mut [u8]) -> u64;

/// True where no answer differed and no needed kind was missing.
pub fn assemblings(texts: u64, seed: u64) -> bool {
    println!("seed {}", seed);
    println!("second program against archive, {} texts", texts);
    let mut comparison = Comparison {
        random: Random::new(seed),
        seen: Seen::new(),
    };
    if !comparison.long() || !comparison.long_lines() {
        return false;
    }
    for number in 0..texts {
        let text = draw::text(&mut comparison.random);
        let is_right = comparison.text(&text) && (number % 4 != 0 || comparison.bytes());
        if !is_right {
            println!("first difference at text {} of seed {}", number, seed);
            return false;
        }
    }
    comparison.seen.report()
}

impl Comparison {
    /// A text with rooms round what it makes, and round what it makes before each line.
    fn text(&mut self, text: &Text) -> bool {
        // No text makes more bytes than it has characters.
        let mut made = vec![0; text.text.len()];
        let word = assemble(&text.text, text.start, &mut made);
        let need = match word & 0xFF {
            0 => (word >> 16) as usize,
            _ => self.made_before(text, word >> 16),
        };
        let mut made = vec![0; need];
        if word & 0xFF == 0 {
            assemble(&text.text, text.start, &mut made);
        }
        let is_expected = match &text.right {
            Right::Bytes(bytes) => word & 0xFF == 0 && made == *bytes,
            Right::Refused(number, line) => word == number | line << 16,
            Right::Unknown => true,
        };
        if !is_expected {
            println!("the second program's {:X} is not what was drawn", word);
            tell(text);
            return false;
        }
        self.seen.note_text(text, &made, word);

        let random = &mut self.random;
        let rooms = [
            need,
            need + 1,
            need + random.between(2, GUARD),
            need.saturating_sub(1),
            random.between(0, need),
            0,
        ];
        // Some of them: the need itself always.
        let chosen = random.below(1 << rooms.len()) | 1;
        (0..rooms.len())
            .filter(|at| chosen >> at & 1 == 1)
            .all(|at| self.assemble_in(text, need, rooms[at]))
    }

    /// How many bytes the lines before the bad one make.
    fn made_before(&self, text: &Text, line: u64) -> usize {
        let lines = text.text.split_inclusive(|&byte| byte == b'\n');
        let before: Vec<u8> = lines.take(line as usize - 1).flatten().copied().collect();
        let mut made = vec![0; before.len()];
        let word = assemble(&before, text.start, &mut made);
        assert_eq!(word & 0xFF, 0, "the first bad line is not the first");
        (word >> 16) as usize
    }

    fn assemble_in(&mut self, text: &Text, need: usize, room: usize) -> bool {
        let empty = self.random.below(EMPTY.len());
        let start = text.start;
        let mine = |text: &[u8], bytes: &mut [u8]| assemble(text, start, bytes);
        let theirs =
            |text: &[u8], bytes: &mut [u8]| cores::assemble(text, start, bytes, EMPTY[empty]);
        match self.compare(&text.text, room, &mine, &theirs) {
            Some((word, _)) => {
                let is_early = word & 0xFF == NO_ROOM && matches!(text.right, Right::Refused(..));
                self.seen.earlier_room += u64::from(is_early);
                self.seen.note_call(word, need, room, empty);
                true
            }
            None => {
                println!("room for {} bytes, and {} are made", room, need);
                tell(text);
                false
            }
        }
    }

    /// Bytes that are listed, with rooms round the text's length, and assembled again.
    fn bytes(&mut self) -> bool {
        let random = &mut self.random;
        let length = match random.below(8) {
            0 => random.below(4),
            1 => random.between(100, 400),
            _ => random.between(1, 40),
        };
        let mut bytes: Vec<u8> = (0..length).map(|_| random.byte()).collect();
        if random.one_in(2) {
            edges(random, &mut bytes);
        }
        let start = match random.below(3) {
            0 => random.between(0xFFC0, 0xFFFF) as u16,
            _ => random.edge_or_address(),
        };
        self.list_and_back(&bytes, start)
    }

    fn list_and_back(&mut self, bytes: &[u8], start: u16) -> bool {
        let need = listing(bytes, start).len();
        let random = &mut self.random;
        let rooms = [
            need,
            need + 1,
            need + random.between(2, GUARD),
            need.saturating_sub(1),
            random.between(0, need),
            0,
        ];
        let mut text = Vec::new();
        for (number, room) in rooms.into_iter().enumerate() {
            let empty = EMPTY[self.random.below(EMPTY.len())];
            let mine = |bytes: &[u8], text: &mut [u8]| list(bytes, start, text);
            let theirs = |bytes: &[u8], text: &mut [u8]| cores::list(bytes, start, text, empty);
            match self.compare(bytes, room, &mine, &theirs) {
                Some((word, out)) => {
                    self.seen.note_list(bytes, start, word, need, room);
                    if number == 0 {
                        text = out;
                    }
                }
                None => {
                    println!("lister, start {:04X}, room {} of {}", start, room, need);
                    println!("bytes {}", hex(&bytes[..bytes.len().min(MOST_TOLD)]));
                    return false;
                }
            }
        }
        // "What the lister writes assembles to the same bytes."
        let mut again = vec![0; bytes.len()];
        let word = cores::assemble(&text, start, &mut again, 0);
        let is_same = word == (bytes.len() as u64) << 16 && again == bytes;
        if !is_same {
            println!(
                "listed and assembled again: word {:X}, start {:04X}",
                word, start
            );
            println!("bytes {}", hex(&bytes[..bytes.len().min(MOST_TOLD)]));
        }
        self.seen.round_trips += 1;
        is_same
    }

    /// One call on both, with noise before, in and behind the room. The word and what the room then holds, or None
    /// where they differ.
    fn compare(
        &mut self,
        input: &[u8],
        room: usize,
        mine: Call,
        theirs: Call,
    ) -> Option<(u64, Vec<u8>)> {
        let (shift, in_shift) = (
            self.random.between(0, MOST_SHIFT),
            self.random.between(0, MOST_SHIFT),
        );
        let mut my_room = vec![0; shift + room + GUARD];
        self.random.fill(&mut my_room);
        let mut their_room = my_room.clone();
        let mut lent = vec![0; in_shift];
        lent.extend(input);
        let before = lent.clone();
        let lent_to = shift..shift + room;
        let my_word = mine(&lent[in_shift..], &mut my_room[lent_to.clone()]);
        let their_word = theirs(&lent[in_shift..], &mut their_room[lent_to.clone()]);
        if my_word == their_word && my_room == their_room && lent == before {
            return Some((my_word, my_room[lent_to].to_vec()));
        }
        println!("second {:X}, archive {:X}", my_word, their_word);
        tell_first("byte", shift, &my_room, &their_room);
        tell_first("byte of what is only read", in_shift, &before, &lent);
        None
    }

    /// What makes more bytes than there are addresses, and a listing of as many.
    fn long(&mut self) -> bool {
        for count in [65_535, 65_536, 65_537, 131_071, 200_000] {
            let start = self.random.next() as u16;
            let mut text = Vec::new();
            let mut bytes = Vec::new();
            while bytes.len() < count {
                match count - bytes.len() {
                    1 | 2 => text.extend(b"NOP\n"),
                    _ => text.extend(b"JMP $EAEA\n"),
                }
                match count - bytes.len() {
                    1 | 2 => bytes.push(0xEA),
                    _ => bytes.extend([0x4C, 0xEA, 0xEA]),
                }
            }
            // To itself.
            let address = start.wrapping_add(bytes.len() as u16);
            text.extend(format!("BNE ${:X}", address).bytes());
            bytes.extend([0xD0, 0xFE]);
            self.seen.long += u64::from(bytes.len() > 65_538);
            let drawn = Text {
                text,
                start,
                right: Right::Bytes(bytes),
                source: Source::Lines,
                instructions: Vec::new(),
            };
            let mut random_bytes = vec![0; count];
            self.random.fill(&mut random_bytes);
            if !self.text(&drawn) || !self.list_and_back(&random_bytes, start) {
                println!("first difference at {} bytes", count);
                return false;
            }
        }
        true
    }

    /// Lines of a hundred thousand characters and more, each behind as many short ones.
    fn long_lines(&mut self) -> bool {
        const MANY: usize = 100_000;
        let refused = |number| Right::Refused(number, MANY as u64 + 1);
        let cases: [(&str, String, Right); 10] = [
            ("short lines", "NOP".to_string(), Right::Bytes(vec![0xEA])),
            (
                "a sum",
                "LDA #$0".to_string() + &"+$1".repeat(2 * 256 + 7),
                Right::Unknown,
            ),
            (
                "a long sum",
                "LDA #$0".to_string() + &"-$FFFF".repeat(MANY),
                Right::Unknown,
            ),
            (
                "a long sum that is refused",
                "BYTE $0".to_string() + &"+$1".repeat(MANY) + "+",
                refused(30),
            ),
            (
                "brackets",
                "LDA $0".to_string() + &"+[$1]".repeat(MANY),
                Right::Unknown,
            ),
            (
                "open brackets",
                "LDA ".to_string() + &"[".repeat(MANY),
                refused(33),
            ),
            (
                "closing brackets",
                "LDA $1".to_string() + &"]".repeat(MANY),
                refused(30),
            ),
            ("a name", "LDA".repeat(MANY), refused(30)),
            (
                "a number",
                "LDA $".to_string() + &"0".repeat(MANY),
                refused(30),
            ),
            (
                "space and a comment",
                " ".repeat(MANY) + "RTS" + &"\t".repeat(MANY) + ";" + &"[".repeat(MANY),
                Right::Bytes(vec![0x60]),
            ),
        ];
        for (name, line, right) in cases {
            let mut text = b"\n".repeat(MANY);
            text.extend(line.bytes());
            let drawn = Text {
                text,
                start: self.random.next() as u16,
                right,
                source: Source::Lines,
                instructions: Vec::new(),
            };
            if !self.text(&drawn) {
                println!("first difference at a long line: {}", name);
                return false;
            }
        }
        true
    }
}

/// Operands at every edge, and now and then an opcode that is cut at the end.
fn edges(random: &mut Random, bytes: &mut [u8]) {
    let mut at = 0;
    while at < bytes.len() {
        let length = named(bytes[at]).map_or(1, |(_, form)| form.length());
        let end = bytes.len().min(at + length);
        bytes[at + 1..end].fill_with(|| random.edge_or_byte());
        at = end;
    }
}

fn tell(text: &Text) {
    println!("start {:04X}, text:", text.start);
    let told = &text.text[..text.text.len().min(MOST_TOLD)];
    let escaped: String = told
        .iter()
        .map(|&byte| match byte {
            b'\n' => "\n".to_string(),
            b' '..=b'~' => char::from(byte).to_string(),
            _ => format!("\\x{:02X}", byte),
        })
        .collect();
    println!("{}", escaped);
}
