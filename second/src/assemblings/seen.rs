//! Which kinds of texts and bytes a comparison has seen.

use super::bad::KINDS;
use super::draw::{Source, Text};
use crate::assembler::DEEPEST;
use crate::mnemonics::{named, Form};
use crate::report::Report;

const NUMBERS: [u64; 6] = [0, 30, 31, 32, 33, 34];
const SOURCES: [&str; 10] = [
    "right lines",
    "CR alone at the end",
    "one line of a kind",
    "several bad lines",
    "damaged lines",
    "damaged real text",
    "listed",
    "listed and damaged",
    "mere words",
    "mere bytes",
];
const ROOMS: [&str; 5] = [
    "none at all",
    "one too few",
    "just enough",
    "one more",
    "many more",
];
const EMPTIES: [&str; 3] = ["0", "1", "the last address"];

pub struct Seen {
    numbers: [u64; NUMBERS.len()],
    sources: [u64; SOURCES.len()],
    kinds: Vec<u64>,
    rooms: [u64; ROOMS.len()],
    list_rooms: [u64; ROOMS.len()],
    pub earlier_room: u64,
    empties: [u64; EMPTIES.len()],
    opcodes: [u64; 256],
    offsets: [u64; 256],
    depths: [u64; DEEPEST + 2],
    empty_text: u64,
    empty_bytes: u64,
    crlf: u64,
    no_last_end: u64,
    tabs: u64,
    comments: [u64; 256],
    across: u64,
    listed: [u64; 256],
    cut: u64,
    list_across: u64,
    list_numbers: [u64; 2],
    pub round_trips: u64,
    pub long: u64,
}

impl Seen {
    pub fn new() -> Seen {
        Seen {
            numbers: [0; NUMBERS.len()],
            sources: [0; SOURCES.len()],
            kinds: vec![0; KINDS.len()],
            rooms: [0; ROOMS.len()],
            list_rooms: [0; ROOMS.len()],
            earlier_room: 0,
            empties: [0; EMPTIES.len()],
            opcodes: [0; 256],
            offsets: [0; 256],
            depths: [0; DEEPEST + 2],
            empty_text: 0,
            empty_bytes: 0,
            crlf: 0,
            no_last_end: 0,
            tabs: 0,
            comments: [0; 256],
            across: 0,
            listed: [0; 256],
            cut: 0,
            list_across: 0,
            list_numbers: [0; 2],
            round_trips: 0,
            long: 0,
        }
    }

    /// A text, what it makes up to its first bad line, and the word where there is room.
    pub fn note_text(&mut self, text: &Text, made: &[u8], word: u64) {
        let source = match text.source {
            Source::Lines => 0,
            Source::LastCr => 1,
            Source::OneBad(kind) => {
                self.kinds[kind] += 1;
                2
            }
            Source::SeveralBad => 3,
            Source::Damaged => 4,
            Source::RealDamaged => 5,
            Source::Listed => 6,
            Source::ListedDamaged => 7,
            Source::Words => 8,
            Source::Bytes => 9,
        };
        self.sources[source] += 1;
        let deepest = deepest(&text.text);
        self.depths[deepest.min(DEEPEST + 1)] += 1;
        if word & 0xFF != 0 {
            return;
        }
        let text_bytes = &text.text;
        self.empty_text += u64::from(text_bytes.is_empty());
        self.crlf += u64::from(text_bytes.windows(2).any(|two| two == b"\r\n"));
        self.no_last_end += u64::from(!text_bytes.is_empty() && !text_bytes.ends_with(b"\n"));
        self.tabs += u64::from(text_bytes.contains(&b'\t'));
        self.across += u64::from(usize::from(text.start) + made.len() > 65_536);
        for line in text_bytes.split(|&byte| byte == b'\n') {
            let comment = line.iter().position(|&byte| byte == b';');
            for byte in &line[comment.map_or(line.len(), |at| at + 1)..] {
                self.comments[usize::from(*byte)] += 1;
            }
        }
        for instruction in &text.instructions {
            self.opcodes[usize::from(instruction[0])] += 1;
            if named(instruction[0]).map_or(false, |(_, form)| form == Form::Relative) {
                self.offsets[usize::from(instruction[1])] += 1;
            }
        }
    }

    /// One call of the assembler: its word, what the text wants and what it was given.
    pub fn note_call(&mut self, word: u64, need: usize, room: usize, empty: usize) {
        let number = NUMBERS.iter().position(|&number| number == word & 0xFF);
        self.numbers[number.expect("one of the numbers")] += 1;
        note_room(&mut self.rooms, need, room);
        self.empties[empty] += 1;
    }

    pub fn note_list(&mut self, bytes: &[u8], start: u16, word: u64, need: usize, room: usize) {
        self.list_numbers[usize::from(word & 0xFF != 0)] += 1;
        note_room(&mut self.list_rooms, need, room);
        self.empty_bytes += u64::from(bytes.is_empty());
        self.list_across += u64::from(usize::from(start) + bytes.len() > 65_536);
        let mut rest = bytes;
        while let [opcode, behind @ ..] = rest {
            self.listed[usize::from(*opcode)] += 1;
            let length = named(*opcode).map_or(0, |(_, form)| form.length() - 1);
            self.cut += u64::from(length > behind.len());
            rest = match length > behind.len() {
                true => behind,
                false => &behind[length..],
            };
        }
    }

    /// Prints every count; false where a needed one is zero.
    pub fn report(&self) -> bool {
        let mut report = Report::new();
        for (number, count) in NUMBERS.iter().zip(self.numbers) {
            match number {
                0 => report.row("assembled", count),
                _ => report.row(&format!("refusal {}", number), count),
            }
        }
        report.rows("text: ", &SOURCES, &self.sources);
        report.rows("room: ", &ROOMS, &self.rooms);
        report.row("34 before a worse line", self.earlier_room);
        report.rows("empty buffer at ", &EMPTIES, &self.empties);
        report.opcodes_of("of right lines", |&it| named(it).is_some(), &self.opcodes);
        report.rarest("branch offset, 0 to 255", &self.offsets);
        report.rarest("brackets, 0 to 16 deep or more", &self.depths);
        report.row("empty text", self.empty_text);
        report.row("with CR LF", self.crlf);
        report.row("without the last LF", self.no_last_end);
        report.row("with tabs", self.tabs);
        let mut comments = self.comments;
        // LF ends a comment.
        comments[10] = u64::MAX;
        report.rarest("in a comment, byte 0 to 255", &comments);
        report.row("text across FFFF", self.across);
        report.row("text that makes over 65,536 bytes", self.long);

        println!("lines of a kind:");
        for (kind, &count) in KINDS.iter().zip(&self.kinds) {
            report.row(&format!("{} {}", kind.number, kind.name), count);
        }

        println!("lister:");
        report.row("listed", self.list_numbers[0]);
        report.row("refusal 34 of the lister", self.list_numbers[1]);
        report.rows("room for the text: ", &ROOMS, &self.list_rooms);
        report.rarest("first byte of a line, 0 to 255", &self.listed);
        report.row("no bytes", self.empty_bytes);
        report.row("cut instruction", self.cut);
        report.row("bytes across FFFF", self.list_across);
        report.row("listed and assembled again", self.round_trips);
        report.is_whole()
    }
}

fn note_room(rooms: &mut [u64; ROOMS.len()], need: usize, room: usize) {
    rooms[0] += u64::from(room == 0 && need > 0);
    rooms[1] += u64::from(room + 1 == need);
    rooms[2] += u64::from(room == need && need > 0);
    rooms[3] += u64::from(room == need + 1);
    rooms[4] += u64::from(room > need + 1);
}

/// How many brackets stand open at once, at most, on a line.
fn deepest(text: &[u8]) -> usize {
    let (mut most, mut open) = (0, 0usize);
    let mut is_comment = false;
    for byte in text {
        match byte {
            b'\n' => {
                open = 0;
                is_comment = false;
            }
            b';' => is_comment = true,
            b'[' if !is_comment => open += 1,
            b']' if !is_comment => open = open.saturating_sub(1),
            _ => {}
        }
        most = most.max(open);
    }
    most
}
