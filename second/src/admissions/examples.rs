//! Examples of admission: document 01's, and those of docs/ADMISSION.md, which is held to what it says.

use crate::admission::{admit, Kind, Mark};
use crate::bus::BANK;
use crate::cores;

/// The file says what its lines mean.
const TEXT: &str = include_str!("../../admission.txt");
const PAGE: &str = include_str!("../../../docs/ADMISSION.md");

/// What begins an example on the page.
const FENCE: &str = "```admission";

#[derive(Clone)]
struct Example {
    name: String,
    image: Vec<u8>,
    c: u8,
    marks: Vec<Mark>,
    answer: Option<u64>,
}

/// True where the second program and the archive answer every example as it says.
pub fn examples() -> bool {
    let (of_text, of_page) = (read_text(TEXT), read_page(PAGE));
    let failed = of_text.iter().chain(&of_page).filter(|one| !one.holds());
    let failed = failed.count();
    println!(
        "{} examples of admission and {} of its page: {} failed",
        of_text.len(),
        of_page.len(),
        failed
    );
    failed == 0 && !of_text.is_empty() && !of_page.is_empty()
}

impl Example {
    fn new(name: &str) -> Example {
        Example {
            name: name.to_string(),
            image: vec![0; BANK],
            c: 0,
            marks: Vec::new(),
            answer: None,
        }
    }

    fn goes_on(&self, name: &str) -> Example {
        Example {
            name: name.to_string(),
            answer: None,
            ..self.clone()
        }
    }

    fn holds(&self) -> bool {
        let map: Vec<u8> = self.marks.iter().flat_map(|mark| mark.write()).collect();
        let mine = admit(&self.image, self.c, &map);
        let theirs = cores::admit(&self.image, self.c, &map, 0);
        let holds = Some(mine) == self.answer && Some(theirs) == self.answer;
        if !holds {
            println!("{}", self.name);
            println!("  second {:X}, archive {:X}", mine, theirs);
            println!("  expected {:X?}", self.answer);
        }
        holds
    }

    fn read(&mut self, line: &str) {
        let (word, rest) = line.split_once(' ').expect("a word and what it says");
        let words: Vec<&str> = rest.split_whitespace().collect();
        match (word, &words[..]) {
            ("c", [c]) => self.c = decimal(c) as u8,
            ("image", [address, bytes @ ..]) => {
                let start = usize::from(address_of(address));
                for (cell, byte) in self.image[start..].iter_mut().zip(bytes) {
                    *cell = byte_of(byte);
                }
            }
            ("map", [address, kind, height, need, bytes @ ..]) => {
                let mark = Mark {
                    address: address_of(address),
                    kind: kind_of(kind),
                    height: decimal(height) as u8,
                    need: decimal(need) as u8,
                };
                let shown: Vec<u8> = bytes.iter().map(|byte| byte_of(byte)).collect();
                let is_shown = bytes.is_empty() || shown == mark.write();
                assert!(is_shown, "the record's bytes are others: {}", line);
                self.unmap(mark.address);
                self.marks.push(mark);
                self.marks.sort_by_key(|mark| mark.address);
            }
            ("unmap", [address]) => self.unmap(address_of(address)),
            ("answer", [number]) => self.answer = Some(decimal(number)),
            ("answer", [number, "index", index]) => {
                self.answer = Some(decimal(number) | decimal(index) << 16);
            }
            _ => panic!("no example of admission has such a line: {}", line),
        }
    }

    fn unmap(&mut self, address: u16) {
        self.marks.retain(|mark| mark.address != address);
    }
}

fn read_text(text: &str) -> Vec<Example> {
    let mut examples: Vec<Example> = Vec::new();
    let is_said = |line: &&str| !line.is_empty() && !line.starts_with('#');
    for line in text.lines().filter(is_said) {
        match (line.split_once(' '), examples.last()) {
            (Some(("=", name)), _) => examples.push(Example::new(name)),
            (Some(("+", name)), Some(before)) => {
                let next = before.goes_on(name);
                examples.push(next);
            }
            (Some(("?", name)), _) => {
                let admitted = examples.iter().rev().find(|one| one.answer == Some(0));
                let next = admitted.expect("one that was admitted").goes_on(name);
                examples.push(next);
            }
            _ => match examples.last_mut() {
                Some(example) => example.read(line),
                None => panic!("an example begins with its name: {}", line),
            },
        }
    }
    examples
}

/// The page's fenced examples, as one text.
fn read_page(page: &str) -> Vec<Example> {
    let mut lines = page.lines();
    let mut text = String::new();
    while lines.any(|line| line == FENCE) {
        for line in lines.by_ref().take_while(|&line| line != "```") {
            text.push_str(line);
            text.push('\n');
        }
    }
    read_text(&text)
}

fn kind_of(word: &str) -> Kind {
    match word {
        "main" => Kind::Main,
        "routine" => Kind::Routine,
        "handler" => Kind::Handler,
        _ => panic!("no such kind: {}", word),
    }
}

fn decimal(word: &str) -> u64 {
    word.parse().expect("a decimal number")
}

fn address_of(word: &str) -> u16 {
    u16::from_str_radix(word, 16).expect("an address")
}

fn byte_of(word: &str) -> u8 {
    u8::from_str_radix(word, 16).expect("a byte")
}
