//! The examples of document 01 that are about a step.

use crate::bus::{access, ACCESS, BANK};
use crate::compare::hex;
use crate::core::step;
use crate::cores::Tested;

/// The file says what its lines mean.
const TEXT: &str = include_str!("../examples.txt");

/// Bytes from a place of the image on.
type Cells = (usize, Vec<u8>);

struct Example {
    name: &'static str,
    before: Vec<u8>,
    banks: usize,
    pins: u8,
    room: usize,
    image: Vec<Cells>,
    word: u64,
    after: Vec<u8>,
    list: Vec<[u8; ACCESS]>,
    changed: Vec<Cells>,
}

/// A byte that no list ends with.
const UNTOUCHED: u8 = 0xEE;

pub fn examples(cores: &[Tested]) -> bool {
    let examples = read_examples();
    let mut failed = 0;
    for example in &examples {
        failed += u32::from(!example.holds("second", step));
        for core in cores {
            let entry = |r: &mut [u8], i: &mut [u8], l, p, a: &mut [u8]| core.step(r, i, l, p, a);
            failed += u32::from(!example.holds(core.name, entry));
        }
    }
    let names: Vec<&str> = cores.iter().map(|core| core.name).collect();
    println!(
        "{} examples on second, {}: {} failed",
        examples.len(),
        names.join(", "),
        failed
    );
    failed == 0
}

impl Example {
    fn new(name: &'static str) -> Example {
        Example {
            name,
            before: Vec::new(),
            banks: 1,
            pins: 0,
            room: 64,
            image: Vec::new(),
            word: 0,
            after: Vec::new(),
            list: Vec::new(),
            changed: Vec::new(),
        }
    }

    fn holds<F>(&self, who: &str, step: F) -> bool
    where
        F: Fn(&mut [u8], &mut [u8], u8, u8, &mut [u8]) -> u64,
    {
        let mut record = self.before.clone();
        let mut image = vec![0; self.banks * BANK];
        put(&mut image, &self.image);
        let mut image_after = image.clone();
        put(&mut image_after, &self.changed);
        let mut accesses = vec![UNTOUCHED; self.room];
        let mut accesses_after = accesses.clone();
        for (place, access) in accesses_after.chunks_mut(ACCESS).zip(&self.list) {
            place.copy_from_slice(access);
        }

        let word = step(&mut record, &mut image, 0, self.pins, &mut accesses);
        let holds = word == self.word
            && record == self.after
            && accesses == accesses_after
            && image == image_after;
        if !holds {
            println!("{}: {}", who, self.name);
            println!("  word {:X}, expected {:X}", word, self.word);
            println!("  record   {}", hex(&record));
            println!("  expected {}", hex(&self.after));
            println!("  accesses {}", hex(&accesses));
            println!("  expected {}", hex(&accesses_after));
            println!("  image as expected: {}", image == image_after);
        }
        holds
    }
}

fn put(image: &mut [u8], cells: &[Cells]) {
    for (at, values) in cells {
        image[*at..*at + values.len()].copy_from_slice(values);
    }
}

fn read_examples() -> Vec<Example> {
    let mut examples: Vec<Example> = Vec::new();
    let is_said = |line: &&str| !line.is_empty() && !line.starts_with('#');
    for line in TEXT.lines().filter(is_said) {
        let (word, rest) = line.split_once(' ').expect("a word and what it says");
        if word == "=" {
            examples.push(Example::new(rest));
            continue;
        }
        let example = examples.last_mut().expect("a name before all else");
        let digits = bytes(rest);
        match word {
            "before" => example.before = digits,
            "banks" => example.banks = number(&digits),
            "pins" => example.pins = digits[0],
            "room" => example.room = number(&digits),
            "image" => example.image.push(cells(&digits)),
            "word" => example.word = number(&digits) as u64,
            "after" => example.after = digits,
            "R" => example.list.push(listed(&digits, 0)),
            "W" => example.list.push(listed(&digits, 1)),
            "changed" => example.changed.push(cells(&digits)),
            _ => panic!("no example has such a line: {}", line),
        }
    }
    examples
}

/// Two digits are a byte; the first stands alone where their number is odd.
fn bytes(text: &str) -> Vec<u8> {
    let digits = text.chars().filter_map(|c| c.to_digit(16));
    let mut digits: Vec<u8> = digits.map(|digit| digit as u8).collect();
    if digits.len() % 2 == 1 {
        digits.insert(0, 0);
    }
    let pairs = digits.chunks(2);
    pairs.map(|pair| pair[0] << 4 | pair[1]).collect()
}

fn number(bytes: &[u8]) -> usize {
    bytes.iter().fold(0, |n, &byte| n << 8 | usize::from(byte))
}

fn cells(bytes: &[u8]) -> Cells {
    (number(&bytes[..3]), bytes[3..].to_vec())
}

/// Eight digits: the bank's one, the address's four, the value's two, the purpose's one.
fn listed(bytes: &[u8], written: u8) -> [u8; ACCESS] {
    let digits = number(bytes);
    let (bank, address) = ((digits >> 28) as u8, (digits >> 12) as u16);
    access(
        bank,
        address,
        (digits >> 4) as u8,
        written,
        digits as u8 & 0x0F,
    )
}
