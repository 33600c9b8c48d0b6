//! What a comparison has seen, printed line by line; what it never saw fails it.

use crate::cases::LONGEST_RECORD;
use crate::record::Part;

const PARTS: [&str; 3] = ["6502", "6508", "6509"];

pub fn part_index(part: Part) -> usize {
    match part {
        Part::Mos6502 => 0,
        Part::Mos6508 => 1,
        Part::Mos6509 => 2,
    }
}

/// Kinds by name: the parts where each must be seen, by their last digits, and its line in the report.
macro_rules! kinds {
    ($($name:ident $parts:literal $text:literal,)*) => {
        #[derive(Clone, Copy)]
        pub enum Kind {
            $($name,)*
        }
        pub const KINDS: &[(&str, &str)] = &[$(($text, $parts),)*];
    };
}

pub(crate) use kinds;

pub struct Report {
    missing: Vec<String>,
}

impl Report {
    pub fn new() -> Report {
        Report {
            missing: Vec::new(),
        }
    }

    /// Prints what was never seen; false where that is anything.
    pub fn is_whole(&self) -> bool {
        for kind in &self.missing {
            println!("never seen: {}", kind);
        }
        self.missing.is_empty()
    }

    pub fn row(&mut self, text: &str, count: u64) {
        println!("{:<34}{:>12}", text, count);
        if count == 0 {
            self.missing.push(text.to_string());
        }
    }

    pub fn rows(&mut self, kind: &str, names: &[&str], counts: &[u64]) {
        for (name, &count) in names.iter().zip(counts) {
            self.row(&format!("{}{}", kind, name), count);
        }
    }

    pub fn rarest(&mut self, text: &str, counts: &[u64]) {
        let rarest = counts.iter().enumerate().min_by_key(|(_, &count)| count);
        let (at, &count) = rarest.expect("a count for each length");
        println!("{:<34}{:>12}  the rarest, {}", text, count, at);
        if count == 0 {
            self.missing.push(format!("{}: {}", text, at));
        }
    }

    pub fn record_lengths(&mut self, counts: &[u64; LONGEST_RECORD + 1]) {
        let mut counts = *counts;
        // Sixteen is no fault, and never the rarest.
        counts[16] = u64::MAX;
        self.rarest("record length, 0 to 40 but 16", &counts);
    }

    pub fn opcodes(&mut self, counts: &[[u64; 256]; 3]) {
        self.parts();
        print!("{:<34}", "opcodes seen of 256");
        for (part, counts) in PARTS.iter().zip(counts) {
            let unseen = counts.iter().enumerate().filter(|(_, &count)| count == 0);
            let unseen: Vec<usize> = unseen.map(|(opcode, _)| opcode).collect();
            print!("{:>12}", 256 - unseen.len());
            for opcode in unseen {
                self.missing
                    .push(format!("opcode {:02X} on {}", opcode, part));
            }
        }
        print!("\n{:<34}", "the rarest of them");
        for counts in counts {
            print!("{:>12}", counts.iter().min().unwrap_or(&0));
        }
        println!();
    }

    /// Of the opcodes that are so, how many were seen.
    pub fn opcodes_of(&mut self, text: &str, is_so: impl Fn(&u8) -> bool, counts: &[u64; 256]) {
        let opcodes: Vec<u8> = (0..=255).filter(is_so).collect();
        let count = |opcode: &&u8| counts[usize::from(**opcode)];
        let unseen: Vec<&u8> = opcodes.iter().filter(|one| count(one) == 0).collect();
        let text = format!("opcodes {}, of {}", text, opcodes.len());
        println!("{:<34}{:>12}", text, opcodes.len() - unseen.len());
        for opcode in unseen {
            self.missing.push(format!("opcode {:02X} {}", opcode, text));
        }
    }

    /// The head of what is counted by part.
    pub fn parts(&self) {
        print!("{:<34}", "");
        for part in PARTS {
            print!("{:>12}", part);
        }
        println!();
    }

    pub fn kinds(&mut self, kinds: &[(&str, &str)], counts: &[[u64; 3]]) {
        for ((text, parts), counts) in kinds.iter().zip(counts) {
            self.kind(text, parts, counts);
        }
    }

    /// `parts` holds the last digit of each part where the kind is needed.
    fn kind(&mut self, text: &str, parts: &str, counts: &[u64; 3]) {
        print!("{:<34}", text);
        for (part, &count) in PARTS.iter().zip(counts) {
            if !parts.contains(&part[3..]) {
                print!("{:>12}", "-");
                continue;
            }
            print!("{:>12}", count);
            if count == 0 {
                self.missing.push(format!("{} on {}", text, part));
            }
        }
        println!();
    }
}
