//! Nanoseconds that counting by page takes: for a record of a long list, and for a call with the list of one step.

use super::{print_heading, Board, BATCH, ROUNDS, TURN};
use crate::bus::{access, ACCESS};
use crate::cores::{self, Counter};
use crate::pages::{pages, Counts, PAGES};
use crate::random::Random;
use std::time::Instant;

const MILLION: usize = 1_000_000;
/// So many accesses has the step whose list is counted by itself.
const STEP: usize = 4;

/// A line of the table: a list, and the least time that each took to count it.
struct Line {
    name: &'static str,
    list: Vec<u8>,
    /// What a call's time is divided by.
    parts: usize,
    least: Vec<f64>,
}

/// Prints a table of its own. False where one of them counts a list otherwise than the second program.
pub fn print() -> bool {
    let mut lines = [
        Line::new("counting, a record of a million", played(), MILLION),
        Line::new(
            "counting, a record of a million at random",
            at_random(),
            MILLION,
        ),
        Line::new("counting, a call with one step's list", one_step(), 1),
    ];
    if !lines.iter().all(Line::all_agree) {
        return false;
    }
    for _ in 0..ROUNDS {
        lines.iter_mut().for_each(Line::take_turn);
    }
    let names: Vec<&str> = cores::counters().iter().map(|one| one.name).collect();
    print_heading("ns", &names);
    lines.iter().for_each(Line::print);
    true
}

impl Line {
    fn new(name: &'static str, list: Vec<u8>, parts: usize) -> Line {
        Line {
            name,
            list,
            parts,
            least: vec![f64::INFINITY; cores::counters().len()],
        }
    }

    fn all_agree(&self) -> bool {
        let mut mine: [Counts; 2] = [[0; PAGES]; 2];
        let [reads, writes] = &mut mine;
        let is_counted = pages(reads, writes, &self.list) == 0;
        cores::counters().iter().all(|one| {
            let mut theirs = [[0; PAGES]; 2];
            let [reads, writes] = &mut theirs;
            let word = one.pages(reads, writes, &self.list, 0);
            let is_same = is_counted && word == 0 && mine == theirs;
            if !is_same {
                println!("{} and second differ on: {}", one.name, self.name);
            }
            is_same
        })
    }

    fn take_turn(&mut self) {
        for (one, least) in cores::counters().iter().zip(&mut self.least) {
            *least = least.min(nanoseconds(*one, &self.list) / self.parts as f64);
        }
    }

    fn print(&self) {
        let first = self.least[0];
        print!("| {} |", self.name);
        self.least.iter().for_each(|ns| print!(" {:.2} |", ns));
        self.least[1..]
            .iter()
            .for_each(|ns| print!(" {:.2} |", first / ns));
        println!();
    }
}

/// A call.
fn nanoseconds(one: Counter, list: &[u8]) -> f64 {
    let (mut reads, mut writes) = ([0; PAGES], [0; PAGES]);
    let batch = (BATCH * ACCESS / list.len()).max(1);
    let (start, mut calls) = (Instant::now(), 0);
    while start.elapsed() < TURN {
        for _ in 0..batch {
            let word = one.pages(&mut reads, &mut writes, list, 0);
            assert_eq!(word, 0, "{} refuses a list of the program", one.name);
        }
        calls += batch;
    }
    start.elapsed().as_nanos() as f64 / calls as f64
}

/// The lists of runs of the program, one after the other, up to a million records.
fn played() -> Vec<u8> {
    let mut board = Board::with_runs(2, 1, 1000);
    let mut list = Vec::with_capacity(2 * MILLION * ACCESS);
    while list.len() < MILLION * ACCESS {
        let ran = board.run(cores::all()[0]);
        list.extend(&board.accesses[..ran.listed as usize * ACCESS]);
    }
    list.truncate(MILLION * ACCESS);
    list
}

/// Any addresses, read or written, for any purpose.
fn at_random() -> Vec<u8> {
    let mut random = Random::new(1);
    let record = |_| {
        let [low, high, bank, value, written, purpose, ..] = random.next().to_le_bytes();
        let address = u16::from_le_bytes([low, high]);
        access(bank, address, value, written & 1, purpose & 7)
    };
    (0..MILLION).flat_map(record).collect()
}

/// The list of the program's first step that is so long.
fn one_step() -> Vec<u8> {
    let mut board = Board::new(2, 1, 64);
    loop {
        let (record, image) = (&mut board.record, &mut board.image);
        let word = cores::all()[0].step(record, image, 0, 0, &mut board.accesses);
        if word == (STEP as u64) << 8 {
            return board.accesses[..STEP * ACCESS].to_vec();
        }
    }
}
