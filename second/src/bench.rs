//! Nanoseconds per step, step by step and in runs, each core on the same program, in turns within one process; per
//! record of an admitted map; and per record that is counted by page.

mod counting;
#[cfg(not(yardstick_only))]
pub mod texts;

use crate::bus::{ACCESS, BANK, MOST_ACCESSES};
use crate::core::step;
use crate::cores::{self, Noise, Tested};
#[cfg(not(yardstick_only))]
use crate::firmware::{Draw, Shape};
use crate::program::{PROGRAM, START};
#[cfg(not(yardstick_only))]
use crate::random::Random;
use crate::run::{run, Ran};
use std::time::{Duration, Instant};

/// Many short turns for every line and core: the least of them is steady.
const ROUNDS: usize = 60;
const TURN: Duration = Duration::from_millis(10);
const BATCH: usize = 20_000;
const AGREED_STEPS: usize = 200_000;
const AGREED_RUNS: usize = 200;

#[derive(Clone)]
struct Board {
    record: [u8; 16],
    image: Vec<u8>,
    accesses: Vec<u8>,
    /// Empty where the board makes its steps one by one.
    script: Vec<u8>,
}

impl Board {
    fn new(part: u8, banks: usize, room: usize) -> Board {
        let mut record = [0; 16];
        record[0] = part;
        record[5] = 0x24;
        record[6..8].copy_from_slice(&START.to_le_bytes());
        match part {
            // The copy's two pointers reach into the next bank.
            9 => record[9] = 1,
            // The program is read-only, as in a controller.
            _ => record[11] = 32,
        }
        let mut image = vec![0; banks * BANK];
        for bank in image.chunks_mut(BANK) {
            let start = usize::from(START);
            bank[start..start + PROGRAM.len()].copy_from_slice(PROGRAM);
            for (i, byte) in bank[0x0300..0x0340].iter_mut().enumerate() {
                *byte = (i * 37) as u8;
            }
        }
        Board {
            record,
            image,
            accesses: vec![0; room],
            script: Vec::new(),
        }
    }

    /// With a script of so many steps, and room for them whatever they do.
    fn with_runs(part: u8, banks: usize, steps: usize) -> Board {
        let mut board = Board::new(part, banks, steps * MOST_ACCESSES * ACCESS);
        board.script = vec![0; 2 * steps];
        board
    }

    fn play(&mut self, core: Tested, steps: usize) {
        match self.script.len() / 2 {
            0 => self.play_steps(core, steps),
            length => (0..steps / length).for_each(|_| self.play_run(core, length)),
        }
    }

    fn play_run(&mut self, core: Tested, length: usize) {
        let ran = self.run(core);
        let is_whole = ran.word == 0 && ran.steps == length as u64;
        assert!(is_whole, "{} ends a run of the program early", core.name);
    }

    fn run(&mut self, core: Tested) -> Ran {
        core.run(
            Noise::default(),
            &mut self.record,
            &mut self.image,
            &self.script,
            &mut self.accesses,
        )
    }

    fn play_steps(&mut self, core: Tested, steps: usize) {
        let mut refused = 0;
        for _ in 0..steps {
            let (record, image) = (&mut self.record, &mut self.image);
            refused |= core.step(record, image, 0, 0, &mut self.accesses) & 0xFF;
        }
        assert_eq!(refused, 0, "{} refuses a step of the program", core.name);
    }
}

/// The lines that the table begins with: step by step, and in runs, on each part.
fn main_lines() -> Vec<(&'static str, Board)> {
    vec![
        ("step, 6502", Board::new(2, 1, 64)),
        ("step, 6508", Board::new(8, 1, 64)),
        ("step, 6509 with 4 banks", Board::new(9, 4, 64)),
        ("run of 1,000, 6502", Board::with_runs(2, 1, 1000)),
        ("run of 1,000, 6508", Board::with_runs(8, 1, 1000)),
        (
            "run of 1,000, 6509 with 4 banks",
            Board::with_runs(9, 4, 1000),
        ),
    ]
}

/// What a step does not touch costs nothing, and a run's steps cost the same however many there are.
fn further_lines() -> Vec<(&'static str, Board)> {
    vec![
        ("step, 6509 with 1 bank", Board::new(9, 1, 64)),
        ("step, 6509 with 16 banks", Board::new(9, 16, 64)),
        ("step, 6502, room for 56 bytes", Board::new(2, 1, 56)),
        ("step, 6502, room for 65,536", Board::new(2, 1, 65_536)),
        ("run of 10, 6502", Board::with_runs(2, 1, 10)),
        ("run of 100, 6502", Board::with_runs(2, 1, 100)),
        ("run of 10,000, 6502", Board::with_runs(2, 1, 10_000)),
    ]
}

/// A line of the table: a board for each core, and the least time it took.
struct Line {
    name: &'static str,
    runs: Vec<(Board, f64)>,
}

impl Line {
    fn new((name, board): (&'static str, Board)) -> Line {
        Line {
            name,
            runs: vec![(board, f64::INFINITY); cores::all().len()],
        }
    }

    fn take_turn(&mut self) {
        for (core, (board, least)) in cores::all().iter().zip(&mut self.runs) {
            *least = least.min(nanoseconds(*core, board));
        }
    }

    /// The ratios are the first core's time by those of the others: the archive's by the yardstick's is the one that
    /// counts.
    fn print(&self) {
        let first = self.runs[0].1;
        print!("| {} |", self.name);
        self.runs.iter().for_each(|(_, ns)| print!(" {:.1} |", ns));
        self.runs[1..]
            .iter()
            .for_each(|(_, ns)| print!(" {:.2} |", first / ns));
        println!();
    }
}

/// Prints the tables. False where a core and the second program do not agree on the program.
pub fn bench() -> bool {
    let lines = main_lines();
    if !lines.iter().all(|(name, board)| all_agree(name, board)) {
        return false;
    }
    let mut lines: Vec<Line> = lines.into_iter().map(Line::new).collect();
    lines.extend(further_lines().into_iter().map(Line::new));
    for _ in 0..ROUNDS {
        lines.iter_mut().for_each(Line::take_turn);
    }
    let names: Vec<&str> = cores::all().iter().map(|core| core.name).collect();
    print_heading("ns an instruction", &names);
    lines.iter().for_each(Line::print);
    #[cfg(not(yardstick_only))]
    print_admissions();
    println!();
    counting::print()
}

/// Plays a line of the table and no more, for who counts the host's instructions. False where there is no such line.
pub fn play(core: Tested, name: &str, steps: u64) -> bool {
    match main_lines().into_iter().find(|line| line.0 == name) {
        Some((_, mut board)) => {
            board.play(core, steps as usize);
            true
        }
        None => false,
    }
}

fn print_heading(what: &str, names: &[&str]) {
    print!("| {} |", what);
    names.iter().for_each(|name| print!(" {} |", name));
    names[1..]
        .iter()
        .for_each(|name| print!(" {} / {} |", names[0], name));
    println!("\n|---|{}", "--:|".repeat(2 * names.len() - 1));
}

/// All rules are asked of each record where a map is admitted.
#[cfg(not(yardstick_only))]
fn print_admissions() {
    let mut draw = Draw::new(Random::new(1));
    for records in [100, 1_000, 8_192] {
        let firmware = draw.firmware(Shape {
            routines: records / 50,
            length: 40,
            records,
            ..Shape::default()
        });
        let map = firmware.map();
        let mut least = f64::INFINITY;
        for _ in 0..ROUNDS {
            let (start, mut calls) = (Instant::now(), 0);
            while start.elapsed() < TURN {
                let word = cores::admit(&firmware.image, firmware.c, &map, 0);
                assert_eq!(word, 0, "a map that keeps the rules is refused");
                calls += 1;
            }
            least = least.min(start.elapsed().as_nanos() as f64 / (calls * records) as f64);
        }
        println!("| a map record, of {} | {:.1} |", records, least);
    }
}

fn all_agree(name: &str, board: &Board) -> bool {
    cores::all().iter().all(|&core| {
        let is_same = match board.script.len() {
            0 => agree(core, board.clone()),
            _ => agree_in_runs(core, board.clone()),
        };
        if !is_same {
            println!("{} and second differ on: {}", core.name, name);
        }
        is_same
    })
}

fn agree(core: Tested, mut mine: Board) -> bool {
    let mut theirs = mine.clone();
    (0..AGREED_STEPS).all(|number| {
        let (record, image) = (&mut mine.record, &mut mine.image);
        let my_word = step(record, image, 0, 0, &mut mine.accesses);
        let (record, image) = (&mut theirs.record, &mut theirs.image);
        let their_word = core.step(record, image, 0, 0, &mut theirs.accesses);
        my_word == their_word
            && my_word & 0xFF == 0
            && mine.record == theirs.record
            && are_same(&mine.accesses, &theirs.accesses)
            && (number % 1000 != 999 || mine.image == theirs.image)
    })
}

fn agree_in_runs(core: Tested, mut mine: Board) -> bool {
    let mut theirs = mine.clone();
    (0..AGREED_RUNS).all(|_| {
        let my_answer = run(
            &mut mine.record,
            &mut mine.image,
            &mine.script,
            &mut mine.accesses,
        );
        my_answer == theirs.run(core)
            && my_answer.word == 0
            && mine.record == theirs.record
            && are_same(&mine.accesses, &theirs.accesses)
            && mine.image == theirs.image
    })
}

/// Whether these accesses are the same, or theirs are so but for having no purposes: bench/against may time an archive
/// from before they were listed.
fn are_same(mine: &[u8], theirs: &[u8]) -> bool {
    let mut both = mine.chunks(ACCESS).zip(theirs.chunks(ACCESS));
    mine == theirs || both.all(|(mine, theirs)| mine[..5] == theirs[..5] && theirs[5..] == [0; 3])
}

fn nanoseconds(core: Tested, board: &mut Board) -> f64 {
    let start = Instant::now();
    let mut steps = 0;
    while start.elapsed() < TURN {
        board.play(core, BATCH);
        steps += BATCH;
    }
    start.elapsed().as_nanos() as f64 / steps as f64
}
