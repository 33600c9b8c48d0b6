//! The second program: the documents' rules once more, and what holds a core to them.

mod admission;
#[cfg(not(yardstick_only))]
mod admissions;
mod arithmetic;
mod assembler;
mod assemblers;
#[cfg(not(yardstick_only))]
mod assemblings;
mod bench;
mod bus;
mod cases;
mod compare;
mod core;
mod cores;
mod countings;
mod coverage;
mod examples;
mod firmware;
mod image;
mod instructions;
mod json;
mod lister;
mod mnemonics;
mod opcodes;
mod page_report;
mod pages;
mod pair;
mod program;
mod promise;
mod published;
mod purposes;
mod random;
mod record;
mod report;
#[cfg(not(yardstick_only))]
mod restart;
#[cfg(not(yardstick_only))]
mod restarts;
mod run;
mod runs;
mod texts;

use std::io::{Read, Write};
use std::process::exit;
use std::time::{SystemTime, UNIX_EPOCH};

const USAGE: &str = "usage:
  second compare --steps N [--seed S] [--core CORE]
  second purposes --steps N [--seed S] [--core CORE]
  second runs --runs N [--seed S] [--core CORE]
  second restart [--seed S]
  second admission --maps N [--seed S]
  second promise --steps N [--seed S] [--core CORE]
  second pages --lists N [--seed S] [--core CORE]
  second page-report FILE...
  second list --records N [--seed S] FILE
  second arithmetic [--core CORE]
  second examples [--core CORE]
  second image --start HEX --success HEX [--load HEX] [--most N] [--core CORE] FILE
  second json [--core CORE] FILE...
  second bench [--core CORE --line LINE --steps N]
  second bench-texts FOLDER
  second assemble START <TEXT >BYTES
  second lister START <BYTES >TEXT
  second assembling --texts N [--seed S]
  second assemblers --images N [--seed S] FOLDER START:FILE...

CORE is archive, yardstick or per-part. Without it, compare, purposes, runs, promise, pages, arithmetic, image and json
take the archive, or the yardstick where the program was built without one, and examples takes every core. Only the
archive has restart, admission and assembling, and per-part does not count pages. With a line of its table, bench plays
that line and prints nothing; bench-texts times the assembler and the lister, and ca65 with files in FOLDER.

image plays a self-checking 6502 image until it stands still, which must be at --success. It is a file of 65,536 bytes,
or one that goes to --load. json plays the cases of files in the published layout, an instruction each. page-report
prints what the program page_report must print of these files, and list writes a list of random records. assemble and
lister do what the programs of these names must do. assemblers compares both with ca65 and 64tass, in FOLDER, on the
images of these files and on random ones.";

#[derive(Default)]
struct Options {
    /// How many of what.
    count: Option<(String, u64)>,
    seed: Option<u64>,
    core: Option<cores::Tested>,
    line: Option<String>,
    start: Option<u16>,
    success: Option<u16>,
    load: Option<u16>,
    most: Option<u64>,
    files: Vec<String>,
}

fn main() {
    let arguments: Vec<String> = std::env::args().skip(1).collect();
    let (command, rest) = match arguments.split_first() {
        Some(split) => split,
        None => fail(USAGE),
    };
    let options = read_options(rest);
    let core = options.core.unwrap_or(cores::all()[0]);
    let seed = options.seed.unwrap_or_else(seed_from_time);
    let count = options.count.as_ref();
    let count = count.map(|(of, count)| (of.as_str(), *count));
    let takes_files = matches!(
        command.as_str(),
        "image"
            | "json"
            | "page-report"
            | "list"
            | "assemble"
            | "lister"
            | "assemblers"
            | "bench-texts"
    );
    if options.files.is_empty() == takes_files {
        fail(USAGE);
    }
    let passed = match (command.as_str(), count) {
        ("compare", Some(("--steps", steps))) => compare::compare(core, steps, seed),
        ("purposes", Some(("--steps", steps))) => purposes::purposes(core, steps, seed),
        ("runs", Some(("--runs", runs))) => runs::runs(core, runs, seed),
        #[cfg(not(yardstick_only))]
        ("restart", None) => restarts::restarts(seed),
        #[cfg(not(yardstick_only))]
        ("admission", Some(("--maps", maps))) => admissions::admissions(maps, seed),
        ("promise", Some(("--steps", steps))) => promise::promise(core, steps, seed),
        ("pages", Some(("--lists", lists))) => match core.counter() {
            Some(counter) => countings::countings(counter, lists, seed),
            None => fail("this core does not count by page"),
        },
        ("page-report", None) => page_report::page_report(&options.files),
        ("list", Some(("--records", records))) => match &options.files[..] {
            [file] => page_report::write_list(file, records, seed),
            _ => fail(USAGE),
        },
        #[cfg(not(yardstick_only))]
        ("bench-texts", None) => match &options.files[..] {
            [folder] => bench::texts::texts(folder),
            _ => fail(USAGE),
        },
        ("assemble", None) => filter(&options.files, |text, start| {
            // No line makes more than three bytes.
            let mut bytes = vec![0; 3 * text.len()];
            let word = assembler::assemble(text, start, &mut bytes);
            (word, bytes)
        }),
        ("lister", None) => filter(&options.files, |bytes, start| {
            // No line of a byte or more is longer than twelve characters.
            let mut text = vec![0; 12 * bytes.len()];
            let word = lister::list(bytes, start, &mut text);
            (word, text)
        }),
        #[cfg(not(yardstick_only))]
        ("assembling", Some(("--texts", texts))) => assemblings::assemblings(texts, seed),
        ("assemblers", Some(("--images", images))) => match &options.files[..] {
            [folder, files @ ..] => assemblers::assemblers(images, seed, folder, files),
            _ => fail(USAGE),
        },
        ("arithmetic", None) => arithmetic::arithmetic(core),
        ("examples", None) => match options.core {
            Some(core) => examples::examples(&[core]),
            None => examples::examples(cores::all()),
        },
        ("image", None) => image::image(core, &asked(&options)),
        ("json", None) => published::published(core, &options.files),
        ("bench", None) => bench::bench(),
        ("bench", Some(("--steps", steps))) => match &options.line {
            Some(line) => bench::play(core, line, steps),
            None => fail(USAGE),
        },
        _ => fail(USAGE),
    };
    if !passed {
        exit(1);
    }
}

fn read_options(arguments: &[String]) -> Options {
    let mut options = Options::default();
    let mut arguments = arguments.iter();
    while let Some(name) = arguments.next() {
        if !name.starts_with("--") {
            options.files.push(name.clone());
            continue;
        }
        let value = arguments.next().unwrap_or_else(|| fail(USAGE));
        match name.as_str() {
            "--steps" | "--runs" | "--maps" | "--lists" | "--records" | "--images" | "--texts"
                if options.count.is_none() =>
            {
                options.count = Some((name.clone(), number(value)));
            }
            "--seed" => options.seed = Some(number(value)),
            "--line" => options.line = Some(value.clone()),
            "--core" => match cores::named(value) {
                Some(core) => options.core = Some(core),
                None => fail("this program was not built with such a core"),
            },
            "--start" => options.start = Some(address(value)),
            "--success" => options.success = Some(address(value)),
            "--load" => options.load = Some(address(value)),
            "--most" => options.most = Some(number(value)),
            _ => fail(USAGE),
        }
    }
    options
}

fn asked(options: &Options) -> image::Asked<'_> {
    match (&options.files[..], options.start, options.success) {
        ([file], Some(start), Some(success)) => image::Asked {
            file,
            load: options.load,
            start,
            success,
            most: options.most.unwrap_or(image::MOST_STEPS),
        },
        _ => fail(USAGE),
    }
}

/// From standard input to standard output, from this start on; a refusal goes to standard error.
fn filter(words: &[String], change: impl Fn(&[u8], u16) -> (u64, Vec<u8>)) -> bool {
    let start = match words {
        [start] => address(start),
        _ => fail(USAGE),
    };
    let mut input = Vec::new();
    if let Err(why) = std::io::stdin().read_to_end(&mut input) {
        fail(&why.to_string());
    }
    let (word, output) = change(&input, start);
    if word & 0xFF != 0 {
        eprintln!("E {} {}", word & 0xFF, word >> 16);
        return false;
    }
    let output = &output[..(word >> 16) as usize];
    match std::io::stdout().write_all(output) {
        Ok(()) => true,
        Err(why) => fail(&why.to_string()),
    }
}

fn address(text: &str) -> u16 {
    u16::from_str_radix(text, 16).unwrap_or_else(|_| fail(USAGE))
}

fn number(text: &str) -> u64 {
    match text.replace('_', "").parse() {
        Ok(number) => number,
        Err(_) => fail(USAGE),
    }
}

fn seed_from_time() -> u64 {
    match SystemTime::now().duration_since(UNIX_EPOCH) {
        Ok(time) => time.as_nanos() as u64,
        Err(_) => 0,
    }
}

fn fail(message: &str) -> ! {
    eprintln!("{}", message);
    exit(2);
}
