//! The cores held to account, behind the board's C interface.

use crate::pages::Counts;
use crate::run::Ran;

type Step = unsafe extern "C" fn(*mut u8, usize, *mut u8, usize, u8, u8, *mut u8, usize) -> u64;

type Run = unsafe extern "C" fn(
    *mut u8,
    usize,
    *mut u8,
    usize,
    *const u8,
    usize,
    *mut u8,
    usize,
    *mut u64,
    *mut u64,
) -> u64;

type Pages = unsafe extern "C" fn(*mut u64, *mut u64, *const u8, usize) -> u64;

macro_rules! entries {
    ($($(#[$attribute:meta])* $step:ident $run:ident,)*) => {
        extern "C" {
            $(
                $(#[$attribute])*
                fn $step(
                    record: *mut u8,
                    record_len: usize,
                    image: *mut u8,
                    image_len: usize,
                    lines: u8,
                    pins: u8,
                    accesses: *mut u8,
                    accesses_len: usize,
                ) -> u64;

                $(#[$attribute])*
                fn $run(
                    record: *mut u8,
                    record_len: usize,
                    image: *mut u8,
                    image_len: usize,
                    script: *const u8,
                    script_len: usize,
                    accesses: *mut u8,
                    accesses_len: usize,
                    steps: *mut u64,
                    listed: *mut u64,
                ) -> u64;
            )*
        }
    };
}

entries! {
    #[cfg(not(yardstick_only))]
    wankitare_step wankitare_run,
    yardstick_step yardstick_run,
    per_part_step per_part_run,
}

// The yardsticks have no restart file, no admission, no assembler and no lister.
#[cfg(not(yardstick_only))]
extern "C" {
    fn wankitare_restart(file: *const u8, file_len: usize) -> u64;
    fn wankitare_append_at(file_len: u64) -> u64;
    fn wankitare_admit(
        image: *const u8,
        image_len: usize,
        c: u8,
        map: *const u8,
        map_len: usize,
    ) -> u64;
    fn wankitare_pages(
        reads: *mut u64,
        writes: *mut u64,
        accesses: *const u8,
        accesses_len: usize,
    ) -> u64;
    fn wankitare_assemble(
        text: *const u8,
        text_len: usize,
        start: u16,
        bytes: *mut u8,
        bytes_len: usize,
    ) -> u64;
    fn wankitare_list(
        bytes: *const u8,
        bytes_len: usize,
        start: u16,
        text: *mut u8,
        text_len: usize,
    ) -> u64;
}

extern "C" {
    fn yardstick_pages(
        reads: *mut u64,
        writes: *mut u64,
        accesses: *const u8,
        accesses_len: usize,
    ) -> u64;
    fn bare_pages(
        reads: *mut u64,
        writes: *mut u64,
        accesses: *const u8,
        accesses_len: usize,
    ) -> u64;
}

#[derive(Clone, Copy)]
pub struct Tested {
    pub name: &'static str,
    step: Step,
    run: Run,
}

const ALL: &[Tested] = &[
    #[cfg(not(yardstick_only))]
    Tested {
        name: "archive",
        step: wankitare_step,
        run: wankitare_run,
    },
    Tested {
        name: "yardstick",
        step: yardstick_step,
        run: yardstick_run,
    },
    Tested {
        name: "per-part",
        step: per_part_step,
        run: per_part_run,
    },
];

/// The archive first, unless the program was built without it.
pub fn all() -> &'static [Tested] {
    ALL
}

pub fn named(name: &str) -> Option<Tested> {
    ALL.iter().copied().find(|core| core.name == name)
}

/// What counts by page.
#[derive(Clone, Copy)]
pub struct Counter {
    pub name: &'static str,
    pages: Pages,
}

const COUNTERS: &[Counter] = &[
    #[cfg(not(yardstick_only))]
    Counter {
        name: "archive",
        pages: wankitare_pages,
    },
    Counter {
        name: "yardstick",
        pages: yardstick_pages,
    },
    Counter {
        name: "bare",
        pages: bare_pages,
    },
];

/// The archive first, as with the cores. The bare loop judges nothing: it is there for time to be held against.
pub fn counters() -> &'static [Counter] {
    COUNTERS
}

impl Tested {
    /// None for a yardstick that has but the step and the run.
    pub fn counter(self) -> Option<Counter> {
        COUNTERS.iter().copied().find(|one| one.name == self.name)
    }
}

/// What no run's answer may show: the pointer of its empty slices, and what stood in *steps and *listed.
#[derive(Clone, Copy, Default)]
pub struct Noise {
    pub empty: usize,
    pub steps: u64,
    pub listed: u64,
}

/// "An empty slice may have any pointer": `empty` is the one it gets.
fn at(slice: &[u8], empty: usize) -> *const u8 {
    match slice.len() {
        0 => empty as *const u8,
        _ => slice.as_ptr(),
    }
}

fn at_mut(slice: &mut [u8], empty: usize) -> *mut u8 {
    match slice.len() {
        0 => empty as *mut u8,
        _ => slice.as_mut_ptr(),
    }
}

impl Tested {
    pub fn step(
        self,
        record: &mut [u8],
        image: &mut [u8],
        lines: u8,
        pins: u8,
        accesses: &mut [u8],
    ) -> u64 {
        // SAFETY: each pointer is that of a slice with the length beside it, borrowed until the call returns.
        unsafe {
            (self.step)(
                record.as_mut_ptr(),
                record.len(),
                image.as_mut_ptr(),
                image.len(),
                lines,
                pins,
                accesses.as_mut_ptr(),
                accesses.len(),
            )
        }
    }

    pub fn step_empty_at(
        self,
        empty: usize,
        record: &mut [u8],
        image: &mut [u8],
        lines: u8,
        pins: u8,
        accesses: &mut [u8],
    ) -> u64 {
        // SAFETY: as above, and nothing is read or written through the pointer of an empty slice.
        unsafe {
            (self.step)(
                at_mut(record, empty),
                record.len(),
                at_mut(image, empty),
                image.len(),
                lines,
                pins,
                at_mut(accesses, empty),
                accesses.len(),
            )
        }
    }

    pub fn run(
        self,
        noise: Noise,
        record: &mut [u8],
        image: &mut [u8],
        script: &[u8],
        accesses: &mut [u8],
    ) -> Ran {
        let (mut steps, mut listed) = (noise.steps, noise.listed);
        // SAFETY: as above, and the two numbers are locals.
        let word = unsafe {
            (self.run)(
                at_mut(record, noise.empty),
                record.len(),
                at_mut(image, noise.empty),
                image.len(),
                at(script, noise.empty),
                script.len(),
                at_mut(accesses, noise.empty),
                accesses.len(),
                &mut steps,
                &mut listed,
            )
        };
        Ran {
            word,
            steps,
            listed,
        }
    }
}

impl Counter {
    pub fn pages(self, reads: &mut Counts, writes: &mut Counts, list: &[u8], empty: usize) -> u64 {
        let (reads, writes) = (reads.as_mut_ptr(), writes.as_mut_ptr());
        // SAFETY: as above, and each of the other two pointers is that of 256 counts.
        unsafe { (self.pages)(reads, writes, at(list, empty), list.len()) }
    }
}

#[cfg(not(yardstick_only))]
pub fn restart(file: &[u8], empty: usize) -> u64 {
    // SAFETY: as above.
    unsafe { wankitare_restart(at(file, empty), file.len()) }
}

#[cfg(not(yardstick_only))]
pub fn append_at(file_len: u64) -> u64 {
    // SAFETY: it takes and answers numbers.
    unsafe { wankitare_append_at(file_len) }
}

#[cfg(not(yardstick_only))]
pub fn admit(image: &[u8], c: u8, map: &[u8], empty: usize) -> u64 {
    // SAFETY: as above.
    unsafe { wankitare_admit(at(image, empty), image.len(), c, at(map, empty), map.len()) }
}

#[cfg(not(yardstick_only))]
pub fn assemble(text: &[u8], start: u16, bytes: &mut [u8], empty: usize) -> u64 {
    let (text_at, bytes_at) = (at(text, empty), at_mut(bytes, empty));
    // SAFETY: as above.
    unsafe { wankitare_assemble(text_at, text.len(), start, bytes_at, bytes.len()) }
}

#[cfg(not(yardstick_only))]
pub fn list(bytes: &[u8], start: u16, text: &mut [u8], empty: usize) -> u64 {
    let (bytes_at, text_at) = (at(bytes, empty), at_mut(text, empty));
    // SAFETY: as above.
    unsafe { wankitare_list(bytes_at, bytes.len(), start, text_at, text.len()) }
}
