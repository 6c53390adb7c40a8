//! How long each operation takes in each implementation, sample by sample in turn.
use crate::told::{self, Frames, MODES, Mode};
use crate::{IMPLEMENTATIONS, Implementation, KINDS, Work, digest, kind_name};
use std::cell::{LazyCell, RefCell};
use std::hint::black_box;
use std::time::Instant;

// Is shown the bytes that an operation leaves.
type Look<'a> = &'a mut dyn FnMut(&[u8]);

type Samples = Box<dyn Fn(&Implementation, u64, Look)>;

/// An operation: how often one sample does it, and a function that runs so many samples. With none it does only what
/// comes before and after.
struct Operation {
    name: String,
    count: u64,
    samples: Samples,
}

// A sample is short, so that most of them are not interrupted.
const SAMPLE: u64 = 2000;

// Some items are counted into a value that is empty at first, which is then encoded. Few items are counted several times,
// so that they fill a sample.
fn counting(kind: u32, mode: Mode, count: u64) -> Operation {
    let repeats = (SAMPLE / count).max(1);
    let lists = LazyCell::new(move || Vec::from_iter((0..repeats).map(|i| told::items(mode, 77 + (i << 32), count))));
    Operation {
        name: format!("ADD {} ({}, {count})", kind_name(kind), mode.name()),
        count: count * repeats,
        samples: Box::new(move |one, samples, look| {
            let mut out = [0; 2048];
            for _ in 0..samples {
                for items in &*lists {
                    let length = (one.count)(kind, black_box(items), &mut out);
                    look(&out[..length]);
                }
            }
        }),
    }
}

const READINGS: u64 = 400;

// How long the encoding of so many readings is.
fn size(kind: u32, readings: u64) -> u64 {
    match kind {
        1 => 260,
        2 => 4 + 8 * readings.min(64),
        3 => 4 + 20 * readings.min(32),
        _ => 12 + size(1, readings) + size(2, readings) + size(3, readings),
    }
}

// An operation on 64 frames of so many readings, which are made when they are asked for first.
fn on_frames(
    what: &str,
    count: u64,
    kind: u32,
    readings: u64,
    samples: impl Fn(&Implementation, &Frames, u64, &mut [u8]) + 'static,
) -> Operation {
    let frames = LazyCell::new(move || told::frames(kind, readings, 1000, false));
    Operation {
        name: format!("{what} {} ({} bytes)", kind_name(kind), size(kind, readings)),
        count,
        samples: Box::new(move |one, times, look| {
            let mut out = [0; 2048];
            samples(one, black_box(&frames), times, &mut out);
            look(&out);
        }),
    }
}

// One value takes 64 frames in turn, and is then encoded.
fn decoding(kind: u32, readings: u64) -> Operation {
    let times = SAMPLE / 64;
    on_frames("DECODE", 64 * times, kind, readings, move |one, frames, samples, out| {
        for _ in 0..times * samples {
            black_box((one.decode)(kind, &frames.bytes, frames.size, 64, out));
        }
    })
}

// A call that does something so often in each of its rounds.
fn working(what: &str, each: u64, kind: u32, readings: u64, call: fn(&Implementation) -> Work) -> Operation {
    let rounds = (SAMPLE / each).max(1);
    on_frames(what, rounds * each, kind, readings, move |one, frames, samples, out| {
        call(one)(kind, &frames.bytes, frames.size, rounds * samples, out);
    })
}

fn turning(kind: u32) -> Operation {
    let told = LazyCell::new(move || (told::words(42, 5000), told::frames(kind, 3, 1000, false)));
    let lent = RefCell::new((vec![0; 65_536], vec![0; 2048]));
    Operation {
        name: format!("turns on 7 nodes, {}", kind_name(kind)),
        count: 5007,
        samples: Box::new(move |one, samples, look| {
            let (words, Frames { bytes, size }) = black_box(&*told);
            let (memory, room) = &mut *lent.borrow_mut();
            for _ in 0..samples {
                black_box((one.turns)(kind, words, bytes, *size, memory, room));
            }
            look(&memory[..7 * 2048]);
        }),
    }
}

fn replaying() -> Operation {
    let script = told::longest_script();
    let lines = script.iter().filter(|byte| **byte == b'\n').count();
    let out = RefCell::new(vec![0; 1 << 20]);
    Operation {
        name: format!("a line of the longest input ({lines} lines)"),
        count: lines as u64,
        samples: Box::new(move |one, samples, look| {
            let out = &mut *out.borrow_mut();
            for _ in 0..samples {
                let length = (one.replay)(black_box(&script), out);
                look(&out[..length]);
            }
        }),
    }
}

fn operations() -> Vec<Operation> {
    let mut all = Vec::new();
    for kind in KINDS {
        for mode in MODES {
            all.extend([64, 1000, 20_000].map(|count| counting(kind, mode, count)));
        }
    }
    for readings in [READINGS, 3] {
        all.extend(KINDS.iter().filter(|kind| readings > 3 || **kind != 1).map(|kind| decoding(*kind, readings)));
    }
    for readings in [READINGS, 3] {
        let some = KINDS.iter().filter(|kind| readings > 3 || **kind != 1);
        all.extend(some.map(|kind| working("ENCODE", 64, *kind, readings, |one| one.encode)));
    }
    all.extend(KINDS.map(|kind| working("copy and FUSE, two full values,", 1024, kind, READINGS, |one| one.fuse)));
    all.extend(KINDS.map(|kind| working("FUSE into one that has it all,", 64, kind, READINGS, |one| one.gather)));
    all.extend(KINDS.map(turning));
    all.push(replaying());
    all
}

fn median(mut times: Vec<f64>) -> f64 {
    times.sort_by(f64::total_cmp);
    times[times.len() / 2]
}

// Nanoseconds of so many samples.
fn elapsed(operation: &Operation, one: &Implementation, samples: u64) -> f64 {
    let start = Instant::now();
    (operation.samples)(one, samples, &mut |bytes| {
        black_box(bytes);
    });
    start.elapsed().as_nanos() as f64
}

// Nanoseconds of one operation in one sample; what comes before and after is taken off.
fn timed(operation: &Operation, one: &Implementation) -> f64 {
    let around = elapsed(operation, one, 0);
    (elapsed(operation, one, 1) - around) / operation.count as f64
}

// A number for all the bytes that a sample leaves.
fn answer(operation: &Operation, one: &Implementation) -> u64 {
    let mut all = 0;
    (operation.samples)(one, 1, &mut |bytes| all ^= digest(bytes));
    all
}

fn row(operation: &Operation, rounds: usize) {
    let answers = IMPLEMENTATIONS.each_ref().map(|one| answer(operation, one));
    let mut times: [Vec<f64>; 3] = Default::default();
    for round in 0..rounds {
        for turn in 0..3 {
            let which = (round + turn) % 3;
            times[which].push(timed(operation, &IMPLEMENTATIONS[which]));
        }
    }
    let ratio = |other: usize| median(times[0].iter().zip(&times[other]).map(|(proved, hand)| proved / hand).collect());
    let (to_plain, to_best) = (ratio(1), ratio(2));
    let least = times.each_ref().map(|times| times.iter().copied().fold(f64::MAX, f64::min));
    let [proved, plain, best] = times.map(median);
    println!(
        "| {} | {proved:.1} | {plain:.1} | {best:.1} | {to_plain:.2} | {to_best:.2} | {:.1} {:.1} {:.1} | {} |",
        operation.name,
        least[0],
        least[1],
        least[2],
        if answers.iter().all(|answer| *answer == answers[0]) { "yes" } else { "NO" }
    );
}

// The least time of one of so many, over some samples.
fn floor(name: &str, count: u64, mut sample: impl FnMut(u64)) {
    let least = (0..31)
        .map(|_| {
            let start = Instant::now();
            sample(count);
            start.elapsed().as_nanos() as f64 / count as f64
        })
        .fold(f64::MAX, f64::min);
    println!("| {name} | {least:.1} |");
}

fn floors() {
    println!("\nWhat no implementation can do without, the least time in ns:\n");
    println!("| what | ns |\n|---|---|");
    for size in [260, 516, 644, 1432] {
        let source = vec![7u8; 64 * size];
        let mut to = [0u8; 2048];
        floor(&format!("a copy of {size} bytes"), 100_000, |count| {
            for i in 0..count {
                let at = (i % 64) as usize * size;
                black_box(&mut to)[..size].copy_from_slice(black_box(&source[at..at + size]));
            }
        });
    }
    let rows: Vec<[u64; 64]> = (0..64).map(|i| std::array::from_fn(|j| (j as u64 + 1) * 1000 + i)).collect();
    floor("a check that 64 numbers rise", 100_000, |count| {
        for i in 0..count {
            black_box(black_box(&rows[(i % 64) as usize]).windows(2).all(|pair| pair[0] < pair[1]));
        }
    });
    let items = told::items(Mode::New, 5, 100_000);
    floor("a hash", items.len() as u64, |_| {
        black_box(crate::best::hashes(black_box(&items)));
    });
}

/// Prints the names of the operations.
pub fn list() {
    for operation in operations() {
        println!("{}", operation.name);
    }
}

/// Prints a row for each operation whose name contains the words, and for all of them the floors.
pub fn measure(rounds: usize, words: &str) {
    println!("Medians of {rounds} rounds: ns of one operation, and ratios within one round.\n");
    println!("| operation | proved | plain | best | proved/plain | proved/best | least of each | equal |");
    println!("|---|---|---|---|---|---|---|---|");
    for operation in operations().iter().filter(|operation| operation.name.contains(words)) {
        row(operation, rounds);
    }
    if words.is_empty() {
        floors();
    }
}

/// Runs so many samples of an operation; none where there is no such operation or implementation.
pub fn one(name: &str, implementation: &str, samples: u64) -> Option<bool> {
    let operations = operations();
    let named =
        |exactly: bool| operations.iter().find(|one| if exactly { one.name == name } else { one.name.contains(name) });
    let operation = named(true).or(named(false))?;
    let one = IMPLEMENTATIONS.iter().find(|one| one.name == implementation)?;
    elapsed(operation, one, samples);
    println!("{}, {implementation}: {} operations", operation.name, samples * operation.count);
    Some(true)
}
