//! The proved library beside two implementations by hand: whether they answer the same, and how long each takes.
#![deny(unsafe_code)]

#[macro_use]
mod calls;

mod best;
mod compare;
mod measure;
mod plain;
#[allow(unsafe_code)]
mod proved;
mod script;
mod told;

use std::process::ExitCode;

type Work = fn(u32, &[u8], usize, u64, &mut [u8]);
type Turns = fn(u32, &[u64], &[u8], usize, &mut [u8], &mut [u8]) -> u64;

/// One implementation, by its calls.
struct Implementation {
    name: &'static str,
    count: fn(u32, &[u64], &mut [u8]) -> usize,
    decode: fn(u32, &[u8], usize, usize, &mut [u8]) -> usize,
    encode: Work,
    gather: Work,
    fuse: Work,
    turns: Turns,
    replay: fn(&[u8], &mut [u8]) -> usize,
}

macro_rules! implementation {
    ($module:ident) => {
        Implementation {
            name: stringify!($module),
            count: $module::count,
            decode: $module::decode,
            encode: $module::encode,
            gather: $module::gather,
            fuse: $module::fuse,
            turns: $module::turns,
            replay: $module::replay,
        }
    };
}

static IMPLEMENTATIONS: [Implementation; 3] = [implementation!(proved), implementation!(plain), implementation!(best)];

const KINDS: [u32; 4] = [1, 2, 3, 5];

fn kind_name(kind: u32) -> &'static str {
    match kind {
        1 => "bitmaps",
        2 => "least values",
        3 => "sample",
        _ => "pile",
    }
}

// A number that changes with any byte.
fn digest(bytes: &[u8]) -> u64 {
    bytes.iter().fold(0xCBF2_9CE4_8422_2325, |sum, byte| (sum ^ u64::from(*byte)).wrapping_mul(0x0100_0000_01B3))
}

const USAGE: &str = "bench compare
    compares the answers of proved, plain and best; status 1 where any differ
bench measure [ROUNDS [WORDS]]
    prints the table, of the operations whose names contain the words; 41 rounds where nothing is said
bench one NAME IMPLEMENTATION SAMPLES
    runs so many samples of an operation, for a profiler
bench list
    prints the names of the operations";

fn run(arguments: &[&str]) -> Option<bool> {
    match arguments {
        ["compare"] => Some(compare::compare()),
        ["list"] => {
            measure::list();
            Some(true)
        }
        ["one", name, implementation, samples] => measure::one(name, implementation, samples.parse().ok()?),
        ["measure"] => {
            measure::measure(41, "");
            Some(true)
        }
        ["measure", rounds, words @ ..] => {
            measure::measure(rounds.parse().ok().filter(|rounds| *rounds > 0)?, &words.join(" "));
            Some(true)
        }
        _ => None,
    }
}

fn main() -> ExitCode {
    let arguments: Vec<String> = std::env::args().skip(1).collect();
    let arguments: Vec<&str> = arguments.iter().map(String::as_str).collect();
    match run(&arguments) {
        Some(true) => ExitCode::SUCCESS,
        Some(false) => ExitCode::from(1),
        None => {
            eprintln!("{USAGE}");
            ExitCode::from(2)
        }
    }
}
