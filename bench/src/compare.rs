//! Whether all three implementations answer the same.
use crate::told::{self, Draw, Frames, MODES};
use crate::{IMPLEMENTATIONS, Implementation, KINDS, kind_name};

// Chooses one of the calls that work on frames.
type Choice = fn(&Implementation) -> crate::Work;

// How many cases were compared, and how many differ.
#[derive(Default)]
struct Tally {
    cases: u64,
    different: u64,
}

impl Tally {
    // One case: what each implementation answers, and the bytes that it leaves.
    fn case(&mut self, what: impl Fn() -> String, answer: impl Fn(&Implementation) -> (u64, Vec<Vec<u8>>)) {
        let answers = IMPLEMENTATIONS.each_ref().map(&answer);
        self.cases += 1;
        if answers.iter().any(|one| *one != answers[0]) {
            self.different += 1;
            println!("different: {}", what());
            for (one, answer) in IMPLEMENTATIONS.iter().zip(&answers) {
                let bytes: Vec<String> =
                    answer.1.iter().map(|bytes| format!("{:016x}", crate::digest(bytes))).collect();
                println!("  {:7} answers {}, leaves {}", one.name, answer.0, bytes.join(" "));
            }
        }
    }
}

// A room of so many bytes, that are not all the same before.
fn room(length: usize) -> Vec<u8> {
    (0..length).map(|i| (i * 7 + 1) as u8).collect()
}

fn some_room(draw: &mut Draw) -> usize {
    if draw.below(5) == 0 { draw.below(1500) as usize } else { 2048 }
}

fn counting(tally: &mut Tally) {
    let mut draw = Draw(1);
    for kind in KINDS {
        for mode in MODES {
            for count in (0..130).chain([200, 1000, 5000]) {
                for _ in 0..4 {
                    let (seed, length) = (draw.word(), some_room(&mut draw));
                    let items = told::items(mode, seed, count);
                    let what =
                        || format!("count {}, {}, {count}, seed {seed}, room {length}", kind_name(kind), mode.name());
                    tally.case(what, |one| {
                        let mut out = room(length);
                        ((one.count)(kind, &items, &mut out) as u64, vec![out])
                    });
                }
            }
        }
    }
}

// Frames of every fullness: whole, damaged, with records exchanged, or read at a wrong size.
fn some_frames(kind: u32, round: u64, draw: &mut Draw) -> Frames {
    let readings = [0, 1, 2, 3, 5, 31, 32, 33, 63, 64, 65, 400][(round % 12) as usize];
    let mut frames = told::frames(kind, readings, draw.word() >> 8, round.is_multiple_of(5));
    match round % 4 {
        1 => frames.damage(draw),
        2 => frames.exchange(if kind == 3 { 20 } else { 8 }, draw),
        _ if round % 16 == 3 => frames.size -= 1,
        _ => {}
    }
    frames
}

fn framing(tally: &mut Tally) {
    let mut draw = Draw(2);
    for kind in KINDS {
        for round in 0..300 {
            let Frames { bytes, size } = some_frames(kind, round, &mut draw);
            let length = some_room(&mut draw);
            let what = |call: &'static str| move || format!("{call} {}, round {round}, room {length}", kind_name(kind));
            for count in [1, 2, 64, 70] {
                tally.case(what("decode"), |one| {
                    let mut out = room(length);
                    ((one.decode)(kind, &bytes, size, count, &mut out) as u64, vec![out])
                });
            }
            for rounds in [0, 1, 3] {
                let calls: [(&str, Choice); 3] =
                    [("encode", |one| one.encode), ("gather", |one| one.gather), ("fuse", |one| one.fuse)];
                for (name, call) in calls {
                    tally.case(what(name), |one| {
                        let mut out = room(length);
                        call(one)(kind, &bytes, size, rounds, &mut out);
                        (0, vec![out])
                    });
                }
            }
        }
    }
}

fn turning(tally: &mut Tally) {
    let mut draw = Draw(3);
    for kind in KINDS {
        for round in 0..60 {
            let Frames { bytes, size } = some_frames(kind, round, &mut draw);
            for count in [1, 10, 100, 1000, 5000] {
                let (seed, length) = (draw.word(), some_room(&mut draw));
                let memory = if draw.below(50) == 0 { 65_535 } else { 65_536 };
                let words = told::words(seed, count);
                let what = || format!("turns {}, {count}, seed {seed}, room {length}", kind_name(kind));
                tally.case(what, |one| {
                    let (mut memory, mut out) = (room(memory), room(length));
                    let sum = (one.turns)(kind, &words, &bytes, size, &mut memory, &mut out);
                    (sum, vec![memory, out])
                });
            }
        }
    }
}

fn replaying(tally: &mut Tally) {
    let mut draw = Draw(4);
    let mut scripts: Vec<(String, Vec<u8>)> = vec![
        ("empty".into(), Vec::new()),
        ("one line".into(), b"\n".to_vec()),
        ("too long".into(), vec![b'\n'; 65_537]),
        ("longest of empty lines".into(), vec![b'\n'; 65_536]),
        ("longest".into(), told::longest_script()),
    ];
    for kind in KINDS {
        for round in 0..100 {
            let seed = draw.word() >> 8;
            let mut script = told::script(kind, [5, 50, 400][round % 3], seed);
            for _ in 0..draw.below(3) {
                let at = draw.below(script.len() as u64) as usize;
                script[at] = if draw.below(2) == 0 { draw.word() as u8 } else { b' ' };
            }
            script.truncate(65_536);
            scripts.push((format!("{}, seed {seed}", kind_name(kind)), script));
        }
    }
    for (name, script) in &scripts {
        tally.case(
            || format!("replay {name}"),
            |one| {
                let mut out = room(1 << 20);
                ((one.replay)(script, &mut out) as u64, vec![out])
            },
        );
    }
}

/// Compares the answers; whether all are the same.
pub fn compare() -> bool {
    let mut tally = Tally::default();
    counting(&mut tally);
    framing(&mut tally);
    turning(&mut tally);
    replaying(&mut tally);
    println!("{} cases compared, {} different", tally.cases, tally.different);
    tally.different == 0
}
