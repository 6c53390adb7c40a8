//! What the three implementations are given: items, frames, words of turns and scripts, told by a seed.

const STEP: u64 = 0x9E37_79B9_7F4A_7C15;

/// Words drawn by SplitMix64; the field is its state.
pub struct Draw(pub u64);

impl Draw {
    /// The next word, of 64 bits.
    pub fn word(&mut self) -> u64 {
        self.0 = self.0.wrapping_add(STEP);
        let z = (self.0 ^ (self.0 >> 30)).wrapping_mul(0xBF58_476D_1CE4_E5B9);
        let z = (z ^ (z >> 27)).wrapping_mul(0x94D0_49BB_1331_11EB);
        z ^ (z >> 31)
    }

    /// A number below `most`: the remainder of the next word.
    pub fn below(&mut self, most: u64) -> u64 {
        self.word() % most
    }
}

// The item whose hash is this.
fn item_with(hash: u64) -> u64 {
    let z = hash ^ (hash >> 31) ^ (hash >> 62);
    let z = z.wrapping_mul(0x3196_42B2_D24D_8EC3);
    let z = z ^ (z >> 27) ^ (z >> 54);
    let z = z.wrapping_mul(0x96DE_1B17_3F11_9089);
    (z ^ (z >> 30) ^ (z >> 60)).wrapping_sub(STEP)
}

/// Which items are told.
#[derive(Clone, Copy, PartialEq)]
pub enum Mode {
    /// new items
    New,
    /// items below 65,536
    Few,
    /// items whose hashes fall
    Falling,
}

/// Every mode once.
pub const MODES: [Mode; 3] = [Mode::New, Mode::Few, Mode::Falling];

impl Mode {
    /// What the output calls it.
    pub fn name(self) -> &'static str {
        match self {
            Mode::New => "new items",
            Mode::Few => "items below 65,536",
            Mode::Falling => "hashes that fall",
        }
    }
}

/// So many items: new ones, ones below 65,536, or ones whose hashes fall, so that each enters at the front.
pub fn items(mode: Mode, seed: u64, count: u64) -> Vec<u64> {
    let mut draw = Draw(seed);
    let first = draw.word() | 1 << 63;
    (0..count)
        .map(|i| match mode {
            Mode::New => draw.word(),
            Mode::Few => draw.below(65_536),
            Mode::Falling => item_with(first - (i << 40)),
        })
        .collect()
}

/// Frames of one size.
pub struct Frames {
    /// the frames, one after the other
    pub bytes: Vec<u8>,
    /// how many bytes each has
    pub size: usize,
}

/// 64 frames of one size, each of so many readings, new or shared between the frames.
pub fn frames(kind: u32, readings: u64, seed: u64, shared: bool) -> Frames {
    let mut frames = Frames { bytes: Vec::new(), size: 0 };
    for place in 0..64 {
        let mut out = [0; 2048];
        let seed = if shared { seed } else { seed + (place << 32) };
        frames.size = crate::plain::count(kind, &items(Mode::New, seed, readings), &mut out);
        frames.bytes.extend_from_slice(&out[..frames.size]);
    }
    frames
}

impl Frames {
    /// Damages most frames at one or two bytes, mostly near the front; in a pair also the offset of the second side.
    pub fn damage(&mut self, draw: &mut Draw) {
        for place in 0..64 {
            let front = place * self.size;
            if self.bytes[front] == 5 && draw.below(4) == 0 {
                self.bytes[front + 4] = 0;
                self.bytes[front + 5] = draw.below(16) as u8;
            }
            for _ in 0..draw.below(3) {
                let within = if draw.below(2) == 0 { self.size } else { self.size.min(12) };
                let at = front + draw.below(within as u64) as usize;
                self.bytes[at] = match draw.below(3) {
                    0 => self.bytes[at].wrapping_add(1),
                    1 => draw.below(16) as u8,
                    _ => draw.word() as u8,
                };
            }
        }
    }

    /// Exchanges two runs of so many bytes in some frames, as records out of order.
    pub fn exchange(&mut self, width: usize, draw: &mut Draw) {
        let records = (self.size - 4) / width;
        for frame in self.bytes.chunks_exact_mut(self.size) {
            if records > 1 && draw.below(3) == 0 {
                let at = 4 + width * draw.below(records as u64 - 1) as usize;
                let (one, other) = frame[at..at + 2 * width].split_at_mut(width);
                one.swap_with_slice(other);
            }
        }
    }
}

/// Words of turns on seven nodes and the slots 25 to 31, some of them at a node or a slot that is not there; at the end
/// each node sends into a slot of its own.
pub fn words(seed: u64, count: u64) -> Vec<u64> {
    let mut draw = Draw(seed);
    let turn = |act: u64, node: u64, slot: u64, number: u64| act | node << 4 | slot << 7 | number << 13;
    let mut words: Vec<u64> =
        (0..count).map(|_| turn(draw.below(16), draw.below(8), 25 + draw.below(8), draw.below(65_536))).collect();
    words.extend((0..7).map(|node| turn(3, node, node, 0)));
    words
}

fn hex(bytes: &[u8]) -> String {
    bytes.iter().map(|byte| format!("{byte:02X}")).collect()
}

// A line that asks for something: mostly what a network does, now and then what it refuses.
fn line(kind: u32, frames: &Frames, draw: &mut Draw) -> String {
    let (node, slot) = (draw.below(17), draw.below(34));
    match draw.below(40) {
        0..=11 => format!("g {node} {} {} {}", draw.below(40), draw.below(65_536), draw.word() >> draw.below(64)),
        12..=17 => format!("s {node} {slot}"),
        19..=27 => format!("d {slot} {node}"),
        28..=34 => format!("x {slot}"),
        35 => format!("r {node}"),
        36 if kind == 5 => format!("u {node}"),
        18 | 37 => {
            let at = draw.below(64) as usize * frames.size;
            format!("a {node} {}", hex(&frames.bytes[at..at + frames.size]))
        }
        38 => ["", "o v 2", "g 0 07 0 1", "r 0 ", "q", "x 4294967296", "u 3", "s  0 1", "a 0 0a"]
            [draw.below(9) as usize]
            .to_string(),
        _ => format!("g {} 4294967295 {} 7", draw.below(16), draw.word()),
    }
}

/// A script of so many lines.
pub fn script(kind: u32, lines: u64, seed: u64) -> Vec<u8> {
    let mut draw = Draw(seed);
    let mut frames = frames(kind, 1 + draw.below(70), seed, false);
    frames.damage(&mut draw);
    let letter = ['b', 'v', 's', 'p'][if kind == 5 { 3 } else { kind as usize - 1 }];
    let mut text = if draw.below(8) == 0 { "r 0\no v 17\n".to_string() } else { String::new() };
    text += &format!("o {letter} {}\n", 1 + draw.below(16));
    for _ in 0..lines {
        text += &line(kind, &frames, &mut draw);
        text.push('\n');
    }
    if draw.below(2) == 0 {
        text.pop();
    }
    text.into_bytes()
}

/// The longest input that one replay takes, 65,536 bytes: on 16 nodes with the standard pile hosts count clients, send,
/// deliver and drop, and now and then a node is read and a page is shown.
pub fn longest_script() -> Vec<u8> {
    let mut draw = Draw(7);
    let mut text = "o p 16\n".to_string();
    for i in 0u64.. {
        let (from, to, slot) = (i % 16, (5 * i + 1) % 16, i % 32);
        let mut turn = format!("g {from} {} {} {}\n", draw.below(40), draw.below(65_536), draw.below(1000));
        turn += &format!("s {from} {slot}\nd {slot} {to}\nx {slot}\n");
        if i % 25 == 24 {
            turn += &format!("r {to}\nu {to}\n");
        }
        if text.len() + turn.len() > 65_536 {
            break;
        }
        text += &turn;
    }
    text += &"\n".repeat(65_536 - text.len());
    text.into_bytes()
}
