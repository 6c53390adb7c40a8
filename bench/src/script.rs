//! Scripts replayed to memory: parse a line, make its call, print the answer.

/// Why a call is refused.
#[derive(Debug)]
pub struct Refusal {
    /// the number of the reason
    pub number: u8,
    /// of bytes that are no frame: the place of the fault, and the kind
    pub at: Option<(usize, u8)>,
}

/// An open network with all that it is lent.
pub trait Rack {
    /// Joins a reading into a node's value.
    fn generate(&mut self, node: usize, tenant: u32, item: u64, amount: u64) -> Result<(), Refusal>;
    /// Joins what bytes from outside encode into a node's value.
    fn arrive(&mut self, node: usize, frame: &[u8]) -> Result<(), Refusal>;
    /// Encodes a node's value into a free slot.
    fn send(&mut self, node: usize, slot: usize) -> Result<(), Refusal>;
    /// Joins what a slot holds into a node's value.
    fn deliver(&mut self, slot: usize, node: usize) -> Result<(), Refusal>;
    /// Frees a slot.
    fn free(&mut self, slot: usize) -> Result<(), Refusal>;
    /// Writes a node's encoding; its length in bytes.
    fn read(&mut self, node: usize, out: &mut [u8]) -> Result<usize, Refusal>;
    /// Writes a node's usage page; its length in bytes. Only called where the kind has pages.
    fn page(&mut self, node: usize, out: &mut [u8]) -> Result<usize, Refusal>;
}

/// Opens a network of so many nodes, of the kind of a letter.
pub type Open = fn(u8, usize) -> Result<Box<dyn Rack>, Refusal>;

const LONGEST: usize = 2048;

fn refused<T>(number: u8) -> Result<T, Refusal> {
    Err(Refusal { number, at: None })
}

// A number of decimal digits with no needless leading zero; none where 64 bits are too few.
fn number(field: &[u8]) -> Result<Option<u64>, Refusal> {
    if field.is_empty() || (field[0] == b'0' && field.len() > 1) || !field.iter().all(u8::is_ascii_digit) {
        return refused(21);
    }
    Ok(field.iter().try_fold(0u64, |n, digit| n.checked_mul(10)?.checked_add((digit - b'0').into())))
}

fn long(number: Option<u64>) -> Result<u64, Refusal> {
    number.map_or(refused(22), Ok)
}

fn short(number: Option<u64>) -> Result<u32, Refusal> {
    number.and_then(|n| n.try_into().ok()).map_or(refused(22), Ok)
}

fn index(number: Option<u64>) -> Result<usize, Refusal> {
    Ok(short(number)? as usize)
}

fn digit(byte: u8) -> Option<u8> {
    match byte {
        b'0'..=b'9' => Some(byte - b'0'),
        b'A'..=b'F' => Some(byte - b'A' + 10),
        _ => None,
    }
}

// Pairs of capital hex digits, 1 to 2,048, put into the room.
fn pairs<'a>(field: &[u8], room: &'a mut [u8; LONGEST]) -> Result<&'a [u8], Refusal> {
    let count = field.len() / 2;
    if !field.len().is_multiple_of(2) || !(1..=LONGEST).contains(&count) {
        return refused(21);
    }
    for (pair, place) in field.chunks_exact(2).zip(room.iter_mut()) {
        let (Some(high), Some(low)) = (digit(pair[0]), digit(pair[1])) else {
            return refused(21);
        };
        *place = 16 * high + low;
    }
    Ok(&room[..count])
}

// The fields that follow the letter, exactly as many as are wanted.
fn fields<const N: usize>(rest: &[u8]) -> Result<[&[u8]; N], Refusal> {
    let Some((b' ', text)) = rest.split_first() else {
        return refused(21);
    };
    let mut parts = text.split(|byte| *byte == b' ');
    let mut found = [text; N];
    for field in &mut found {
        *field = parts.next().map_or(refused(21), Ok)?;
    }
    if parts.next().is_some() {
        return refused(21);
    }
    Ok(found)
}

// What was printed so far.
struct Printer<'a> {
    out: &'a mut [u8],
    length: usize,
}

impl Printer<'_> {
    fn bytes(&mut self, bytes: &[u8]) {
        self.out[self.length..self.length + bytes.len()].copy_from_slice(bytes);
        self.length += bytes.len();
    }

    fn number(&mut self, mut n: u64) {
        let mut digits = [0; 20];
        let mut at = digits.len();
        loop {
            at -= 1;
            digits[at] = b'0' + (n % 10) as u8;
            n /= 10;
            if n == 0 {
                break;
            }
        }
        self.bytes(&digits[at..]);
    }

    fn pairs(&mut self, bytes: &[u8]) {
        const DIGITS: &[u8; 16] = b"0123456789ABCDEF";
        let room = &mut self.out[self.length..self.length + 2 * bytes.len()];
        for (byte, pair) in bytes.iter().zip(room.chunks_exact_mut(2)) {
            pair[0] = DIGITS[usize::from(byte >> 4)];
            pair[1] = DIGITS[usize::from(byte & 15)];
        }
        self.length += 2 * bytes.len();
    }

    fn refusal(&mut self, refusal: &Refusal) {
        self.bytes(b"no ");
        self.number(refusal.number.into());
        if let Some((place, kind)) = refusal.at {
            self.bytes(b" ");
            self.number(place as u64);
            self.bytes(b" ");
            self.number(kind.into());
        }
    }
}

// What a line does: how many bytes of the room it shows, if it shows any.
type Done = Result<Option<usize>, Refusal>;

fn plainly(done: Result<(), Refusal>) -> Done {
    done.map(|()| None)
}

fn open_line(rest: &[u8], open: Open, rack: &mut Option<(u8, Box<dyn Rack>)>) -> Done {
    if rack.is_some() {
        return refused(23);
    }
    let [kind, nodes] = fields(rest)?;
    let &[kind @ (b'b' | b'v' | b's' | b'p')] = kind else {
        return refused(21);
    };
    let nodes = index(number(nodes)?)?;
    *rack = Some((kind, open(kind, nodes)?));
    Ok(None)
}

fn call_line(letter: u8, rest: &[u8], kind: u8, rack: &mut dyn Rack, room: &mut [u8; LONGEST]) -> Done {
    match letter {
        b'g' => {
            let [node, tenant, item, amount] = fields(rest)?;
            let (node, tenant, item, amount) = (number(node)?, number(tenant)?, number(item)?, number(amount)?);
            plainly(rack.generate(index(node)?, short(tenant)?, long(item)?, long(amount)?))
        }
        b'a' => {
            let [node, bytes] = fields(rest)?;
            let node = number(node)?;
            let frame = pairs(bytes, room)?;
            plainly(rack.arrive(index(node)?, frame))
        }
        b's' => {
            let [node, slot] = fields(rest)?;
            let (node, slot) = (number(node)?, number(slot)?);
            plainly(rack.send(index(node)?, index(slot)?))
        }
        b'd' => {
            let [slot, node] = fields(rest)?;
            let (slot, node) = (number(slot)?, number(node)?);
            plainly(rack.deliver(index(slot)?, index(node)?))
        }
        b'x' => {
            let [slot] = fields(rest)?;
            plainly(rack.free(index(number(slot)?)?))
        }
        b'r' => {
            let [node] = fields(rest)?;
            rack.read(index(number(node)?)?, room).map(Some)
        }
        _ => {
            let [node] = fields(rest)?;
            let node = index(number(node)?)?;
            if kind != b'p' {
                return refused(24);
            }
            rack.page(node, room).map(Some)
        }
    }
}

fn line(text: &[u8], open: Open, rack: &mut Option<(u8, Box<dyn Rack>)>, room: &mut [u8; LONGEST]) -> Done {
    match text.split_first() {
        Some((b'o', rest)) => open_line(rest, open, rack),
        Some((letter @ (b'g' | b'a' | b's' | b'd' | b'x' | b'r' | b'u'), rest)) => match rack {
            Some((kind, rack)) => call_line(*letter, rest, *kind, rack.as_mut(), room),
            None => refused(23),
        },
        _ => refused(20),
    }
}

/// Replays a script; how many bytes are printed. There has to be room for them.
pub fn replay(script: &[u8], open: Open, out: &mut [u8]) -> usize {
    let mut printer = Printer { out, length: 0 };
    if script.len() > 65_536 {
        printer.bytes(b"0 no 25\n");
        return printer.length;
    }
    let mut rack = None;
    let mut room = [0; LONGEST];
    let script = script.strip_suffix(b"\n").map_or((script, script.is_empty()), |front| (front, false));
    if script.1 {
        return 0;
    }
    for (i, text) in script.0.split(|byte| *byte == b'\n').enumerate() {
        let done = line(text, open, &mut rack, &mut room);
        printer.number(i as u64 + 1);
        printer.bytes(b" ");
        match done {
            Ok(None) => printer.bytes(b"ok"),
            Ok(Some(length)) => printer.pairs(&room[..length]),
            Err(refusal) => printer.refusal(&refusal),
        }
        printer.bytes(b"\n");
    }
    printer.length
}
