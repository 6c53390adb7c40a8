//! The same calls by hand, for speed, in safe Rust with the same fixed arrays: private fields keep the form, so that it
//! is never checked again; a reading is compared with the greatest element and put into its place; a join is cut to what
//! can enter, and takes no branch on the order; hashes are kept beside sampled records.
use crate::script::{self, Rack, Refusal};

const FRAME: usize = 2048;

#[inline]
fn hash(item: u64) -> u64 {
    let z = item.wrapping_add(0x9E37_79B9_7F4A_7C15);
    let z = (z ^ (z >> 30)).wrapping_mul(0xBF58_476D_1CE4_E5B9);
    let z = (z ^ (z >> 27)).wrapping_mul(0x94D0_49BB_1331_11EB);
    z ^ (z >> 31)
}

/// The hashes of some items, all put together.
#[inline(never)]
pub fn hashes(items: &[u64]) -> u64 {
    items.iter().fold(0, |all, item| all ^ hash(*item))
}

// A reading with its hash.
#[derive(Clone, Copy)]
struct Seen {
    hash: u64,
    item: u64,
    amount: u64,
    tenant: u32,
}

impl Seen {
    #[inline]
    fn new(tenant: u32, item: u64, amount: u64) -> Seen {
        Seen { hash: hash(item), item, amount, tenant }
    }

    #[inline]
    fn of_item(item: u64) -> Seen {
        Seen::new((item % 5) as u32, item, item / 8)
    }
}

#[derive(Clone, Copy)]
struct Bad {
    number: u8,
    at: usize,
    kind: u8,
}

trait Kind: Clone {
    const EMPTY: Self;
    fn add(&mut self, seen: &Seen);
    fn join(&mut self, other: &Self);
    fn length(&self) -> usize;
    // None where the room is too short.
    fn write(&self, out: &mut [u8]) -> Option<usize>;
    // Refused bytes leave the value as it is.
    fn read(&mut self, frame: &[u8]) -> Result<(), Bad>;
}

// The count and the end of a header.
#[inline]
fn header(frame: &[u8], kind: u8, fewest: u8, most: u8) -> Result<(usize, usize), Bad> {
    match *frame {
        [number, ..] if frame.len() >= 4 && number != kind => Err(Bad { number: 10, at: 0, kind }),
        [_, count, high, low, ..] if (fewest..=most).contains(&count) => {
            Ok((count.into(), u16::from_be_bytes([high, low]).into()))
        }
        [_, _, _, _, ..] => Err(Bad { number: 11, at: 1, kind }),
        _ => Err(Bad { number: 9, at: frame.len(), kind }),
    }
}

// The records' bytes, and how many records there are.
#[inline]
fn records(frame: &[u8], kind: u8, fewest: u8, most: u8, width: usize) -> Result<(usize, &[u8]), Bad> {
    let (count, end) = header(frame, kind, fewest, most)?;
    if end != frame.len() || end != 4 + count * width {
        return Err(Bad { number: 12, at: 2, kind });
    }
    Ok((count, &frame[4..end]))
}

#[inline]
fn put_header(out: &mut [u8], kind: u8, count: usize, end: usize) {
    let [high, low] = (end as u16).to_be_bytes();
    out[..4].copy_from_slice(&[kind, count as u8, high, low]);
}

#[inline]
fn word(bytes: &[u8]) -> u64 {
    u64::from_be_bytes(bytes.try_into().unwrap())
}

// The least of ordered things, rising.
#[derive(Clone, Copy)]
struct Least<T, const N: usize> {
    count: usize,
    items: [T; N],
}

trait Item: Copy {
    const BLANK: Self;
    fn less(&self, other: &Self) -> bool;
}

impl Item for u64 {
    const BLANK: u64 = 0;

    #[inline]
    fn less(&self, other: &u64) -> bool {
        self < other
    }
}

// Equal hashes mean equal items, since the hash is a permutation.
impl Item for Seen {
    const BLANK: Seen = Seen { hash: 0, item: 0, amount: 0, tenant: 0 };

    #[inline]
    fn less(&self, other: &Seen) -> bool {
        if self.hash != other.hash {
            return self.hash < other.hash;
        }
        (self.tenant, self.amount) < (other.tenant, other.amount)
    }
}

impl<T: Item, const N: usize> Least<T, N> {
    const EMPTY: Self = Least { count: 0, items: [T::BLANK; N] };

    #[inline]
    fn add(&mut self, item: T) {
        let count = self.count.min(N);
        if count == N && !item.less(&self.items[N - 1]) {
            return;
        }
        let at = self.items[..count].partition_point(|kept| kept.less(&item));
        if at < count && !item.less(&self.items[at]) {
            return;
        }
        let moved = count.min(N - 1);
        self.items.copy_within(at..moved, at + 1);
        self.items[at] = item;
        self.count = moved + 1;
    }

    #[inline]
    fn join(&mut self, other: &Self) {
        let mut news = &other.items[..other.count.min(N)];
        if self.count == N {
            let last = self.items[N - 1];
            news = &news[..news.partition_point(|item| item.less(&last))];
        }
        if news.len() <= 4 {
            for item in news {
                self.add(*item);
            }
            return;
        }
        if self.count == 0 {
            *self = *other;
            return;
        }
        let count = self.count.min(N);
        let mut out = [T::BLANK; N];
        let (mut i, mut j, mut n) = (0, 0, 0);
        while n < N && i < count && j < news.len() {
            let (x, y) = (self.items[i % N], news[j]);
            let (left, right) = (x.less(&y), y.less(&x));
            out[n] = if right { y } else { x };
            i += usize::from(!right);
            j += usize::from(!left);
            n += 1;
        }
        for rest in [&self.items[i..count], &news[j..]] {
            let rest = &rest[..rest.len().min(N - n)];
            out[n..n + rest.len()].copy_from_slice(rest);
            n += rest.len();
        }
        self.items = out;
        self.count = n;
    }
}

// The first item that is not less than the next one.
#[inline]
fn check<T: Item>(items: &[T], width: usize, kind: u8) -> Result<(), Bad> {
    let pairs = || items.iter().zip(items.get(1..).unwrap_or(&[]));
    if pairs().fold(true, |rises, (x, y)| rises & x.less(y)) {
        return Ok(());
    }
    let i = pairs().position(|(x, y)| !x.less(y)).unwrap_or(0);
    Err(Bad { number: 13, at: 4 + (i + 1) * width, kind })
}

#[derive(Clone)]
struct Values(Least<u64, 64>);

impl Values {
    fn estimate(&self) -> u64 {
        if self.0.count < 64 {
            return self.0.count as u64;
        }
        (63 << 32) / ((self.0.items[63] >> 32) + 1)
    }
}

impl Kind for Values {
    const EMPTY: Self = Values(Least::EMPTY);

    #[inline]
    fn add(&mut self, seen: &Seen) {
        self.0.add(seen.hash);
    }

    #[inline(never)]
    fn join(&mut self, other: &Self) {
        self.0.join(&other.0);
    }

    fn length(&self) -> usize {
        4 + 8 * self.0.count
    }

    #[inline(never)]
    fn write(&self, out: &mut [u8]) -> Option<usize> {
        let end = self.length();
        let out = out.get_mut(..end)?;
        put_header(out, 2, self.0.count, end);
        for (bytes, item) in out[4..].chunks_exact_mut(8).zip(&self.0.items) {
            bytes.copy_from_slice(&item.to_be_bytes());
        }
        Some(end)
    }

    #[inline(never)]
    fn read(&mut self, frame: &[u8]) -> Result<(), Bad> {
        let (count, bytes) = records(frame, 2, 0, 64, 8)?;
        let mut items = [0; 64];
        for (item, bytes) in items.iter_mut().zip(bytes.chunks_exact(8)) {
            *item = word(bytes);
        }
        check(&items[..count], 8, 2)?;
        self.0 = Least { count, items };
        Ok(())
    }
}

#[derive(Clone)]
struct Few(Least<Seen, 32>);

impl Kind for Few {
    const EMPTY: Self = Few(Least::EMPTY);

    #[inline]
    fn add(&mut self, seen: &Seen) {
        self.0.add(*seen);
    }

    #[inline(never)]
    fn join(&mut self, other: &Self) {
        self.0.join(&other.0);
    }

    fn length(&self) -> usize {
        4 + 20 * self.0.count
    }

    #[inline(never)]
    fn write(&self, out: &mut [u8]) -> Option<usize> {
        let end = self.length();
        let out = out.get_mut(..end)?;
        put_header(out, 3, self.0.count, end);
        for (bytes, seen) in out[4..].chunks_exact_mut(20).zip(&self.0.items) {
            bytes[..8].copy_from_slice(&seen.item.to_be_bytes());
            bytes[8..12].copy_from_slice(&seen.tenant.to_be_bytes());
            bytes[12..].copy_from_slice(&seen.amount.to_be_bytes());
        }
        Some(end)
    }

    #[inline(never)]
    fn read(&mut self, frame: &[u8]) -> Result<(), Bad> {
        let (count, bytes) = records(frame, 3, 0, 32, 20)?;
        let mut items = [Seen::BLANK; 32];
        for (seen, bytes) in items.iter_mut().zip(bytes.chunks_exact(20)) {
            let tenant = u32::from_be_bytes(bytes[8..12].try_into().unwrap());
            *seen = Seen::new(tenant, word(&bytes[..8]), word(&bytes[12..]));
        }
        check(&items[..count], 20, 3)?;
        self.0 = Least { count, items };
        Ok(())
    }
}

#[derive(Clone)]
struct Maps([u32; 64]);

const fn root(eighth: u32) -> u64 {
    let mut t: u64 = 64;
    while (t + 1).pow(8) <= 1 << (eighth + 48) {
        t += 1;
    }
    t
}

const ROOTS: [u64; 8] = [root(0), root(1), root(2), root(3), root(4), root(5), root(6), root(7)];

impl Maps {
    fn sum(&self) -> u32 {
        self.0.iter().map(|map| map.trailing_ones()).sum()
    }

    fn estimate(&self) -> u64 {
        if self.0.iter().fold(0, |all, map| all | map) == 0 {
            return 0;
        }
        let eighths = self.sum() / 8;
        ROOTS[(eighths % 8) as usize] * (1 << (eighths / 8)) * 100_000 / 77_351
    }
}

impl Kind for Maps {
    const EMPTY: Self = Maps([0; 64]);

    #[inline]
    fn add(&mut self, seen: &Seen) {
        self.0[(seen.hash % 64) as usize] |= 1 << (seen.hash >> 6).trailing_zeros().min(31);
    }

    #[inline(never)]
    fn join(&mut self, other: &Self) {
        for (map, other) in self.0.iter_mut().zip(&other.0) {
            *map |= other;
        }
    }

    fn length(&self) -> usize {
        260
    }

    #[inline(never)]
    fn write(&self, out: &mut [u8]) -> Option<usize> {
        let out = out.get_mut(..260)?;
        put_header(out, 1, 64, 260);
        for (bytes, map) in out[4..].chunks_exact_mut(4).zip(&self.0) {
            bytes.copy_from_slice(&map.to_be_bytes());
        }
        Some(260)
    }

    #[inline(never)]
    fn read(&mut self, frame: &[u8]) -> Result<(), Bad> {
        let (_, bytes) = records(frame, 1, 64, 64, 4)?;
        for (map, bytes) in self.0.iter_mut().zip(bytes.chunks_exact(4)) {
            *map = u32::from_be_bytes(bytes.try_into().unwrap());
        }
        Ok(())
    }
}

#[derive(Clone)]
struct Both<A, B>(A, B);

type Pile = Both<Maps, Both<Values, Few>>;

impl<A: Kind, B: Kind> Kind for Both<A, B> {
    const EMPTY: Self = Both(A::EMPTY, B::EMPTY);

    #[inline]
    fn add(&mut self, seen: &Seen) {
        self.0.add(seen);
        self.1.add(seen);
    }

    #[inline(never)]
    fn join(&mut self, other: &Self) {
        self.0.join(&other.0);
        self.1.join(&other.1);
    }

    fn length(&self) -> usize {
        6 + self.0.length() + self.1.length()
    }

    #[inline(never)]
    fn write(&self, out: &mut [u8]) -> Option<usize> {
        let offset = 6 + self.0.length();
        let end = offset + self.1.length();
        let out = out.get_mut(..end)?;
        put_header(out, 5, 2, end);
        out[4..6].copy_from_slice(&(offset as u16).to_be_bytes());
        self.0.write(&mut out[6..offset])?;
        self.1.write(&mut out[offset..])?;
        Some(end)
    }

    #[inline(never)]
    fn read(&mut self, frame: &[u8]) -> Result<(), Bad> {
        let (_, end) = header(frame, 5, 2, 2)?;
        if end != frame.len() {
            return Err(Bad { number: 12, at: 2, kind: 5 });
        }
        let offset = match *frame {
            [_, _, _, _, high, low, ..] => u16::from_be_bytes([high, low]).into(),
            _ => 0,
        };
        if offset < 10 || offset + 4 > end {
            return Err(Bad { number: 14, at: 4, kind: 5 });
        }
        let inside = |from: usize| move |bad: Bad| Bad { at: from + bad.at, ..bad };
        // Aside, since the second side may be refused where the first is not.
        let mut fresh = Self::EMPTY;
        fresh.0.read(&frame[6..offset]).map_err(inside(6))?;
        fresh.1.read(&frame[offset..]).map_err(inside(offset))?;
        *self = fresh;
        Ok(())
    }
}

// The usage page of a pile.
fn page(pile: &Pile, out: &mut [u8]) -> usize {
    let Both(maps, Both(values, Few(sample))) = pile;
    // tenant, how many records, the greatest amount; rising by tenant
    let mut rows: [(u32, u16, u64); 32] = [(0, 0, 0); 32];
    let mut count = 0;
    for seen in &sample.items[..sample.count] {
        let at = rows[..count].partition_point(|row| row.0 < seen.tenant);
        if at == count || rows[at].0 != seen.tenant {
            rows.copy_within(at..count, at + 1);
            rows[at] = (seen.tenant, 0, 0);
            count += 1;
        }
        let row = &mut rows[at];
        *row = (row.0, row.1 + 1, row.2.max(seen.amount));
    }
    let end = 32 + 14 * count;
    out[..8].copy_from_slice(&[0, count as u8, 0, 3, 0, 32, (end >> 8) as u8, end as u8]);
    out[8..16].copy_from_slice(&maps.estimate().to_be_bytes());
    out[16..24].copy_from_slice(&values.estimate().to_be_bytes());
    out[24..28].copy_from_slice(&maps.sum().to_be_bytes());
    out[28..32].copy_from_slice(&(values.0.count as u32).to_be_bytes());
    for (row, bytes) in rows.iter().zip(out[32..end].chunks_exact_mut(14)) {
        bytes[..4].copy_from_slice(&row.0.to_be_bytes());
        bytes[4..6].copy_from_slice(&row.1.to_be_bytes());
        bytes[6..].copy_from_slice(&row.2.to_be_bytes());
    }
    end
}

// The network: how many nodes, and how long the frame in each filled slot is.
struct Network {
    nodes: usize,
    lengths: [Option<usize>; 32],
}

#[cold]
fn no(number: u8) -> Refusal {
    Refusal { number, at: None }
}

fn no_frame(bad: Bad) -> Refusal {
    Refusal { number: bad.number, at: Some((bad.at, bad.kind)) }
}

impl Network {
    fn open<K: Kind>(values: &mut [K], memory: &[u8], nodes: usize) -> Result<Network, Refusal> {
        if !(1..=16).contains(&nodes) {
            return Err(no(1));
        }
        let network = Network { nodes, lengths: [None; 32] };
        network.check(values, memory)?;
        values[..nodes].fill(K::EMPTY);
        Ok(network)
    }

    #[inline]
    fn check<K>(&self, values: &[K], memory: &[u8]) -> Result<(), Refusal> {
        if values.len() < self.nodes || memory.len() < 32 * FRAME { Err(no(2)) } else { Ok(()) }
    }

    fn generate<K: Kind>(&self, values: &mut [K], memory: &[u8], node: usize, seen: &Seen) -> Result<(), Refusal> {
        self.check(values, memory)?;
        let value = values[..self.nodes].get_mut(node).ok_or_else(|| no(4))?;
        value.add(seen);
        Ok(())
    }

    fn arrive<K: Kind>(&self, values: &mut [K], memory: &[u8], node: usize, frame: &[u8]) -> Result<(), Refusal> {
        self.check(values, memory)?;
        let value = values[..self.nodes].get_mut(node).ok_or_else(|| no(4))?;
        let mut heard = K::EMPTY;
        heard.read(frame).map_err(no_frame)?;
        value.join(&heard);
        Ok(())
    }

    fn send<K: Kind>(&mut self, values: &[K], memory: &mut [u8], node: usize, slot: usize) -> Result<(), Refusal> {
        self.check(values, memory)?;
        let value = values[..self.nodes].get(node).ok_or_else(|| no(4))?;
        let length = self.lengths.get_mut(slot).ok_or_else(|| no(5))?;
        if length.is_some() {
            return Err(no(7));
        }
        *length = value.write(&mut memory[slot * FRAME..][..FRAME]);
        Ok(())
    }

    fn deliver<K: Kind>(&self, values: &mut [K], memory: &[u8], slot: usize, node: usize) -> Result<(), Refusal> {
        self.check(values, memory)?;
        let length = self.lengths.get(slot).ok_or_else(|| no(5))?;
        let value = values[..self.nodes].get_mut(node).ok_or_else(|| no(4))?;
        let length = length.ok_or_else(|| no(6))?;
        let mut heard = K::EMPTY;
        heard.read(&memory[slot * FRAME..][..length]).map_err(no_frame)?;
        value.join(&heard);
        Ok(())
    }

    fn free<K: Kind>(&mut self, values: &[K], memory: &[u8], slot: usize) -> Result<(), Refusal> {
        self.check(values, memory)?;
        let length = self.lengths.get_mut(slot).ok_or_else(|| no(5))?;
        length.take().map(|_| ()).ok_or_else(|| no(6))
    }

    fn read<K: Kind>(&self, values: &[K], memory: &[u8], node: usize, out: &mut [u8]) -> Result<usize, Refusal> {
        self.check(values, memory)?;
        let value = values[..self.nodes].get(node).ok_or_else(|| no(4))?;
        value.write(out).ok_or_else(|| no(8))
    }
}

// What is measured.

fn part(frames: &[u8], size: usize, i: usize) -> &[u8] {
    let from = i.saturating_mul(size).min(frames.len());
    let to = from.saturating_add(size).min(frames.len());
    &frames[from..to]
}

fn count_items<K: Kind>(items: &[u64], out: &mut [u8]) -> usize {
    let mut value = K::EMPTY;
    for item in items {
        value.add(&Seen::of_item(*item));
    }
    value.write(out).unwrap_or(0)
}

fn decode_frames<K: Kind>(frames: &[u8], size: usize, count: usize, out: &mut [u8]) -> usize {
    let mut value = K::EMPTY;
    let refused = (0..count).filter(|i| value.read(part(frames, size, *i)).is_err()).count();
    value.write(out);
    refused
}

fn values<K: Kind>(frames: &[u8], size: usize) -> [K; 64] {
    std::array::from_fn(|i| {
        let mut value = K::EMPTY;
        let _ = value.read(part(frames, size, i));
        value
    })
}

fn encode_values<K: Kind>(frames: &[u8], size: usize, rounds: u64, out: &mut [u8]) {
    let values: [K; 64] = values(frames, size);
    for _ in 0..rounds {
        for value in &values {
            value.write(out);
        }
    }
}

fn gather_values<K: Kind>(frames: &[u8], size: usize, rounds: u64, out: &mut [u8]) {
    let values: [K; 64] = values(frames, size);
    let mut all = K::EMPTY;
    for _ in 0..rounds {
        for value in &values {
            all.join(value);
        }
    }
    all.write(out);
}

fn fuse_values<K: Kind>(frames: &[u8], size: usize, rounds: u64, out: &mut [u8]) {
    let values: [K; 64] = values(frames, size);
    let (firsts, others) = values.split_at(32);
    let mut made = K::EMPTY;
    for _ in 0..rounds {
        for first in firsts {
            for other in others {
                made.clone_from(first);
                made.join(other);
            }
        }
    }
    made.write(out);
}

fn number(done: Result<(), Refusal>) -> u64 {
    done.map_or_else(|refusal| refusal.number.into(), |()| 0)
}

fn make_turns<K: Kind>(words: &[u64], frames: &[u8], size: usize, memory: &mut [u8], room: &mut [u8]) -> u64 {
    let mut values: [K; 7] = std::array::from_fn(|_| K::EMPTY);
    let mut network = match Network::open(&mut values, memory, 7) {
        Ok(network) => network,
        Err(refusal) => return refusal.number.into(),
    };
    words.iter().fold(0, |sum: u64, word| {
        let node = (word >> 4 & 7) as usize;
        let slot = (word >> 7 & 63) as usize;
        let rest = word >> 13;
        let told = match word & 15 {
            0..=1 => number(network.generate(&mut values, memory, node, &Seen::of_item(rest))),
            2 => number(network.arrive(&mut values, memory, node, part(frames, size, (rest & 63) as usize))),
            3..=6 => number(network.send(&values, memory, node, slot)),
            7..=10 => number(network.deliver(&mut values, memory, slot, node)),
            11..=13 => number(network.free(&values, memory, slot)),
            _ => network.read(&values, memory, node, room).map_or_else(|no| no.number.into(), |length| length as u64),
        };
        sum.wrapping_mul(31).wrapping_add(told)
    })
}

// A network with all that it is lent, for scripts.
struct Lent<K> {
    network: Network,
    values: [K; 16],
    memory: [u8; 32 * FRAME],
    show: fn(&K, &mut [u8]) -> usize,
}

impl<K: Kind> Rack for Lent<K> {
    fn generate(&mut self, node: usize, tenant: u32, item: u64, amount: u64) -> Result<(), Refusal> {
        self.network.generate(&mut self.values, &self.memory, node, &Seen::new(tenant, item, amount))
    }

    fn arrive(&mut self, node: usize, frame: &[u8]) -> Result<(), Refusal> {
        self.network.arrive(&mut self.values, &self.memory, node, frame)
    }

    fn send(&mut self, node: usize, slot: usize) -> Result<(), Refusal> {
        self.network.send(&self.values, &mut self.memory, node, slot)
    }

    fn deliver(&mut self, slot: usize, node: usize) -> Result<(), Refusal> {
        self.network.deliver(&mut self.values, &self.memory, slot, node)
    }

    fn free(&mut self, slot: usize) -> Result<(), Refusal> {
        self.network.free(&self.values, &self.memory, slot)
    }

    fn read(&mut self, node: usize, out: &mut [u8]) -> Result<usize, Refusal> {
        self.network.read(&self.values, &self.memory, node, out)
    }

    fn page(&mut self, node: usize, out: &mut [u8]) -> Result<usize, Refusal> {
        let value = self.values[..self.network.nodes].get(node).ok_or_else(|| no(4))?;
        Ok((self.show)(value, out))
    }
}

fn open_rack<K: Kind + 'static>(nodes: usize, show: fn(&K, &mut [u8]) -> usize) -> Result<Box<dyn Rack>, Refusal> {
    let mut values = std::array::from_fn(|_| K::EMPTY);
    let memory = [0; 32 * FRAME];
    let network = Network::open(&mut values, &memory, nodes)?;
    Ok(Box::new(Lent { network, values, memory, show }))
}

fn open(kind: u8, nodes: usize) -> Result<Box<dyn Rack>, Refusal> {
    match kind {
        b'b' => open_rack::<Maps>(nodes, |_, _| 0),
        b'v' => open_rack::<Values>(nodes, |_, _| 0),
        b's' => open_rack::<Few>(nodes, |_, _| 0),
        _ => open_rack::<Pile>(nodes, page),
    }
}

calls!(Maps, Values, Few, Pile);
