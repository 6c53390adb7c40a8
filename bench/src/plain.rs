//! The same calls by hand, as straightforward Rust: a value is a plain row that each call checks, two rows are joined
//! into a fresh one, and one row is made for each reading.
use crate::script::{self, Rack, Refusal};
use std::cmp::Ordering;

const LONGEST: usize = 2048;
const OVERLONG: usize = LONGEST + 1;
const HEADER: usize = 4;

/// One client seen at work.
#[derive(Clone, Copy)]
pub struct Reading {
    tenant: u32,
    item: u64,
    amount: u64,
}

impl Reading {
    fn of_item(item: u64) -> Reading {
        Reading { tenant: (item % 5) as u32, item, amount: item / 8 }
    }
}

fn hash(item: u64) -> u64 {
    let mut z = item.wrapping_add(0x9E37_79B9_7F4A_7C15);
    z = (z ^ (z >> 30)).wrapping_mul(0xBF58_476D_1CE4_E5B9);
    z = (z ^ (z >> 27)).wrapping_mul(0x94D0_49BB_1331_11EB);
    z ^ (z >> 31)
}

// The bucket and the rank of a hash.
fn mark(hash: u64) -> (usize, u32) {
    let quotient = hash / 64;
    let zeros = quotient.trailing_zeros();
    let rank = if quotient == 0 || zeros > 31 { 31 } else { zeros };
    ((hash % 64) as usize, rank)
}

#[derive(Clone, Copy)]
enum Reason {
    Overlong = 3,
    Short = 9,
    OtherKind = 10,
    Count = 11,
    End = 12,
    Order = 13,
    Offset = 14,
}

/// Why bytes are no frame.
#[derive(Clone, Copy)]
struct Fault {
    reason: Reason,
    place: usize,
    kind: u8,
}

fn fault<T>(reason: Reason, place: usize, kind: u8) -> Result<T, Fault> {
    Err(Fault { reason, place, kind })
}

/// Why no frame is written.
#[derive(Debug)]
enum Unwritten {
    Overlong,
    Room,
}

trait Synopsis: Clone {
    const NUMBER: u8;
    fn greatest_length() -> usize;
    fn empty() -> Self;
    fn make(reading: Reading) -> Self;
    fn fuse(&mut self, other: &Self);
    fn length(&self) -> usize;
    fn encode(&self, out: &mut [u8]) -> Result<usize, Unwritten>;
    fn decode(&mut self, frame: &[u8]) -> Result<(), Fault>;

    fn is_overlong() -> bool {
        Self::greatest_length() > LONGEST
    }
}

// Rows.

trait Element: Copy + Ord + Default {
    const WIDTH: usize;
    fn put(self, out: &mut [u8]);
    fn get(bytes: &[u8]) -> Self;
}

impl Element for u32 {
    const WIDTH: usize = 4;

    fn put(self, out: &mut [u8]) {
        out.copy_from_slice(&self.to_be_bytes());
    }

    fn get(bytes: &[u8]) -> u32 {
        u32::from_be_bytes(bytes.try_into().unwrap())
    }
}

impl Element for u64 {
    const WIDTH: usize = 8;

    fn put(self, out: &mut [u8]) {
        out.copy_from_slice(&self.to_be_bytes());
    }

    fn get(bytes: &[u8]) -> u64 {
        u64::from_be_bytes(bytes.try_into().unwrap())
    }
}

#[derive(Clone, Copy, PartialEq, Eq, Default)]
struct Record {
    item: u64,
    tenant: u32,
    amount: u64,
}

impl Ord for Record {
    fn cmp(&self, other: &Record) -> Ordering {
        let key = |r: &Record| (hash(r.item), r.item, r.tenant, r.amount);
        key(self).cmp(&key(other))
    }
}

impl PartialOrd for Record {
    fn partial_cmp(&self, other: &Record) -> Option<Ordering> {
        Some(self.cmp(other))
    }
}

impl Element for Record {
    const WIDTH: usize = 20;

    fn put(self, out: &mut [u8]) {
        self.item.put(&mut out[..8]);
        self.tenant.put(&mut out[8..12]);
        self.amount.put(&mut out[12..]);
    }

    fn get(bytes: &[u8]) -> Record {
        Record { item: u64::get(&bytes[..8]), tenant: u32::get(&bytes[8..12]), amount: u64::get(&bytes[12..]) }
    }
}

#[derive(Clone, Copy)]
struct Row<E, const N: usize> {
    count: usize,
    places: [E; N],
}

impl<E: Element, const N: usize> Row<E, N> {
    fn empty() -> Self {
        Row { count: 0, places: [E::default(); N] }
    }

    fn single(element: E) -> Self {
        let mut row = Row::empty();
        row.places[0] = element;
        row.count = 1;
        row
    }

    fn is_run(&self) -> bool {
        let Some((front, rest)) = self.places.split_at_checked(self.count) else {
            return false;
        };
        front.windows(2).all(|pair| pair[0] < pair[1]) && rest.iter().all(|unused| *unused == E::default())
    }

    // The row itself, or the empty one where it is no run.
    fn checked(&self) -> Self {
        if self.is_run() { *self } else { Row::empty() }
    }

    fn elements(&self) -> &[E] {
        &self.places[..self.count]
    }

    fn joined(&self, other: &Self) -> Self {
        let (one, other) = (self.checked(), other.checked());
        let mut joined = Row::empty();
        joined.count = union(one.elements(), other.elements(), &mut joined.places);
        joined
    }
}

// Puts the least elements of both, each once and rising, into the places; how many there are.
fn union<E: Element>(mut a: &[E], mut b: &[E], places: &mut [E]) -> usize {
    for (count, place) in places.iter_mut().enumerate() {
        *place = match (a.split_first(), b.split_first()) {
            (None, None) => return count,
            (Some((x, rest)), None) => {
                a = rest;
                *x
            }
            (None, Some((y, rest))) => {
                b = rest;
                *y
            }
            (Some((x, after_x)), Some((y, after_y))) => match x.cmp(y) {
                Ordering::Less => {
                    a = after_x;
                    *x
                }
                Ordering::Greater => {
                    b = after_y;
                    *y
                }
                Ordering::Equal => {
                    (a, b) = (after_x, after_y);
                    *x
                }
            },
        };
    }
    places.len()
}

fn put_records<E: Element>(kind: u8, records: &[E], out: &mut [u8]) -> Result<usize, Unwritten> {
    let end = HEADER + records.len() * E::WIDTH;
    if out.len() < end {
        return Err(Unwritten::Room);
    }
    let [high, low] = (end as u16).to_be_bytes();
    out[..HEADER].copy_from_slice(&[kind, records.len() as u8, high, low]);
    for (record, bytes) in records.iter().zip(out[HEADER..end].chunks_exact_mut(E::WIDTH)) {
        record.put(bytes);
    }
    Ok(end)
}

// The count and the end that a header says.
fn read_header(frame: &[u8], kind: u8, fewest: u8, most: u8) -> Result<(usize, usize), Fault> {
    let &[number, count, high, low, ..] = frame else {
        return fault(Reason::Short, frame.len(), kind);
    };
    if number != kind {
        return fault(Reason::OtherKind, 0, kind);
    }
    if count < fewest || count > most {
        return fault(Reason::Count, 1, kind);
    }
    Ok((count.into(), u16::from_be_bytes([high, low]).into()))
}

fn get_records<E: Element>(kind: u8, fewest: u8, frame: &[u8], places: &mut [E]) -> Result<usize, Fault> {
    let (count, end) = read_header(frame, kind, fewest, places.len() as u8)?;
    if end != frame.len() || end != HEADER + count * E::WIDTH {
        return fault(Reason::End, 2, kind);
    }
    for (place, bytes) in places.iter_mut().zip(frame[HEADER..].chunks_exact(E::WIDTH)) {
        *place = E::get(bytes);
    }
    Ok(count)
}

fn get_row<E: Element, const N: usize>(kind: u8, frame: &[u8]) -> Result<Row<E, N>, Fault> {
    let mut row = Row::empty();
    row.count = get_records(kind, 0, frame, &mut row.places)?;
    match row.elements().windows(2).position(|pair| pair[0] >= pair[1]) {
        Some(i) => fault(Reason::Order, HEADER + (i + 1) * E::WIDTH, kind),
        None => Ok(row),
    }
}

// The kinds.

#[derive(Clone)]
struct Bitmaps {
    maps: [u32; 64],
}

impl Bitmaps {
    fn sum(&self) -> u32 {
        self.maps.iter().map(|map| map.trailing_ones()).sum()
    }

    fn estimate(&self) -> u64 {
        if self.maps.iter().all(|map| *map == 0) {
            return 0;
        }
        let eighths = self.sum() / 8;
        let mut root: u64 = 64;
        while (root + 1).pow(8) <= 1 << (eighths % 8 + 48) {
            root += 1;
        }
        root * (1 << (eighths / 8)) * 100_000 / 77_351
    }
}

impl Synopsis for Bitmaps {
    const NUMBER: u8 = 1;

    fn greatest_length() -> usize {
        HEADER + 64 * 4
    }

    fn empty() -> Self {
        Bitmaps { maps: [0; 64] }
    }

    fn make(reading: Reading) -> Self {
        let mut made = Self::empty();
        let (bucket, rank) = mark(hash(reading.item));
        made.maps[bucket] = 1 << rank;
        made
    }

    #[inline(never)]
    fn fuse(&mut self, other: &Self) {
        for (map, other) in self.maps.iter_mut().zip(&other.maps) {
            *map |= other;
        }
    }

    fn length(&self) -> usize {
        Self::greatest_length()
    }

    #[inline(never)]
    fn encode(&self, out: &mut [u8]) -> Result<usize, Unwritten> {
        put_records(Self::NUMBER, &self.maps, out)
    }

    #[inline(never)]
    fn decode(&mut self, frame: &[u8]) -> Result<(), Fault> {
        let mut maps = [0; 64];
        get_records(Self::NUMBER, 64, frame, &mut maps)?;
        self.maps = maps;
        Ok(())
    }
}

#[derive(Clone)]
struct LeastValues {
    row: Row<u64, 64>,
}

impl LeastValues {
    fn estimate(&self) -> u64 {
        let run = self.row.checked();
        match run.elements() {
            [.., last] if run.count == 64 => (63 << 32) / ((last >> 32) + 1),
            fewer => fewer.len() as u64,
        }
    }
}

impl Synopsis for LeastValues {
    const NUMBER: u8 = 2;

    fn greatest_length() -> usize {
        HEADER + 64 * 8
    }

    fn empty() -> Self {
        LeastValues { row: Row::empty() }
    }

    fn make(reading: Reading) -> Self {
        LeastValues { row: Row::single(hash(reading.item)) }
    }

    #[inline(never)]
    fn fuse(&mut self, other: &Self) {
        self.row = self.row.joined(&other.row);
    }

    fn length(&self) -> usize {
        HEADER + 8 * self.row.checked().count
    }

    #[inline(never)]
    fn encode(&self, out: &mut [u8]) -> Result<usize, Unwritten> {
        put_records(Self::NUMBER, self.row.checked().elements(), out)
    }

    #[inline(never)]
    fn decode(&mut self, frame: &[u8]) -> Result<(), Fault> {
        self.row = get_row(Self::NUMBER, frame)?;
        Ok(())
    }
}

#[derive(Clone)]
struct Sample {
    row: Row<Record, 32>,
}

impl Synopsis for Sample {
    const NUMBER: u8 = 3;

    fn greatest_length() -> usize {
        HEADER + 32 * 20
    }

    fn empty() -> Self {
        Sample { row: Row::empty() }
    }

    fn make(reading: Reading) -> Self {
        let Reading { tenant, item, amount } = reading;
        Sample { row: Row::single(Record { item, tenant, amount }) }
    }

    #[inline(never)]
    fn fuse(&mut self, other: &Self) {
        self.row = self.row.joined(&other.row);
    }

    fn length(&self) -> usize {
        HEADER + 20 * self.row.checked().count
    }

    #[inline(never)]
    fn encode(&self, out: &mut [u8]) -> Result<usize, Unwritten> {
        put_records(Self::NUMBER, self.row.checked().elements(), out)
    }

    #[inline(never)]
    fn decode(&mut self, frame: &[u8]) -> Result<(), Fault> {
        self.row = get_row(Self::NUMBER, frame)?;
        Ok(())
    }
}

#[derive(Clone)]
struct Pair<A, B> {
    first: A,
    second: B,
}

type Lists = Pair<LeastValues, Sample>;
type Pile = Pair<Bitmaps, Lists>;

// Where the second side of a pair's frame begins.
fn second_offset(frame: &[u8], kind: u8) -> Result<usize, Fault> {
    let (_, end) = read_header(frame, kind, 2, 2)?;
    if end != frame.len() {
        return fault(Reason::End, 2, kind);
    }
    let offset = match *frame {
        [_, _, _, _, high, low, ..] => u16::from_be_bytes([high, low]).into(),
        _ => 0,
    };
    if offset < 10 || offset + 4 > end {
        return fault(Reason::Offset, 4, kind);
    }
    Ok(offset)
}

fn get_side<S: Synopsis>(frame: &[u8], from: usize, to: usize) -> Result<S, Fault> {
    let mut side = S::empty();
    match side.decode(&frame[from..to]) {
        Ok(()) => Ok(side),
        Err(fault) => Err(Fault { place: from + fault.place, ..fault }),
    }
}

impl<A: Synopsis, B: Synopsis> Pair<A, B> {
    fn put(&self, out: &mut [u8]) -> Result<usize, Unwritten> {
        if Self::is_overlong() {
            return Err(Unwritten::Overlong);
        }
        let offset = 6 + self.first.length();
        let end = offset + self.second.length();
        if out.len() < end {
            return Err(Unwritten::Room);
        }
        let [end_high, end_low] = (end as u16).to_be_bytes();
        let [high, low] = (offset as u16).to_be_bytes();
        out[..6].copy_from_slice(&[Self::NUMBER, 2, end_high, end_low, high, low]);
        self.first.encode(&mut out[6..offset])?;
        self.second.encode(&mut out[offset..end])?;
        Ok(end)
    }

    fn take(&mut self, frame: &[u8]) -> Result<(), Fault> {
        if Self::is_overlong() {
            return fault(Reason::Overlong, 0, Self::NUMBER);
        }
        let offset = second_offset(frame, Self::NUMBER)?;
        let first = get_side(frame, 6, offset)?;
        let second = get_side(frame, offset, frame.len())?;
        *self = Pair { first, second };
        Ok(())
    }
}

impl<A: Synopsis, B: Synopsis> Synopsis for Pair<A, B> {
    const NUMBER: u8 = 5;

    fn greatest_length() -> usize {
        (6 + A::greatest_length() + B::greatest_length()).min(OVERLONG)
    }

    fn empty() -> Self {
        Pair { first: A::empty(), second: B::empty() }
    }

    fn make(reading: Reading) -> Self {
        Pair { first: A::make(reading), second: B::make(reading) }
    }

    #[inline(never)]
    fn fuse(&mut self, other: &Self) {
        self.first.fuse(&other.first);
        self.second.fuse(&other.second);
    }

    fn length(&self) -> usize {
        6 + self.first.length() + self.second.length()
    }

    #[inline(never)]
    fn encode(&self, out: &mut [u8]) -> Result<usize, Unwritten> {
        self.put(out)
    }

    #[inline(never)]
    fn decode(&mut self, frame: &[u8]) -> Result<(), Fault> {
        self.take(frame)
    }
}

// The usage page of a pile.
fn page(pile: &Pile, out: &mut [u8]) -> usize {
    let values = pile.second.first.row.checked();
    let sample = pile.second.second.row.checked();
    let mut tenants: Vec<u32> = sample.elements().iter().map(|record| record.tenant).collect();
    tenants.sort();
    tenants.dedup();
    let end = 32 + 14 * tenants.len();
    for (place, number) in [tenants.len(), 3, 32, end].into_iter().enumerate() {
        out[2 * place..2 * place + 2].copy_from_slice(&(number as u16).to_be_bytes());
    }
    pile.first.estimate().put(&mut out[8..16]);
    pile.second.first.estimate().put(&mut out[16..24]);
    pile.first.sum().put(&mut out[24..28]);
    (values.count as u32).put(&mut out[28..32]);
    for (tenant, row) in tenants.iter().zip(out[32..end].chunks_exact_mut(14)) {
        let amounts = sample.elements().iter().filter(|record| record.tenant == *tenant).map(|record| record.amount);
        tenant.put(&mut row[..4]);
        row[4..6].copy_from_slice(&(amounts.clone().count() as u16).to_be_bytes());
        amounts.max().unwrap_or(0).put(&mut row[6..]);
    }
    end
}

// The network.

const SLOTS: usize = 32;
const NODES: usize = 16;
const MEMORY: usize = SLOTS * LONGEST;

struct Network {
    count: usize,
    slots: [Option<usize>; SLOTS],
}

fn refused<T>(number: u8) -> Result<T, Refusal> {
    Err(Refusal { number, at: None })
}

fn no_frame(fault: Fault) -> Refusal {
    Refusal { number: fault.reason as u8, at: Some((fault.place, fault.kind)) }
}

fn check_lent<S: Synopsis>(nodes: usize, values: &[S], memory: &[u8]) -> Result<(), Refusal> {
    if values.len() < nodes || memory.len() < MEMORY {
        return refused(2);
    }
    if S::is_overlong() {
        return refused(3);
    }
    Ok(())
}

fn check_slot(slot: usize) -> Result<(), Refusal> {
    if slot < SLOTS { Ok(()) } else { refused(5) }
}

impl Network {
    fn open<S: Synopsis>(values: &mut [S], memory: &[u8], nodes: usize) -> Result<Network, Refusal> {
        if !(1..=NODES).contains(&nodes) {
            return refused(1);
        }
        check_lent(nodes, values, memory)?;
        values[..nodes].fill(S::empty());
        Ok(Network { count: nodes, slots: [None; SLOTS] })
    }

    fn check_node(&self, node: usize) -> Result<(), Refusal> {
        if node < self.count { Ok(()) } else { refused(4) }
    }

    fn generate<S: Synopsis>(
        &self,
        values: &mut [S],
        memory: &[u8],
        node: usize,
        reading: Reading,
    ) -> Result<(), Refusal> {
        check_lent(self.count, values, memory)?;
        self.check_node(node)?;
        values[node].fuse(&S::make(reading));
        Ok(())
    }

    fn arrive<S: Synopsis>(&self, values: &mut [S], memory: &[u8], node: usize, frame: &[u8]) -> Result<(), Refusal> {
        check_lent(self.count, values, memory)?;
        self.check_node(node)?;
        let mut heard = S::empty();
        heard.decode(frame).map_err(no_frame)?;
        values[node].fuse(&heard);
        Ok(())
    }

    fn send<S: Synopsis>(&mut self, values: &[S], memory: &mut [u8], node: usize, slot: usize) -> Result<(), Refusal> {
        check_lent(self.count, values, memory)?;
        self.check_node(node)?;
        check_slot(slot)?;
        if self.slots[slot].is_some() {
            return refused(7);
        }
        let at = LONGEST * slot;
        let length = values[node].encode(&mut memory[at..at + LONGEST]).unwrap();
        self.slots[slot] = Some(length);
        Ok(())
    }

    fn deliver<S: Synopsis>(&self, values: &mut [S], memory: &[u8], slot: usize, node: usize) -> Result<(), Refusal> {
        check_lent(self.count, values, memory)?;
        check_slot(slot)?;
        self.check_node(node)?;
        let Some(length) = self.slots[slot] else {
            return refused(6);
        };
        let at = LONGEST * slot;
        let mut heard = S::empty();
        heard.decode(&memory[at..at + length]).map_err(no_frame)?;
        values[node].fuse(&heard);
        Ok(())
    }

    fn free<S: Synopsis>(&mut self, values: &[S], memory: &[u8], slot: usize) -> Result<(), Refusal> {
        check_lent(self.count, values, memory)?;
        check_slot(slot)?;
        if self.slots[slot].is_none() {
            return refused(6);
        }
        self.slots[slot] = None;
        Ok(())
    }

    fn read<S: Synopsis>(&self, values: &[S], memory: &[u8], node: usize, out: &mut [u8]) -> Result<usize, Refusal> {
        check_lent(self.count, values, memory)?;
        self.check_node(node)?;
        values[node].encode(out).or(refused(8))
    }
}
// What is measured.

const FRAMES: usize = 64;

// Frame i of frames of one size, or what there is of it.
fn frame_at(frames: &[u8], size: usize, i: usize) -> &[u8] {
    let from = i.saturating_mul(size).min(frames.len());
    let to = from.saturating_add(size).min(frames.len());
    &frames[from..to]
}

fn count_items<S: Synopsis>(items: &[u64], out: &mut [u8]) -> usize {
    let mut value = S::empty();
    for item in items {
        value.fuse(&S::make(Reading::of_item(*item)));
    }
    value.encode(out).unwrap_or(0)
}

fn decode_frames<S: Synopsis>(frames: &[u8], size: usize, count: usize, out: &mut [u8]) -> usize {
    let mut value = S::empty();
    let mut refused = 0;
    for i in 0..count {
        if value.decode(frame_at(frames, size, i)).is_err() {
            refused += 1;
        }
    }
    let _ = value.encode(out);
    refused
}

fn values_of<S: Synopsis>(frames: &[u8], size: usize) -> [S; FRAMES] {
    std::array::from_fn(|i| {
        let mut value = S::empty();
        let _ = value.decode(frame_at(frames, size, i));
        value
    })
}

fn encode_values<S: Synopsis>(frames: &[u8], size: usize, rounds: u64, out: &mut [u8]) {
    let values: [S; FRAMES] = values_of(frames, size);
    for _ in 0..rounds {
        for value in &values {
            let _ = value.encode(out);
        }
    }
}

fn gather_values<S: Synopsis>(frames: &[u8], size: usize, rounds: u64, out: &mut [u8]) {
    let values: [S; FRAMES] = values_of(frames, size);
    let mut all = S::empty();
    for _ in 0..rounds {
        for value in &values {
            all.fuse(value);
        }
    }
    let _ = all.encode(out);
}

fn fuse_values<S: Synopsis>(frames: &[u8], size: usize, rounds: u64, out: &mut [u8]) {
    let values: [S; FRAMES] = values_of(frames, size);
    let (firsts, others) = values.split_at(32);
    let mut made = S::empty();
    for _ in 0..rounds {
        for first in firsts {
            for other in others {
                made.clone_from(first);
                made.fuse(other);
            }
        }
    }
    let _ = made.encode(out);
}

fn number(done: Result<(), Refusal>) -> u64 {
    match done {
        Ok(()) => 0,
        Err(refusal) => refusal.number.into(),
    }
}

fn make_turns<S: Synopsis>(words: &[u64], frames: &[u8], size: usize, memory: &mut [u8], room: &mut [u8]) -> u64 {
    let mut values: [S; 7] = std::array::from_fn(|_| S::empty());
    let mut network = match Network::open(&mut values, memory, 7) {
        Ok(network) => network,
        Err(refusal) => return refusal.number.into(),
    };
    let mut sum: u64 = 0;
    for word in words {
        let node = (word / 16 % 8) as usize;
        let slot = (word / 128 % 64) as usize;
        let rest = word / 8192;
        let told = match word % 16 {
            0..=1 => number(network.generate(&mut values, memory, node, Reading::of_item(rest))),
            2 => {
                let frame = frame_at(frames, size, (rest % 64) as usize);
                number(network.arrive(&mut values, memory, node, frame))
            }
            3..=6 => number(network.send(&values, memory, node, slot)),
            7..=10 => number(network.deliver(&mut values, memory, slot, node)),
            11..=13 => number(network.free(&values, memory, slot)),
            _ => match network.read(&values, memory, node, room) {
                Ok(length) => length as u64,
                Err(refusal) => refusal.number.into(),
            },
        };
        sum = sum.wrapping_mul(31).wrapping_add(told);
    }
    sum
}

// A network with all that it is lent, for scripts.
struct Lent<S> {
    network: Network,
    values: [S; NODES],
    memory: [u8; MEMORY],
    show: fn(&S, &mut [u8]) -> Option<usize>,
}

impl<S: Synopsis> Rack for Lent<S> {
    fn generate(&mut self, node: usize, tenant: u32, item: u64, amount: u64) -> Result<(), Refusal> {
        self.network.generate(&mut self.values, &self.memory, node, Reading { tenant, item, amount })
    }

    fn arrive(&mut self, node: usize, frame: &[u8]) -> Result<(), Refusal> {
        self.network.arrive(&mut self.values, &self.memory, node, frame)
    }

    fn send(&mut self, node: usize, slot: usize) -> Result<(), Refusal> {
        self.network.send(&self.values, &mut self.memory, node, slot)
    }

    fn deliver(&mut self, slot: usize, node: usize) -> Result<(), Refusal> {
        self.network.deliver(&mut self.values, &self.memory, slot, node)
    }

    fn free(&mut self, slot: usize) -> Result<(), Refusal> {
        self.network.free(&self.values, &self.memory, slot)
    }

    fn read(&mut self, node: usize, out: &mut [u8]) -> Result<usize, Refusal> {
        self.network.read(&self.values, &self.memory, node, out)
    }

    fn page(&mut self, node: usize, out: &mut [u8]) -> Result<usize, Refusal> {
        self.network.check_node(node)?;
        (self.show)(&self.values[node], out).ok_or(Refusal { number: 24, at: None })
    }
}

fn no_page<S>(_value: &S, _out: &mut [u8]) -> Option<usize> {
    None
}

fn pile_page(pile: &Pile, out: &mut [u8]) -> Option<usize> {
    Some(page(pile, out))
}

fn open_rack<S: Synopsis + 'static>(
    nodes: usize,
    show: fn(&S, &mut [u8]) -> Option<usize>,
) -> Result<Box<dyn Rack>, Refusal> {
    let mut values = std::array::from_fn(|_| S::empty());
    let memory = [0; MEMORY];
    let network = Network::open(&mut values, &memory, nodes)?;
    Ok(Box::new(Lent { network, values, memory, show }))
}

fn open(kind: u8, nodes: usize) -> Result<Box<dyn Rack>, Refusal> {
    match kind {
        b'b' => open_rack::<Bitmaps>(nodes, no_page),
        b'v' => open_rack::<LeastValues>(nodes, no_page),
        b's' => open_rack::<Sample>(nodes, no_page),
        _ => open_rack::<Pile>(nodes, pile_page),
    }
}

calls!(Bitmaps, LeastValues, Sample, Pile);
