//! The calls that are compared and measured, for an implementation that names its four kinds.

// A function over any kind, at the kind of a number.
macro_rules! by_kind {
    ($kind:ident, [$bitmaps:ty, $least:ty, $sample:ty, $pile:ty], $call:ident($($argument:expr),*)) => {
        match $kind {
            1 => $call::<$bitmaps>($($argument),*),
            2 => $call::<$least>($($argument),*),
            3 => $call::<$sample>($($argument),*),
            _ => $call::<$pile>($($argument),*),
        }
    };
}

/// Makes the calls of an implementation, of its bitmaps, least values, sample and pile, from its functions over any kind.
macro_rules! calls {
    ($bitmaps:ty, $least:ty, $sample:ty, $pile:ty) => {
        /// Counts a reading for each item, and writes the encoding; its length in bytes, or 0 where `out` is too short.
        #[inline(never)]
        pub fn count(kind: u32, items: &[u64], out: &mut [u8]) -> usize {
            by_kind!(kind, [$bitmaps, $least, $sample, $pile], count_items(items, out))
        }

        /// Lets one value take `count` frames of `size` bytes each, and writes its encoding; how many were refused.
        #[inline(never)]
        pub fn decode(kind: u32, frames: &[u8], size: usize, count: usize, out: &mut [u8]) -> usize {
            by_kind!(kind, [$bitmaps, $least, $sample, $pile], decode_frames(frames, size, count, out))
        }

        /// Reads 64 frames, and `rounds` times over writes the encoding of each value.
        #[inline(never)]
        pub fn encode(kind: u32, frames: &[u8], size: usize, rounds: u64, out: &mut [u8]) {
            by_kind!(kind, [$bitmaps, $least, $sample, $pile], encode_values(frames, size, rounds, out))
        }

        /// Reads 64 frames, and `rounds` times over joins each value into one; writes the encoding of that.
        #[inline(never)]
        pub fn gather(kind: u32, frames: &[u8], size: usize, rounds: u64, out: &mut [u8]) {
            by_kind!(kind, [$bitmaps, $least, $sample, $pile], gather_values(frames, size, rounds, out))
        }

        /// Reads 64 frames, and `rounds` times over joins to a copy of each of the first 32 values each of the last 32 in turn;
        /// writes the encoding of the last one made.
        #[inline(never)]
        pub fn fuse(kind: u32, frames: &[u8], size: usize, rounds: u64, out: &mut [u8]) {
            by_kind!(kind, [$bitmaps, $least, $sample, $pile], fuse_values(frames, size, rounds, out))
        }

        /// Opens a network of seven nodes, and makes a turn for each word; the sum of the answers.
        #[inline(never)]
        pub fn turns(kind: u32, words: &[u64], frames: &[u8], size: usize, memory: &mut [u8], room: &mut [u8]) -> u64 {
            by_kind!(kind, [$bitmaps, $least, $sample, $pile], make_turns(words, frames, size, memory, room))
        }

        /// Replays a script, and writes what is printed; how many bytes that is.
        #[inline(never)]
        pub fn replay(script: &[u8], out: &mut [u8]) -> usize {
            script::replay(script, open, out)
        }
    };
}
