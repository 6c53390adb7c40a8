//! The proved library, by the exports of `crates/bench_calls`. A slice crosses as a pointer and then a length.
// The exports; `crates/bench_calls/src/lib.rt` says what each does.
mod calls {
    unsafe extern "C" {
        /// What `count` calls.
        pub fn bench_count(kind: u32, items: *const u64, items_len: usize, out: *mut u8, out_len: usize) -> usize;
        /// What `decode` calls.
        pub fn bench_decode(
            kind: u32,
            frames: *const u8,
            frames_len: usize,
            size: usize,
            count: usize,
            out: *mut u8,
            out_len: usize,
        ) -> usize;
        /// What `encode` calls.
        pub fn bench_encode(
            kind: u32,
            frames: *const u8,
            frames_len: usize,
            size: usize,
            rounds: u64,
            out: *mut u8,
            out_len: usize,
        );
        /// What `gather` calls.
        pub fn bench_gather(
            kind: u32,
            frames: *const u8,
            frames_len: usize,
            size: usize,
            rounds: u64,
            out: *mut u8,
            out_len: usize,
        );
        /// What `fuse` calls.
        pub fn bench_fuse(
            kind: u32,
            frames: *const u8,
            frames_len: usize,
            size: usize,
            rounds: u64,
            out: *mut u8,
            out_len: usize,
        );
        /// What `turns` calls.
        pub fn bench_turns(
            kind: u32,
            words: *const u64,
            words_len: usize,
            frames: *const u8,
            frames_len: usize,
            size: usize,
            memory: *mut u8,
            memory_len: usize,
            room: *mut u8,
            room_len: usize,
        ) -> u64;
        /// What `replay` calls.
        pub fn bench_replay(script: *const u8, script_len: usize, out: *mut u8, out_len: usize) -> usize;
    }
}

/// Counts a reading for each item, and writes the encoding; its length in bytes, or 0 where `out` is too short.
pub fn count(kind: u32, items: &[u64], out: &mut [u8]) -> usize {
    unsafe { calls::bench_count(kind, items.as_ptr(), items.len(), out.as_mut_ptr(), out.len()) }
}

/// Lets one value take `count` frames of `size` bytes each, and writes its encoding; how many were refused.
pub fn decode(kind: u32, frames: &[u8], size: usize, count: usize, out: &mut [u8]) -> usize {
    unsafe { calls::bench_decode(kind, frames.as_ptr(), frames.len(), size, count, out.as_mut_ptr(), out.len()) }
}

/// Reads 64 frames, and `rounds` times over writes the encoding of each value.
pub fn encode(kind: u32, frames: &[u8], size: usize, rounds: u64, out: &mut [u8]) {
    unsafe { calls::bench_encode(kind, frames.as_ptr(), frames.len(), size, rounds, out.as_mut_ptr(), out.len()) }
}

/// Reads 64 frames, and `rounds` times over joins each value into one; writes the encoding of that.
pub fn gather(kind: u32, frames: &[u8], size: usize, rounds: u64, out: &mut [u8]) {
    unsafe { calls::bench_gather(kind, frames.as_ptr(), frames.len(), size, rounds, out.as_mut_ptr(), out.len()) }
}

/// Reads 64 frames, and `rounds` times over joins to a copy of each of the first 32 values each of the last 32 in turn;
/// writes the encoding of the last one made.
pub fn fuse(kind: u32, frames: &[u8], size: usize, rounds: u64, out: &mut [u8]) {
    unsafe { calls::bench_fuse(kind, frames.as_ptr(), frames.len(), size, rounds, out.as_mut_ptr(), out.len()) }
}

/// Opens a network of seven nodes, and makes a turn for each word; the sum of the answers.
pub fn turns(kind: u32, words: &[u64], frames: &[u8], size: usize, memory: &mut [u8], room: &mut [u8]) -> u64 {
    unsafe {
        calls::bench_turns(
            kind,
            words.as_ptr(),
            words.len(),
            frames.as_ptr(),
            frames.len(),
            size,
            memory.as_mut_ptr(),
            memory.len(),
            room.as_mut_ptr(),
            room.len(),
        )
    }
}

/// Replays a script, and writes what is printed; how many bytes that is, or `usize::MAX`, as where they are too many.
pub fn replay(script: &[u8], out: &mut [u8]) -> usize {
    unsafe { calls::bench_replay(script.as_ptr(), script.len(), out.as_mut_ptr(), out.len()) }
}
