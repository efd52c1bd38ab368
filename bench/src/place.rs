//! Where bytes stand. A load waits for a store whose address agrees with its own in the low twelve bits. So what is written, what
//! is read for it and the stack are kept apart within a page, on both sides alike: where an allocator puts things is no one's merit.
use std::hint::black_box;

const PAGE: usize = 4096;
/// Bytes that are written or read start where a line of the cache does.
const LINE: usize = 64;
/// How far past the stack, within a page, bytes are written, and how far those stand that are read for it.
const WRITTEN: usize = 1024;
const READ: usize = 2560;

/// How far past the start of a page the stack stands, to a line.
fn stack() -> usize {
    let here = 0u8;
    black_box(&raw const here).addr() % PAGE / LINE * LINE
}

/// How many of these bytes to leave out, less than a page, to be so far past the stack.
fn skip(bytes: *const u8, past: usize) -> usize {
    (stack() + past).wrapping_sub(bytes.addr()) % PAGE
}

/// Room for ours to write into.
pub struct Room {
    bytes: Vec<u8>,
    start: usize,
}

impl Room {
    pub fn new(len: usize) -> Self {
        let bytes = vec![0; len + PAGE];
        let start = skip(bytes.as_ptr(), WRITTEN);
        Self { bytes, start }
    }

    pub fn bytes(&mut self) -> &mut [u8] {
        &mut self.bytes[self.start..]
    }
}

/// A Vec for the Rust to append to.
pub struct Appended {
    bytes: Vec<u8>,
    start: usize,
}

impl Appended {
    pub fn new(room: usize) -> Self {
        let mut bytes = Vec::with_capacity(room + PAGE);
        let start = skip(bytes.as_ptr(), WRITTEN);
        bytes.resize(start, 0);
        Self { bytes, start }
    }

    /// With nothing appended yet.
    pub fn empty(&mut self) -> &mut Vec<u8> {
        self.bytes.truncate(self.start);
        &mut self.bytes
    }

    /// What was appended.
    pub fn bytes(&self) -> &[u8] {
        &self.bytes[self.start..]
    }
}

#[repr(align(4096))]
struct Pages([u8; 2 * PAGE]);
static CARRIED: Pages = Pages([0x5a; 2 * PAGE]);

/// Bytes for a frame to carry, at most a page of them: the same for both sides.
pub fn carried(len: usize) -> &'static [u8] {
    let start = skip(CARRIED.0.as_ptr(), READ);
    &CARRIED.0[start..start + len]
}
