//! The blocks of the archive's code that were run. The archive has no counters: a break point stands at the start of each block
//! until it is first run, which then counts, and the byte that stood there is put back.
#![allow(unsafe_code)]
use libc::{PROT_EXEC, PROT_READ, PROT_WRITE, REG_RIP, SA_SIGINFO, SIGTRAP, c_int, c_void, siginfo_t, ucontext_t};
use std::io::{Error, Result};
use std::sync::OnceLock;
use std::sync::atomic::{AtomicBool, AtomicU8, Ordering};

/// The most blocks that are watched.
const MOST: usize = 1 << 12;
/// The instruction of a break point, and a page of memory.
const BREAK: u8 = 0xcc;
const PAGE: usize = 4096;

/// As in seen.rs; a block counts only for the first input that runs it.
#[used]
#[unsafe(link_section = "__libfuzzer_extra_counters")]
static COUNTERS: [AtomicU8; MOST] = [const { AtomicU8::new(0) }; MOST];

struct Block {
    at: usize,
    first: u8,
    was_run: AtomicBool,
}

/// By their places.
static BLOCKS: OnceLock<Vec<Block>> = OnceLock::new();

unsafe extern "C" {
    /// Where the program lies; the linker sets it.
    static __executable_start: u8;
}

fn base() -> usize {
    (&raw const __executable_start).addr()
}

/// Watches the blocks of a list: a line each, hex, its place in the program and its first byte.
pub fn watch(list: &str) -> Result<()> {
    let bad = |text: &str| Error::other(format!("the list of blocks: {text}"));
    let block = |line: &str| {
        let (at, first) = line.split_once(' ')?;
        let (at, first) = (usize::from_str_radix(at, 16).ok()?, u8::from_str_radix(first, 16).ok()?);
        Some(Block { at: base() + at, first, was_run: AtomicBool::new(false) })
    };
    let blocks: Option<Vec<Block>> = list.lines().map(block).collect();
    let blocks = BLOCKS.get_or_init(|| blocks.unwrap_or_default());
    let ([start, ..], [.., end]) = (&blocks[..], &blocks[..]) else { return Err(bad("it cannot be read")) };
    if blocks.len() > MOST || !blocks.is_sorted_by(|a, b| a.at < b.at) {
        return Err(bad("too long, or not sorted"));
    }
    let start = start.at / PAGE * PAGE;
    open(start, end.at + 1 - start)?;
    // Sound: the pages from the first to the last block are mapped and may be read and written. Nothing else runs in this process,
    // and each block's first byte starts an instruction, so that what is changed is no more than the break point says.
    unsafe {
        if blocks.iter().any(|block| (block.at as *const u8).read_volatile() != block.first) {
            return Err(bad("it is of another program"));
        }
        blocks.iter().for_each(|block| (block.at as *mut u8).write_volatile(BREAK));
    }
    Ok(())
}

/// Has break points come to `on_break`, and makes so many bytes of code from a page on writable.
fn open(start: usize, len: usize) -> Result<()> {
    // Sound: the structure is plain data, all 0 is one of its values, and the handler has the type that SA_SIGINFO asks for. The
    // pages are of this program's code, and stay readable and executable.
    let failed = unsafe {
        let mut action: libc::sigaction = std::mem::zeroed();
        action.sa_sigaction = on_break as *const () as usize;
        action.sa_flags = SA_SIGINFO;
        libc::sigaction(SIGTRAP, &action, std::ptr::null_mut()) != 0
            || libc::mprotect(start as *mut c_void, len, PROT_READ | PROT_WRITE | PROT_EXEC) != 0
    };
    if failed { Err(Error::last_os_error()) } else { Ok(()) }
}

extern "C" fn on_break(_: c_int, _: *mut siginfo_t, context: *mut c_void) {
    // Sound: the kernel hands the handler the context of what it stopped, which nothing else looks at.
    let context = unsafe { &mut *context.cast::<ucontext_t>() };
    let next = &mut context.uc_mcontext.gregs[REG_RIP as usize];
    let at = *next as usize - 1;
    let blocks = BLOCKS.get().map_or(&[][..], Vec::as_slice);
    let Ok(found) = blocks.binary_search_by_key(&at, |block| block.at) else { std::process::abort() };
    // Sound: `watch` made the page writable and put the break point here.
    unsafe { (at as *mut u8).write_volatile(blocks[found].first) };
    blocks[found].was_run.store(true, Ordering::Relaxed);
    COUNTERS[found].store(1, Ordering::Relaxed);
    *next -= 1;
}

/// The places of the blocks that were run, a line each.
pub fn counts() -> String {
    let run = BLOCKS.get().into_iter().flatten().filter(|block| block.was_run.load(Ordering::Relaxed));
    run.map(|block| format!("block\t{:x}\n", block.at - base())).collect()
}
