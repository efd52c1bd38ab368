//! The boundary to libFuzzer's runtime, which is C++.
#![allow(unsafe_code)]
use crate::asker::Asker;
use crate::{blocks, mutate};
use std::ffi::{CString, c_char, c_int, c_uint};
use std::sync::{Mutex, OnceLock};

static ASKER: OnceLock<Mutex<Asker>> = OnceLock::new();

type Callback = extern "C" fn(*const u8, usize) -> c_int;

unsafe extern "C" {
    fn LLVMFuzzerRunDriver(argc: *mut c_int, argv: *mut *mut *mut c_char, callback: Callback) -> c_int;
    fn LLVMFuzzerMutate(data: *mut u8, size: usize, max_size: usize) -> usize;
}

/// Runs libFuzzer with its own words. It ends the process.
pub fn run(asker: Asker, words: &[String]) -> c_int {
    ASKER.get_or_init(|| Mutex::new(asker));
    let words: Vec<CString> = words.iter().filter_map(|word| CString::new(word.as_str()).ok()).collect();
    let mut pointers: Vec<*mut c_char> = words.iter().map(|word| word.as_ptr().cast_mut()).collect();
    let mut argc = pointers.len() as c_int;
    pointers.push(std::ptr::null_mut());
    let mut argv = pointers.as_mut_ptr();
    // Sound: as a C main is called, with words that live until the process ends; the callbacks match their types.
    unsafe {
        // Rust's own handlers stand in the way of libFuzzer's, which keep the input.
        libc::signal(libc::SIGSEGV, libc::SIG_DFL);
        libc::signal(libc::SIGBUS, libc::SIG_DFL);
        libc::atexit(at_exit);
        LLVMFuzzerRunDriver(&mut argc, &mut argv, one_input)
    }
}

extern "C" fn one_input(data: *const u8, size: usize) -> c_int {
    // Sound: libFuzzer hands out `size` bytes that nothing changes during the call.
    let input = if size == 0 { &[] } else { unsafe { std::slice::from_raw_parts(data, size) } };
    let mut asker = ASKER.get().expect("run sets it").lock().expect("no input panics");
    if let Some(fault) = asker.input(input) {
        eprintln!("{fault}");
        print!("{}{}", asker.counts(), blocks::counts());
        std::process::abort(); // libFuzzer keeps the input
    }
    0
}

/// By this name libFuzzer finds it: changes an input where it stands, and answers its new length.
#[unsafe(no_mangle)]
extern "C" fn LLVMFuzzerCustomMutator(data: *mut u8, size: usize, max_size: usize, seed: c_uint) -> usize {
    // Sound: libFuzzer lends a buffer of `max_size` bytes, of which `size` are set, and its own mutator keeps to the same rule.
    let buffer = unsafe { std::slice::from_raw_parts_mut(data, max_size) };
    mutate::mutate(buffer, seed.into(), |buffer| unsafe { LLVMFuzzerMutate(buffer.as_mut_ptr(), size, buffer.len()) })
}

extern "C" fn at_exit() {
    if let Some(Ok(asker)) = ASKER.get().map(Mutex::lock) {
        print!("{}{}", asker.counts(), blocks::counts());
    }
}
