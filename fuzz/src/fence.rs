//! Bytes to lend, behind the last of which nothing may be touched: reading or writing there is a crash.
#![allow(unsafe_code)]
use libc::{MAP_ANONYMOUS, MAP_FAILED, MAP_PRIVATE, PROT_NONE, PROT_READ, PROT_WRITE, mmap, mprotect};
use std::io::{Error, Result};
use std::ptr::null_mut;

/// The bytes of a fence, more than any case has, and of the page behind them.
const SIZE: usize = 1 << 17;
const PAGE: usize = 4096;

/// A region of memory that ends where a page starts that may not be touched. It is never given back.
pub struct Fence<T: 'static>(&'static mut [T]);

impl<T: Copy> Fence<T> {
    /// A copy that ends with the region.
    pub fn lend(&mut self, values: &[T]) -> &mut [T] {
        let start = self.0.len() - values.len();
        self.0[start..].copy_from_slice(values);
        &mut self.0[start..]
    }
}

impl Fence<u8> {
    pub fn of_bytes() -> Result<Self> {
        // Sound: the region has so many bytes, all 0, and nothing else has it.
        Ok(Self(unsafe { std::slice::from_raw_parts_mut(region()?, SIZE) }))
    }
}

impl Fence<u32> {
    pub fn of_numbers() -> Result<Self> {
        // Sound: as above, and a page is aligned for every number.
        Ok(Self(unsafe { std::slice::from_raw_parts_mut(region()?.cast(), SIZE / size_of::<u32>()) }))
    }
}

fn region() -> Result<*mut u8> {
    // Sound: new pages at no fixed place, and the last of them closed again.
    unsafe {
        let start = mmap(null_mut(), SIZE + PAGE, PROT_READ | PROT_WRITE, MAP_PRIVATE | MAP_ANONYMOUS, -1, 0);
        if start == MAP_FAILED || mprotect(start.byte_add(SIZE), PAGE, PROT_NONE) != 0 {
            return Err(Error::last_os_error());
        }
        Ok(start.cast())
    }
}
