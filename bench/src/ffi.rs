//! The boundary to `libtimed.a`: the C functions of `crates/timed`, which are for this program alone, and a safe call for each. All
//! of the program's `unsafe` is here; each call is sound for the reasons that `host/src/ffi.rs` gives.
#![allow(unsafe_code)]
use core::mem::{offset_of, size_of};

#[repr(C)]
struct GatheredAnswer {
    refusal: u8,
    count: usize,
    mixed: u64,
}

impl GatheredAnswer {
    /// How many, and the exclusive or of all; None where one is refused.
    fn all(self) -> Option<(u64, u64)> {
        (self.refusal == 0).then_some((self.count as u64, self.mixed))
    }
}

#[repr(C)]
struct WriteAnswer {
    refusal: u8,
    len: usize,
}

impl WriteAnswer {
    /// The length of what was written; None where it is refused.
    fn len(self) -> Option<usize> {
        (self.refusal == 0).then_some(self.len)
    }
}

// as `crates/timed` lays them out
const _: () = {
    assert!(size_of::<GatheredAnswer>() == 24 && offset_of!(GatheredAnswer, refusal) == 0);
    assert!(offset_of!(GatheredAnswer, count) == 8 && offset_of!(GatheredAnswer, mixed) == 16);
    assert!(
        size_of::<WriteAnswer>() == 16 && offset_of!(WriteAnswer, refusal) == 0 && offset_of!(WriteAnswer, len) == 8
    );
};

unsafe extern "C" {
    fn guobbarel_timed_read_vars(bytes: *const u8, bytes_len: usize) -> GatheredAnswer;
    fn guobbarel_timed_cut(numbers: *const u64, numbers_len: usize, acked: u64) -> GatheredAnswer;
    fn guobbarel_timed_expand(values: *const u32, values_len: usize, len: usize, expected: u64) -> GatheredAnswer;
    fn guobbarel_timed_reset_stream(
        id: u64,
        error_code: u64,
        final_offset: u64,
        out: *mut u8,
        out_len: usize,
    ) -> WriteAnswer;
    fn guobbarel_timed_stream_meta(
        id: u64,
        start: u64,
        end: u64,
        fin: u8,
        has_length: u8,
        out: *mut u8,
        out_len: usize,
    ) -> WriteAnswer;
    fn guobbarel_timed_crypto(
        offset: u64,
        data: *const u8,
        data_len: usize,
        out: *mut u8,
        out_len: usize,
    ) -> WriteAnswer;
    fn guobbarel_timed_new_connection_id(
        sequence: u64,
        retire_prior_to: u64,
        id: *const [u8; 20],
        id_len: u8,
        reset_token: *const [u8; 16],
        out: *mut u8,
        out_len: usize,
    ) -> WriteAnswer;
    fn guobbarel_timed_connection_close(
        error_code: u64,
        frame_type: u64,
        reason: *const u8,
        reason_len: usize,
        max_len: usize,
        out: *mut u8,
        out_len: usize,
    ) -> WriteAnswer;
    fn guobbarel_timed_ack(
        delay: u64,
        ranges: *const u64,
        ranges_len: usize,
        out: *mut u8,
        out_len: usize,
    ) -> WriteAnswer;
    fn guobbarel_timed_dump(datagram: *const u8, datagram_len: usize, out: *mut u8, out_len: usize) -> WriteAnswer;
}

/// The integers of a slice.
pub fn read_vars(bytes: &[u8]) -> Option<(u64, u64)> {
    unsafe { guobbarel_timed_read_vars(bytes.as_ptr(), bytes.len()) }.all()
}

/// Numbers cut by the largest acknowledged, each with its length above its four bytes.
pub fn cut(numbers: &[u64], acked: u64) -> Option<(u64, u64)> {
    unsafe { guobbarel_timed_cut(numbers.as_ptr(), numbers.len(), acked) }.all()
}

/// The full numbers of cut ones of `len` bytes.
pub fn expand(values: &[u32], len: usize, expected: u64) -> Option<(u64, u64)> {
    unsafe { guobbarel_timed_expand(values.as_ptr(), values.len(), len, expected) }.all()
}

pub fn reset_stream(id: u64, error_code: u64, final_offset: u64, out: &mut [u8]) -> Option<usize> {
    unsafe { guobbarel_timed_reset_stream(id, error_code, final_offset, out.as_mut_ptr(), out.len()) }.len()
}

pub fn stream_meta(id: u64, start: u64, end: u64, fin: bool, has_length: bool, out: &mut [u8]) -> Option<usize> {
    let (fin, has_length) = (fin.into(), has_length.into());
    unsafe { guobbarel_timed_stream_meta(id, start, end, fin, has_length, out.as_mut_ptr(), out.len()) }.len()
}

pub fn crypto(offset: u64, data: &[u8], out: &mut [u8]) -> Option<usize> {
    unsafe { guobbarel_timed_crypto(offset, data.as_ptr(), data.len(), out.as_mut_ptr(), out.len()) }.len()
}

pub fn new_connection_id(
    sequence: u64,
    retire_prior_to: u64,
    id: &[u8; 20],
    id_len: u8,
    reset_token: &[u8; 16],
    out: &mut [u8],
) -> Option<usize> {
    unsafe {
        guobbarel_timed_new_connection_id(
            sequence,
            retire_prior_to,
            id,
            id_len,
            reset_token,
            out.as_mut_ptr(),
            out.len(),
        )
    }
    .len()
}

pub fn connection_close(
    error_code: u64,
    frame_type: u64,
    reason: &[u8],
    max_len: usize,
    out: &mut [u8],
) -> Option<usize> {
    unsafe {
        guobbarel_timed_connection_close(
            error_code,
            frame_type,
            reason.as_ptr(),
            reason.len(),
            max_len,
            out.as_mut_ptr(),
            out.len(),
        )
    }
    .len()
}

/// The ranges are starts and ends, ascending, each end past its range.
pub fn ack(delay: u64, ranges: &[u64], out: &mut [u8]) -> Option<usize> {
    unsafe { guobbarel_timed_ack(delay, ranges.as_ptr(), ranges.len(), out.as_mut_ptr(), out.len()) }.len()
}

/// Needs 4 bytes for each of the datagram's, and 64 more.
pub fn dump(datagram: &[u8], out: &mut [u8]) -> Option<usize> {
    unsafe { guobbarel_timed_dump(datagram.as_ptr(), datagram.len(), out.as_mut_ptr(), out.len()) }.len()
}
