//! The boundary: the C functions of `include/guobbarel.h`, and a safe call for each. All of the crate's `unsafe` is here.
//!
//! Each call is sound because a Rust slice is a valid pointer for its length (one of no bytes is not looked at), aligned for
//! its element, and a `&mut` slice overlaps no other; and because every function of the archive is proved to stay inside what it
//! is lent, for all arguments.
#![allow(unsafe_code)]
use core::mem::{offset_of, size_of};
use core::ops::Range;

/// `guobbarel_span`
#[repr(C)]
#[derive(Clone, Copy)]
pub(crate) struct Span {
    start: usize,
    len: usize,
}

impl Span {
    /// The places that it names.
    pub(crate) fn range(self) -> Range<usize> {
        self.start..self.start + self.len
    }

    /// The part of a slice that it names; empty where it does not lie inside, which no answer does.
    pub(crate) fn of(self, bytes: &[u8]) -> &[u8] {
        bytes.get(self.range()).unwrap_or(&[])
    }
}

/// `guobbarel_split_answer`
#[repr(C)]
pub(crate) struct SplitAnswer {
    pub(crate) refusal: u8,
    pub(crate) kind: u8,
    pub(crate) spin: u8,
    pub(crate) random: u8,
    pub(crate) version: u32,
    pub(crate) packet: Span,
    pub(crate) number_offset: usize,
    pub(crate) length: u64,
    pub(crate) token: Span,
    pub(crate) dst_cid: Span,
    pub(crate) src_cid: Span,
}

/// `guobbarel_sample_answer`
#[repr(C)]
pub(crate) struct SampleAnswer {
    pub(crate) refusal: u8,
    pub(crate) sample: Span,
}

/// `guobbarel_unmask_answer`
#[repr(C)]
pub(crate) struct UnmaskAnswer {
    pub(crate) refusal: u8,
    pub(crate) reserved_clear: u8,
    pub(crate) key_phase: u8,
    pub(crate) number_value: u32,
    pub(crate) number_len: usize,
    pub(crate) header: Span,
    pub(crate) payload: Span,
}

/// `guobbarel_frame_value`
#[repr(C)]
pub(crate) struct FrameValue {
    pub(crate) kind: u8,
    pub(crate) number: u64,
    pub(crate) place: Span,
}

/// `guobbarel_frame_answer`
#[repr(C)]
pub(crate) struct FrameAnswer {
    pub(crate) refusal: u8,
    pub(crate) found: u8,
    pub(crate) has_type: u8,
    pub(crate) start: usize,
    pub(crate) next: usize,
    pub(crate) frame_type: u64,
    pub(crate) name: u64,
    pub(crate) value: [FrameValue; 6],
}

/// `guobbarel_number_ends`
#[repr(C)]
#[derive(Clone, Copy, Debug, PartialEq, Eq, Hash)]
pub(crate) struct NumberEnds {
    pub(crate) next: u64,
    pub(crate) acked: u64,
    pub(crate) largest: u64,
    pub(crate) has_acked: u8,
    pub(crate) has_largest: u8,
}

/// `guobbarel_number_spaces`
#[repr(C)]
#[derive(Clone, Copy, Debug, PartialEq, Eq, Hash)]
pub(crate) struct NumberSpaces {
    pub(crate) initial: NumberEnds,
    pub(crate) handshake: NumberEnds,
    pub(crate) data: NumberEnds,
}

/// `guobbarel_number_answer`
#[repr(C)]
pub(crate) struct NumberAnswer {
    pub(crate) refusal: u8,
    pub(crate) number_value: u32,
    pub(crate) number_len: usize,
    pub(crate) number: u64,
    pub(crate) spaces: NumberSpaces,
}

/// `guobbarel_header`
#[repr(C)]
#[derive(Clone, Copy, Debug, PartialEq, Eq)]
pub(crate) struct HeaderGiven {
    pub(crate) kind: u8,
    pub(crate) spin: u8,
    pub(crate) key_phase: u8,
    pub(crate) random: u8,
    pub(crate) version: u32,
    pub(crate) number_value: u32,
    pub(crate) number_len: usize,
}

/// `guobbarel_header_answer`
#[repr(C)]
pub(crate) struct HeaderAnswer {
    pub(crate) refusal: u8,
    pub(crate) has_length: u8,
    pub(crate) header_len: usize,
    pub(crate) number_len: usize,
}

/// Holds a record to its layout, or it does not compile: its bytes, and of each field, of which none may be left out, the place and
/// the bytes. The numbers are those of include/guobbarel.h; tests/layout.rs derives them from the Rattle records.
macro_rules! layout {
    ($record:ident $size:literal: $($field:ident $place:literal $bytes:literal),*) => {
        const _: () = {
            let _all = |x: $record| { let $record { $($field: _),* } = x; };
            assert!(size_of::<$record>() == $size);
            $(assert!(offset_of!($record, $field) == $place && bytes_of(|x: &$record| &x.$field) == $bytes);)*
        };
    };
}

const fn bytes_of<R, F>(_: fn(&R) -> &F) -> usize {
    size_of::<F>()
}

layout!(Span 16: start 0 8, len 8 8);
layout!(SplitAnswer 88: refusal 0 1, kind 1 1, spin 2 1, random 3 1, version 4 4, packet 8 16, number_offset 24 8, length 32 8,
    token 40 16, dst_cid 56 16, src_cid 72 16);
layout!(SampleAnswer 24: refusal 0 1, sample 8 16);
layout!(UnmaskAnswer 48: refusal 0 1, reserved_clear 1 1, key_phase 2 1, number_value 4 4, number_len 8 8, header 16 16,
    payload 32 16);
layout!(FrameValue 32: kind 0 1, number 8 8, place 16 16);
layout!(FrameAnswer 232: refusal 0 1, found 1 1, has_type 2 1, start 8 8, next 16 8, frame_type 24 8, name 32 8,
    value 40 192);
layout!(NumberEnds 32: next 0 8, acked 8 8, largest 16 8, has_acked 24 1, has_largest 25 1);
layout!(NumberSpaces 96: initial 0 32, handshake 32 32, data 64 32);
layout!(NumberAnswer 120: refusal 0 1, number_value 4 4, number_len 8 8, number 16 8, spaces 24 96);
layout!(HeaderGiven 24: kind 0 1, spin 1 1, key_phase 2 1, random 3 1, version 4 4, number_value 8 4, number_len 16 8);
layout!(HeaderAnswer 24: refusal 0 1, has_length 1 1, header_len 8 8, number_len 16 8);

unsafe extern "C" {
    fn guobbarel_split(
        datagram: *const u8,
        datagram_len: usize,
        at: usize,
        local_cid_len: usize,
        versions: *const u32,
        versions_len: usize,
        grease: u8,
    ) -> SplitAnswer;
    fn guobbarel_sample_place(kind: u8, packet: *const u8, packet_len: usize, number_offset: usize) -> SampleAnswer;
    fn guobbarel_unmask(
        kind: u8,
        packet: *mut u8,
        packet_len: usize,
        number_offset: usize,
        mask: *const u8,
        mask_len: usize,
    ) -> UnmaskAnswer;
    fn guobbarel_frame_read(payload: *const u8, payload_len: usize, at: usize) -> FrameAnswer;
    fn guobbarel_number_step(
        step: u8,
        kind: u8,
        spaces: NumberSpaces,
        number: u64,
        number_len: usize,
        number_value: u32,
    ) -> NumberAnswer;
    fn guobbarel_header_write(
        header: HeaderGiven,
        dst_cid: *const u8,
        dst_cid_len: usize,
        src_cid: *const u8,
        src_cid_len: usize,
        token: *const u8,
        token_len: usize,
        payload_len: usize,
        out: *mut u8,
        out_len: usize,
    ) -> HeaderAnswer;
    fn guobbarel_mask(
        header_len: usize,
        number_len: usize,
        has_length: u8,
        packet: *mut u8,
        packet_len: usize,
        mask: *const u8,
        mask_len: usize,
    ) -> u8;
}

pub(crate) fn split(datagram: &[u8], at: usize, local_cid_len: usize, versions: &[u32], grease: u8) -> SplitAnswer {
    unsafe {
        guobbarel_split(datagram.as_ptr(), datagram.len(), at, local_cid_len, versions.as_ptr(), versions.len(), grease)
    }
}

pub(crate) fn sample_place(kind: u8, packet: &[u8], number_offset: usize) -> SampleAnswer {
    unsafe { guobbarel_sample_place(kind, packet.as_ptr(), packet.len(), number_offset) }
}

pub(crate) fn unmask(kind: u8, packet: &mut [u8], number_offset: usize, mask: &[u8]) -> UnmaskAnswer {
    unsafe { guobbarel_unmask(kind, packet.as_mut_ptr(), packet.len(), number_offset, mask.as_ptr(), mask.len()) }
}

pub(crate) fn frame_read(payload: &[u8], at: usize) -> FrameAnswer {
    unsafe { guobbarel_frame_read(payload.as_ptr(), payload.len(), at) }
}

pub(crate) fn number_step(
    step: u8,
    kind: u8,
    spaces: NumberSpaces,
    number: u64,
    number_len: usize,
    number_value: u32,
) -> NumberAnswer {
    unsafe { guobbarel_number_step(step, kind, spaces, number, number_len, number_value) }
}

pub(crate) fn header_write(
    header: HeaderGiven,
    dst_cid: &[u8],
    src_cid: &[u8],
    token: &[u8],
    payload_len: usize,
    out: &mut [u8],
) -> HeaderAnswer {
    unsafe {
        guobbarel_header_write(
            header,
            dst_cid.as_ptr(),
            dst_cid.len(),
            src_cid.as_ptr(),
            src_cid.len(),
            token.as_ptr(),
            token.len(),
            payload_len,
            out.as_mut_ptr(),
            out.len(),
        )
    }
}

pub(crate) fn mask(header_len: usize, number_len: usize, has_length: u8, packet: &mut [u8], mask: &[u8]) -> u8 {
    unsafe {
        guobbarel_mask(header_len, number_len, has_length, packet.as_mut_ptr(), packet.len(), mask.as_ptr(), mask.len())
    }
}
