//! The calls of `include/hamvukile.h`, with slices for pointers and lengths. They answer as they do through C.

use crate::ffi::{
    self, Answer, Checked, Decoder, Found, Line, Listed, Named, Replacing, Reply, Written,
};

#[inline]
pub fn version() -> u32 {
    // SAFETY: the call reads nothing.
    unsafe { ffi::hamvukile_version() }
}

#[inline]
pub fn label(bytes: &[u8]) -> Found {
    // SAFETY: the slice is valid for its length.
    unsafe { ffi::hamvukile_label(bytes.as_ptr(), bytes.len()) }
}

#[inline]
pub fn name(encoding: u8, room: &mut [u8]) -> Named {
    // SAFETY: the slice is valid for its length.
    unsafe { ffi::hamvukile_name(encoding, room.as_mut_ptr(), room.len()) }
}

#[inline]
pub fn first_index_name(encoding: u8, room: &mut [u8]) -> Named {
    // SAFETY: the slice is valid for its length.
    unsafe { ffi::hamvukile_first_index_name(encoding, room.as_mut_ptr(), room.len()) }
}

#[inline]
pub fn second_index_name(encoding: u8, room: &mut [u8]) -> Named {
    // SAFETY: the slice is valid for its length.
    unsafe { ffi::hamvukile_second_index_name(encoding, room.as_mut_ptr(), room.len()) }
}

#[inline]
pub fn index_line(line: &[u8], table: &mut [u32]) -> Line {
    // SAFETY: each slice is valid for its length; the table, borrowed mutably, does not overlap the line.
    unsafe { ffi::hamvukile_index_line(line.as_ptr(), line.len(), table.as_mut_ptr(), table.len()) }
}

#[inline]
pub fn index_size(cells: usize) -> usize {
    // SAFETY: the call reads a number only.
    unsafe { ffi::hamvukile_index_size(cells) }
}

#[inline]
pub fn build_index(encoding: u8, first: &[u32], index: &mut [u32]) -> u8 {
    // SAFETY: each slice is valid for its length; the index, borrowed mutably, does not overlap the table.
    unsafe {
        ffi::hamvukile_build_index(
            encoding,
            first.as_ptr(),
            first.len(),
            index.as_mut_ptr(),
            index.len(),
        )
    }
}

#[inline]
pub fn index_line_indexed(line: &[u8], table: &mut [u32], index: &mut [u32]) -> Line {
    // SAFETY: each slice is valid for its length; table and index, borrowed mutably, overlap no other.
    unsafe {
        ffi::hamvukile_index_line_indexed(
            line.as_ptr(),
            line.len(),
            table.as_mut_ptr(),
            table.len(),
            index.as_mut_ptr(),
            index.len(),
        )
    }
}

#[inline]
pub fn open(encoding: u8, mode: u8, rule: u8) -> Answer {
    // SAFETY: the call reads numbers only.
    unsafe { ffi::hamvukile_open(encoding, mode, rule) }
}

#[inline]
pub fn feed(
    decoder: Decoder,
    chunk: &[u8],
    first: &[u32],
    second: &[u32],
    room: &mut [u32],
) -> Answer {
    // SAFETY: each slice is valid for its length; the room, borrowed mutably, overlaps no other.
    unsafe {
        ffi::hamvukile_feed(
            decoder,
            chunk.as_ptr(),
            chunk.len(),
            first.as_ptr(),
            first.len(),
            second.as_ptr(),
            second.len(),
            room.as_mut_ptr(),
            room.len(),
        )
    }
}

#[inline]
pub fn finish(decoder: Decoder, first: &[u32], second: &[u32], room: &mut [u32]) -> Answer {
    // SAFETY: each slice is valid for its length; the room, borrowed mutably, overlaps no other.
    unsafe {
        ffi::hamvukile_finish(
            decoder,
            first.as_ptr(),
            first.len(),
            second.as_ptr(),
            second.len(),
            room.as_mut_ptr(),
            room.len(),
        )
    }
}

#[inline]
pub fn feed_replaced(
    decoder: Decoder,
    chunk: &[u8],
    first: &[u32],
    second: &[u32],
    room: &mut [u32],
    spans: &mut [u32],
) -> Replacing {
    // SAFETY: each slice is valid for its length; room and spans, borrowed mutably, overlap nothing.
    unsafe {
        ffi::hamvukile_feed_replaced(
            decoder,
            chunk.as_ptr(),
            chunk.len(),
            first.as_ptr(),
            first.len(),
            second.as_ptr(),
            second.len(),
            room.as_mut_ptr(),
            room.len(),
            spans.as_mut_ptr(),
            spans.len(),
        )
    }
}

#[inline]
pub fn finish_replaced(
    decoder: Decoder,
    first: &[u32],
    second: &[u32],
    room: &mut [u32],
    spans: &mut [u32],
) -> Replacing {
    // SAFETY: each slice is valid for its length; room and spans, borrowed mutably, overlap nothing.
    unsafe {
        ffi::hamvukile_finish_replaced(
            decoder,
            first.as_ptr(),
            first.len(),
            second.as_ptr(),
            second.len(),
            room.as_mut_ptr(),
            room.len(),
            spans.as_mut_ptr(),
            spans.len(),
        )
    }
}

#[inline]
pub fn feed_in_place(
    decoder: &mut Decoder,
    chunk: &[u8],
    first: &[u32],
    second: &[u32],
    room: &mut [u32],
) -> Reply {
    // SAFETY: each slice is valid for its length; decoder and room, borrowed mutably, overlap nothing.
    unsafe {
        ffi::hamvukile_feed_in_place(
            decoder,
            chunk.as_ptr(),
            chunk.len(),
            first.as_ptr(),
            first.len(),
            second.as_ptr(),
            second.len(),
            room.as_mut_ptr(),
            room.len(),
        )
    }
}

#[inline]
pub fn finish_in_place(
    decoder: &mut Decoder,
    first: &[u32],
    second: &[u32],
    room: &mut [u32],
) -> Reply {
    // SAFETY: each slice is valid for its length; decoder and room, borrowed mutably, overlap nothing.
    unsafe {
        ffi::hamvukile_finish_in_place(
            decoder,
            first.as_ptr(),
            first.len(),
            second.as_ptr(),
            second.len(),
            room.as_mut_ptr(),
            room.len(),
        )
    }
}

#[inline]
pub fn check(encoding: u8, text: &[u8], first: &[u32], second: &[u32]) -> Checked {
    // SAFETY: each slice is valid for its length.
    unsafe {
        ffi::hamvukile_check(
            encoding,
            text.as_ptr(),
            text.len(),
            first.as_ptr(),
            first.len(),
            second.as_ptr(),
            second.len(),
        )
    }
}

#[inline]
pub fn encode(
    encoding: u8,
    mode: u8,
    state: u8,
    scalars: &[u32],
    first: &[u32],
    second: &[u32],
    room: &mut [u8],
) -> Written {
    // SAFETY: each slice is valid for its length; the room, borrowed mutably, overlaps no other.
    unsafe {
        ffi::hamvukile_encode(
            encoding,
            mode,
            state,
            scalars.as_ptr(),
            scalars.len(),
            first.as_ptr(),
            first.len(),
            second.as_ptr(),
            second.len(),
            room.as_mut_ptr(),
            room.len(),
        )
    }
}

#[allow(clippy::too_many_arguments)]
#[inline]
pub fn encode_indexed(
    encoding: u8,
    mode: u8,
    state: u8,
    scalars: &[u32],
    first: &[u32],
    second: &[u32],
    index: &[u32],
    room: &mut [u8],
) -> Written {
    // SAFETY: each slice is valid for its length; the room, borrowed mutably, overlaps no other.
    unsafe {
        ffi::hamvukile_encode_indexed(
            encoding,
            mode,
            state,
            scalars.as_ptr(),
            scalars.len(),
            first.as_ptr(),
            first.len(),
            second.as_ptr(),
            second.len(),
            index.as_ptr(),
            index.len(),
            room.as_mut_ptr(),
            room.len(),
        )
    }
}

#[inline]
pub fn encode_finish(state: u8, room: &mut [u8]) -> Written {
    // SAFETY: the slice is valid for its length.
    unsafe { ffi::hamvukile_encode_finish(state, room.as_mut_ptr(), room.len()) }
}

#[inline]
pub fn read_list(text: &[u32], names: &[u32], room: &mut [u64]) -> Listed {
    // SAFETY: each slice is valid for its length; the room, borrowed mutably, overlaps no other.
    unsafe {
        ffi::hamvukile_read_list(
            text.as_ptr(),
            text.len(),
            names.as_ptr(),
            names.len(),
            room.as_mut_ptr(),
            room.len(),
        )
    }
}
