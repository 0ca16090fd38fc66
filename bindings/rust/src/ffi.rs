//! The calls and records of `include/hamvukile.h`.

#[repr(C)]
pub struct Found {
    pub start: usize,
    pub length: usize,
    pub refusal: u8,
    pub encoding: u8,
}

#[repr(C)]
pub struct Named {
    pub length: usize,
    pub refusal: u8,
}

#[repr(C)]
pub struct Line {
    pub pointer: u32,
    pub refusal: u8,
    pub entry: u8,
}

#[repr(C)]
#[derive(Clone, Copy, Debug, Default, PartialEq, Eq)]
pub struct Decoder {
    pub taken: u32,
    pub lines: u32,
    pub encoding: u8,
    pub mode: u8,
    pub stage: u8,
    pub state: u8,
    pub flag: u8,
    pub held: u8,
    pub first: u8,
    pub second: u8,
    pub third: u8,
    pub ended: u8,
}

#[repr(C)]
pub struct Answer {
    pub written: usize,
    pub place: u32,
    pub line: u32,
    pub refusal: u8,
    pub decoder: Decoder,
}

#[repr(C)]
pub struct Replacing {
    pub answer: Answer,
    pub count: usize,
}

#[repr(C)]
pub struct Reply {
    pub written: usize,
    pub place: u32,
    pub line: u32,
    pub refusal: u8,
}

#[repr(C)]
pub struct Checked {
    pub place: u32,
    pub line: u32,
    pub refusal: u8,
    pub clean: u8,
}

#[repr(C)]
pub struct Written {
    pub written: usize,
    pub index: usize,
    pub refusal: u8,
    pub state: u8,
}

#[repr(C)]
pub struct Listed {
    pub options: usize,
    pub line: usize,
    pub refusal: u8,
}

extern "C" {
    pub fn hamvukile_version() -> u32;
    pub fn hamvukile_label(bytes: *const u8, length: usize) -> Found;
    pub fn hamvukile_name(encoding: u8, room: *mut u8, room_length: usize) -> Named;
    pub fn hamvukile_first_index_name(encoding: u8, room: *mut u8, room_length: usize) -> Named;
    pub fn hamvukile_second_index_name(encoding: u8, room: *mut u8, room_length: usize) -> Named;
    pub fn hamvukile_index_line(
        line: *const u8,
        length: usize,
        table: *mut u32,
        table_length: usize,
    ) -> Line;
    pub fn hamvukile_index_size(cells: usize) -> usize;
    pub fn hamvukile_build_index(
        encoding: u8,
        first: *const u32,
        first_length: usize,
        index: *mut u32,
        index_length: usize,
    ) -> u8;
    pub fn hamvukile_index_line_indexed(
        line: *const u8,
        length: usize,
        table: *mut u32,
        table_length: usize,
        index: *mut u32,
        index_length: usize,
    ) -> Line;
    pub fn hamvukile_open(encoding: u8, mode: u8, rule: u8) -> Answer;
    pub fn hamvukile_feed(
        decoder: Decoder,
        chunk: *const u8,
        chunk_length: usize,
        first: *const u32,
        first_length: usize,
        second: *const u32,
        second_length: usize,
        room: *mut u32,
        room_length: usize,
    ) -> Answer;
    pub fn hamvukile_finish(
        decoder: Decoder,
        first: *const u32,
        first_length: usize,
        second: *const u32,
        second_length: usize,
        room: *mut u32,
        room_length: usize,
    ) -> Answer;
    pub fn hamvukile_feed_replaced(
        decoder: Decoder,
        chunk: *const u8,
        chunk_length: usize,
        first: *const u32,
        first_length: usize,
        second: *const u32,
        second_length: usize,
        room: *mut u32,
        room_length: usize,
        spans: *mut u32,
        spans_length: usize,
    ) -> Replacing;
    pub fn hamvukile_finish_replaced(
        decoder: Decoder,
        first: *const u32,
        first_length: usize,
        second: *const u32,
        second_length: usize,
        room: *mut u32,
        room_length: usize,
        spans: *mut u32,
        spans_length: usize,
    ) -> Replacing;
    pub fn hamvukile_feed_in_place(
        decoder: *mut Decoder,
        chunk: *const u8,
        chunk_length: usize,
        first: *const u32,
        first_length: usize,
        second: *const u32,
        second_length: usize,
        room: *mut u32,
        room_length: usize,
    ) -> Reply;
    pub fn hamvukile_finish_in_place(
        decoder: *mut Decoder,
        first: *const u32,
        first_length: usize,
        second: *const u32,
        second_length: usize,
        room: *mut u32,
        room_length: usize,
    ) -> Reply;
    pub fn hamvukile_check(
        encoding: u8,
        text: *const u8,
        length: usize,
        first: *const u32,
        first_length: usize,
        second: *const u32,
        second_length: usize,
    ) -> Checked;
    pub fn hamvukile_encode(
        encoding: u8,
        mode: u8,
        state: u8,
        scalars: *const u32,
        scalars_length: usize,
        first: *const u32,
        first_length: usize,
        second: *const u32,
        second_length: usize,
        room: *mut u8,
        room_length: usize,
    ) -> Written;
    pub fn hamvukile_encode_indexed(
        encoding: u8,
        mode: u8,
        state: u8,
        scalars: *const u32,
        scalars_length: usize,
        first: *const u32,
        first_length: usize,
        second: *const u32,
        second_length: usize,
        index: *const u32,
        index_length: usize,
        room: *mut u8,
        room_length: usize,
    ) -> Written;
    pub fn hamvukile_encode_finish(state: u8, room: *mut u8, room_length: usize) -> Written;
    pub fn hamvukile_read_list(
        text: *const u32,
        length: usize,
        names: *const u32,
        names_length: usize,
        room: *mut u64,
        room_length: usize,
    ) -> Listed;
}
