//! The exports of `codesearch.h`. A slot is the library's own and a caller only moves it.

#[repr(C)]
pub struct Slot {
    at: *mut u8,
    filled: bool,
}

impl Slot {
    pub const EMPTY: Slot = Slot { at: std::ptr::null_mut(), filled: false };
}

#[repr(C)]
#[derive(Clone, Copy, Default)]
pub struct Line {
    pub start: usize,
    pub end: usize,
}

#[repr(C)]
#[derive(Clone, Copy, Default)]
pub struct Span {
    pub start: usize,
    pub end: usize,
}

extern "C" {
    pub fn cs_index_check(index: *const u8, len: usize) -> i32;
    pub fn cs_index_names(index: *const u8, len: usize, count: *mut u32) -> i32;
    pub fn cs_index_name(index: *const u8, len: usize, id: u32, name: *mut u8, room: usize, name_len: *mut usize) -> i32;
    pub fn cs_index_path(index: *const u8, len: usize, at: u32, path: *mut u8, room: usize, path_len: *mut usize) -> i32;
    pub fn cs_pattern_compile(text: *const u8, len: usize, fold: bool, slot: *mut Slot, offset: *mut usize) -> i32;
    pub fn cs_pattern_free(slot: *mut Slot);
    pub fn cs_pattern_is_match(slot: *mut Slot, line: *const u8, len: usize) -> i32;
    pub fn cs_pattern_next(slot: *mut Slot, block: *const u8, len: usize, from: usize, line: *mut Line) -> i32;
    pub fn cs_pattern_count(slot: *mut Slot, block: *const u8, len: usize, count: *mut u64) -> i32;
    pub fn cs_pattern_next_within(
        slot: *mut Slot, block: *const u8, len: usize, from: usize, budget: usize, line: *mut Line, reached: *mut usize,
    ) -> i32;
    pub fn cs_pattern_count_within(
        slot: *mut Slot, block: *const u8, len: usize, from: usize, budget: usize, count: *mut u64, reached: *mut usize,
    ) -> i32;
    pub fn cs_pattern_find(slot: *mut Slot, line: *const u8, len: usize, from: usize, span: *mut Span) -> i32;
    pub fn cs_pattern_find_after(slot: *mut Slot, line: *const u8, len: usize, last: *const Span, span: *mut Span) -> i32;
    pub fn cs_pattern_spans(
        slot: *mut Slot, line: *const u8, len: usize, budget: usize, spans: *mut Span, room: usize, count: *mut usize,
    ) -> i32;
    pub fn cs_pattern_find_word(slot: *mut Slot, line: *const u8, len: usize, from: usize, span: *mut Span) -> i32;
    pub fn cs_pattern_find_word_after(slot: *mut Slot, line: *const u8, len: usize, last: *const Span, span: *mut Span) -> i32;
    pub fn cs_pattern_word_spans(
        slot: *mut Slot, line: *const u8, len: usize, budget: usize, spans: *mut Span, room: usize, count: *mut usize,
    ) -> i32;
    pub fn cs_pattern_candidates(slot: *mut Slot, index: *const u8, len: usize, ids: *mut u32, room: usize, count: *mut usize) -> i32;
    pub fn cs_pattern_candidates_from(
        slot: *mut Slot, index: *const u8, len: usize, from: u32, ids: *mut u32, room: usize, count: *mut usize,
    ) -> i32;
    pub fn cs_count_lines(text: *const u8, len: usize, from: usize, to: usize, count: *mut usize) -> i32;
    pub fn cs_grep(
        slot: *mut Slot, name: *const u8, name_len: usize, text: *const u8, len: usize, style: u32, out: *mut u8, room: usize,
        out_len: *mut usize,
    ) -> i32;
    pub fn cs_text_scan(text: *const u8, len: usize) -> i32;
    pub fn cs_builder_new(paths: *const u8, len: usize, slot: *mut Slot) -> i32;
    pub fn cs_builder_add(slot: *mut Slot, name: *const u8, name_len: usize, text: *const u8, len: usize) -> i32;
    pub fn cs_builder_finish(slot: *mut Slot, index: *mut Slot) -> i32;
    pub fn cs_builder_free(slot: *mut Slot);
    pub fn cs_bytes_len(slot: *mut Slot, len: *mut usize) -> i32;
    pub fn cs_bytes_copy(slot: *mut Slot, from: usize, out: *mut u8, room: usize) -> i32;
    pub fn cs_bytes_free(slot: *mut Slot);
    pub fn cs_index_merge(older: *const u8, older_len: usize, newer: *const u8, newer_len: usize, index: *mut Slot) -> i32;
}
