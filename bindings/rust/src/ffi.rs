//! The library's functions, as `include/lampcygnet.h` declares them. Each takes any values. Where a pointer and a length
//! stand side by side, that many elements must be there for the whole call; only those at `out`, or those at `refusals` and
//! `counts`, are written, and they must not overlap any others.

#[repr(C)]
#[derive(Clone, Copy, Debug, Default, PartialEq, Eq)]
pub struct Record {
    pub refusal: u8,
    pub kind: u8,
    pub source: u8,
    pub status: u8,
    pub marker: u8,
    pub category: u8,
    pub inhibit: u8,
    pub clearance: u8,
    pub manual: u8,
    pub parity_good: u8,
    pub word_number: u8,
    pub count: i16,
    pub value: u32,
}

#[repr(C)]
#[derive(Clone, Copy)]
pub struct Word {
    pub refusal: u8,
    pub word: u32,
}

#[repr(C)]
#[derive(Clone, Copy)]
pub struct Reading {
    pub refusal: u8,
    pub shown: u8,
    pub unit: u8,
    pub manual: u8,
    pub whole: i64,
    pub value: f64,
}

#[repr(C)]
#[derive(Clone, Copy)]
pub struct Point {
    pub refusal: u8,
    pub course: f64,
    pub glide: f64,
}

#[repr(C)]
#[derive(Clone, Copy)]
pub struct Millionths {
    pub refusal: u8,
    pub millionths: i64,
}

#[repr(C)]
#[derive(Clone, Copy)]
pub struct Explained {
    pub refusal: u8,
    pub reason: u8,
}

#[repr(C)]
#[derive(Clone, Copy, Debug, Default, PartialEq, Eq)]
pub struct Partial {
    pub parts: u8,
    pub source: u8,
    pub bits: u64,
}

#[repr(C)]
#[derive(Clone, Copy)]
pub struct Step {
    pub next: Partial,
    pub refusal: u8,
    pub complete: u8,
    pub parity_good: u8,
    pub bits: u64,
}

#[repr(C)]
#[derive(Clone, Copy)]
pub struct Place {
    pub refusal: u8,
    pub offset: usize,
}

#[repr(C)]
#[derive(Clone, Copy, Debug, PartialEq, Eq)]
pub struct Walk {
    pub refusal: u8,
    pub place: usize,
    pub end1: usize,
    pub end2: usize,
    pub end3: usize,
}

#[repr(C)]
#[derive(Clone, Copy, Debug, PartialEq, Eq)]
pub struct Field {
    pub refusal: u8,
    pub tag: u8,
    pub depth: u8,
    pub place: usize,
    pub length: usize,
}

#[repr(C)]
#[derive(Clone, Copy, Debug, PartialEq, Eq)]
pub struct Walked {
    pub field: Field,
    pub next: Walk,
}

#[repr(C)]
#[derive(Clone, Copy)]
pub struct Note {
    pub refusal: u8,
    pub start: usize,
    pub length: usize,
}

#[repr(C)]
#[derive(Clone, Copy)]
pub struct Figure {
    pub refusal: u8,
    pub label: u8,
    pub millionths: i64,
}

#[repr(C)]
#[derive(Clone, Copy)]
pub struct Listed {
    pub refusal: u8,
    pub length: usize,
}

#[repr(C)]
#[derive(Clone, Copy, Debug, Default, PartialEq, Eq)]
pub struct Summary {
    pub refusal: u8,
    pub offset: usize,
    pub ready: u64,
    pub test: u64,
    pub nodata: u64,
    pub failure: u64,
    pub refused: u64,
    pub other: u64,
    pub words: u64,
    pub least: i16,
    pub greatest: i16,
    pub sum: i64,
}

extern "C" {
    pub fn lampcygnet_decode(word: u32) -> Record;
    pub fn lampcygnet_encode(fields: Record) -> Word;
    pub fn lampcygnet_decode_page(
        words: *const u32,
        length: usize,
        refusals: *mut u8,
        refusals_room: usize,
        counts: *mut i16,
        counts_room: usize,
    ) -> u8;
    pub fn lampcygnet_reading_of(word: u32) -> Reading;
    pub fn lampcygnet_chart_point(course: u32, glide: u32) -> Point;
    pub fn lampcygnet_code_figure(label: u32, source: u32, millionths: i64) -> Word;
    pub fn lampcygnet_print_count(label: u32, count: i64) -> Millionths;
    pub fn lampcygnet_agrees(word: u32, millionths: i64) -> bool;
    pub fn lampcygnet_explain(word: u32, millionths: i64) -> Explained;
    pub fn lampcygnet_reassemble(held: Partial, word: u32) -> Step;
    pub fn lampcygnet_check_sheet(sheet: *const u8, length: usize) -> Place;
    pub fn lampcygnet_walk_from_start(sheet: *const u8, length: usize) -> Walk;
    pub fn lampcygnet_next_field(sheet: *const u8, length: usize, walk: Walk) -> Walked;
    pub fn lampcygnet_find_note(sheet: *const u8, length: usize, place: usize) -> Note;
    pub fn lampcygnet_word_in(content: *const u8, length: usize) -> Word;
    pub fn lampcygnet_figure_in(content: *const u8, length: usize) -> Figure;
    pub fn lampcygnet_write_word(out: *mut u8, room: usize, place: usize, word: u32) -> Place;
    pub fn lampcygnet_write_figure(out: *mut u8, room: usize, place: usize, label: u8, millionths: i64) -> Place;
    pub fn lampcygnet_write_note(out: *mut u8, room: usize, place: usize, text: *const u8, length: usize) -> Place;
    pub fn lampcygnet_write_group(out: *mut u8, room: usize, place: usize, run: *const u8, length: usize) -> Place;
    pub fn lampcygnet_list_sheet(sheet: *const u8, length: usize, out: *mut u8, room: usize) -> Listed;
    pub fn lampcygnet_summarize(sheet: *const u8, length: usize, label: u32, source: u32) -> Summary;
}
