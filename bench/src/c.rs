//! The C baseline, see `baseline.h`.

use std::mem::MaybeUninit;

/// `struct baseline_record`.
#[repr(C)]
#[derive(Clone, Copy, Debug, Default, PartialEq, Eq)]
pub struct Record {
    pub label: u8,
    pub source: u8,
    pub status: u8,
    pub code: u8,
    pub value: i32,
}

/// `struct baseline_summary`: by status failure, nodata, test and ready.
#[repr(C)]
#[derive(Clone, Copy, Debug, Default, PartialEq, Eq)]
pub struct Summary {
    pub by_status: [u32; 4],
    pub refused: u32,
    pub other: u32,
    pub words: u32,
    pub least: i32,
    pub greatest: i32,
    pub sum: i64,
}

/// The room that a listing needs.
pub const TEXT_MAX: usize = 117_046;

extern "C" {
    fn baseline_decode(word: u32, record: *mut Record) -> i32;
    fn baseline_code(label: u8, source: u8, millionths: i64, word: *mut u32) -> i32;
    fn baseline_explain(word: u32, millionths: i64, reason: *mut u8) -> i32;
    fn baseline_check(sheet: *const u8, length: usize, offset: *mut usize) -> i32;
    fn baseline_list(sheet: *const u8, length: usize, text: *mut u8, room: usize, used: *mut usize) -> i32;
    fn baseline_summarize(
        sheet: *const u8,
        length: usize,
        label: u8,
        source: u8,
        summary: *mut Summary,
        offset: *mut usize,
    ) -> i32;
    fn baseline_decode_page(
        words: *const u32,
        length: usize,
        refusals: *mut u8,
        refusals_room: usize,
        counts: *mut i16,
        counts_room: usize,
    ) -> i32;
}

#[inline]
pub fn decode(word: u32) -> Result<Record, u8> {
    let mut record = MaybeUninit::uninit();
    // SAFETY: the record is written in full when the answer is 0.
    unsafe {
        match baseline_decode(word, record.as_mut_ptr()) {
            0 => Ok(record.assume_init()),
            refusal => Err(refusal as u8),
        }
    }
}

#[inline]
pub fn code(label: u8, source: u8, millionths: i64) -> Result<u32, u8> {
    let mut word = 0;
    // SAFETY: one number is written.
    match unsafe { baseline_code(label, source, millionths, &mut word) } {
        0 => Ok(word),
        refusal => Err(refusal as u8),
    }
}

#[inline]
pub fn explain(word: u32, millionths: i64) -> Result<u8, u8> {
    let mut reason = 0;
    // SAFETY: one number is written.
    match unsafe { baseline_explain(word, millionths, &mut reason) } {
        0 => Ok(reason),
        refusal => Err(refusal as u8),
    }
}

pub fn check(sheet: &[u8]) -> Result<(), (u8, usize)> {
    let mut offset = 0;
    // SAFETY: pointer and length are those of the slice.
    match unsafe { baseline_check(sheet.as_ptr(), sheet.len(), &mut offset) } {
        0 => Ok(()),
        refusal => Err((refusal as u8, offset)),
    }
}

/// The listing into a buffer; its length, or 13.
pub fn list(sheet: &[u8], text: &mut [u8]) -> Result<usize, u8> {
    let mut used = 0;
    // SAFETY: pointers and lengths are those of the slices.
    match unsafe { baseline_list(sheet.as_ptr(), sheet.len(), text.as_mut_ptr(), text.len(), &mut used) } {
        0 => Ok(used),
        refusal => Err(refusal as u8),
    }
}

/// The summary of a sheet for a label and a source.
pub fn summarize(sheet: &[u8], label: u8, source: u8) -> Result<Summary, (u8, usize)> {
    let (mut summary, mut offset) = (Summary::default(), 0);
    // SAFETY: pointer and length are those of the slice; one summary and one offset are written.
    match unsafe { baseline_summarize(sheet.as_ptr(), sheet.len(), label, source, &mut summary, &mut offset) } {
        0 => Ok(summary),
        refusal => Err((refusal as u8, offset)),
    }
}

/// A page of words into two lists, or 13.
pub fn decode_page(words: &[u32], refusals: &mut [u8], counts: &mut [i16]) -> Result<(), u8> {
    let (list, room) = (refusals.as_mut_ptr(), refusals.len());
    // SAFETY: pointers and lengths are those of the slices.
    match unsafe { baseline_decode_page(words.as_ptr(), words.len(), list, room, counts.as_mut_ptr(), counts.len()) } {
        0 => Ok(()),
        refusal => Err(refusal as u8),
    }
}
