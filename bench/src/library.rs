//! The library as C calls it.

#[path = "../../bindings/rust/src/ffi.rs"]
#[allow(dead_code)]
mod ffi;

// Links the library.
use lampcygnet as _;

pub use ffi::{Record, Summary};

/// The room that a listing needs.
pub const TEXT_MAX: usize = lampcygnet::sheet::LISTING_MOST;

#[inline]
pub fn decode(word: u32) -> Result<Record, u8> {
    // SAFETY: the function takes any number and writes to no memory.
    let record = unsafe { ffi::lampcygnet_decode(word) };
    match record.refusal {
        0 => Ok(record),
        refusal => Err(refusal),
    }
}

/// A page of words into two lists, or 13.
pub fn decode_page(words: &[u32], refusals: &mut [u8], counts: &mut [i16]) -> Result<(), u8> {
    let (list, room) = (refusals.as_mut_ptr(), refusals.len());
    // SAFETY: pointers and lengths are those of the slices.
    let refusal = unsafe {
        ffi::lampcygnet_decode_page(words.as_ptr(), words.len(), list, room, counts.as_mut_ptr(), counts.len())
    };
    match refusal {
        0 => Ok(()),
        refusal => Err(refusal),
    }
}

/// The same with a call for each word.
pub fn decode_singly(words: &[u32], refusals: &mut [u8], counts: &mut [i16]) -> Result<(), u8> {
    if refusals.len() < words.len() || counts.len() < words.len() {
        return Err(13);
    }
    for ((&word, refusal), count) in words.iter().zip(refusals).zip(counts) {
        // SAFETY: the function takes any number and writes to no memory.
        let record = unsafe { ffi::lampcygnet_decode(word) };
        (*refusal, *count) = (record.refusal, record.count);
    }
    Ok(())
}

#[inline]
pub fn code(label: u8, source: u8, millionths: i64) -> Result<u32, u8> {
    // SAFETY: the function takes any numbers and writes to no memory.
    let word = unsafe { ffi::lampcygnet_code_figure(label.into(), source.into(), millionths) };
    match word.refusal {
        0 => Ok(word.word),
        refusal => Err(refusal),
    }
}

#[inline]
pub fn explain(word: u32, millionths: i64) -> Result<u8, u8> {
    // SAFETY: the function takes any numbers and writes to no memory.
    let explained = unsafe { ffi::lampcygnet_explain(word, millionths) };
    match explained.refusal {
        0 => Ok(explained.reason),
        refusal => Err(refusal),
    }
}

pub fn check(sheet: &[u8]) -> Result<(), (u8, usize)> {
    // SAFETY: pointer and length are those of the slice.
    let checked = unsafe { ffi::lampcygnet_check_sheet(sheet.as_ptr(), sheet.len()) };
    match checked.refusal {
        0 => Ok(()),
        refusal => Err((refusal, checked.offset)),
    }
}

/// The listing into a buffer; its length, or 13.
pub fn list(sheet: &[u8], text: &mut [u8]) -> Result<usize, u8> {
    // SAFETY: pointers and lengths are those of the slices.
    let listed = unsafe { ffi::lampcygnet_list_sheet(sheet.as_ptr(), sheet.len(), text.as_mut_ptr(), text.len()) };
    match listed.refusal {
        0 => Ok(listed.length),
        refusal => Err(refusal),
    }
}

/// The summary of a sheet for a label and a source.
pub fn summarize(sheet: &[u8], label: u8, source: u8) -> Result<Summary, (u8, usize)> {
    // SAFETY: pointer and length are those of the slice.
    let summary = unsafe { ffi::lampcygnet_summarize(sheet.as_ptr(), sheet.len(), label.into(), source.into()) };
    match summary.refusal {
        0 => Ok(summary),
        refusal => Err((refusal, summary.offset)),
    }
}
