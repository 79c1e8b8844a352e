use crate::ffi;
use crate::Refusal;

/// The word that a figure in millionths (of a degree, of modulation depth difference, or of a millivolt) is coded to,
/// under a label and a source: status ready, the nearest legal count, an even one where two are equally near. Refused 2
/// where the label has no measured quantity, 4 where the source is above 3, 8 where the figure is out of reach.
///
/// ```
/// use lampcygnet::{code_figure, Refusal};
///
/// assert_eq!(code_figure(0o173, 0, 100_000), Ok(0x640000DE));
/// assert_eq!(code_figure(0o222, 0, 360_000_000), Err(Refusal::Reach));
/// ```
pub fn code_figure(label: u8, source: u8, millionths: i64) -> Result<u32, Refusal> {
    // The function takes every number and writes to no memory.
    let word = unsafe { ffi::lampcygnet_code_figure(label.into(), source.into(), millionths) };
    Refusal::unless(word.refusal, || word.word)
}

/// The value of a count of this label, rounded to the nearest millionth, a tie to the even one. Refused 2 where the label
/// has no measured quantity, 6 where its 13 or 16 bits do not hold the count.
///
/// ```
/// assert_eq!(lampcygnet::print_count(0o173, -1), Ok(-98));
/// assert_eq!(lampcygnet::print_count(0o151, 8), Ok(585_938)); // exactly 0.5859375 mV
/// ```
pub fn print_count(label: u8, count: i16) -> Result<i64, Refusal> {
    // The function takes every number and writes to no memory.
    let printed = unsafe { ffi::lampcygnet_print_count(label.into(), count.into()) };
    Refusal::unless(printed.refusal, || printed.millionths)
}

/// Whether a figure in millionths agrees with a word: it is coded, under the word's label and source, to the word's count.
/// None agrees with a word that is refused or measures nothing.
///
/// ```
/// assert!(lampcygnet::agrees(0x640000DE, 100_000));
/// assert!(!lampcygnet::agrees(0x640000DE, 1_000_000)); // a decimal point was lost
/// ```
pub fn agrees(word: u32, millionths: i64) -> bool {
    // The function takes every number and writes to no memory.
    unsafe { ffi::lampcygnet_agrees(word, millionths) }
}
