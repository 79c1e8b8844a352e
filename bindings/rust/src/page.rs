use crate::ffi;
use crate::Refusal;

/// A page of words at once: into one list the number of each word's refusal, 0 where it is accepted, into the other the count
/// of its record, 0 where there is none, both as [`crate::decode`] gives them. Elements past the last word are left as they
/// were. Refused 13 where a list is shorter than the words, and both are then left as they were; a refused word is an answer
/// in the list and no refusal of the page.
///
/// ```
/// use lampcygnet::{decode_page, Refusal};
///
/// // two ILS courses, the first again with a bit flipped and with no data, a VOR frequency, and a selected azimuth of 360
/// let words = [0x640000DE, 0x7FFF00DE, 0x640000DF, 0xA40000DE, 0x04C80038, 0xEB4400D6];
/// let (mut refusals, mut counts) = ([99; 7], [99; 7]);
/// decode_page(&words, &mut refusals, &mut counts)?;
/// assert_eq!(refusals, [0, 0, 1, 0, 0, 6, 99]);
/// assert_eq!(counts, [1024, -1, 0, 1024, 0, 0, 99]);
/// assert_eq!(decode_page(&words, &mut refusals[..5], &mut counts), Err(Refusal::Room));
/// # Ok::<(), Refusal>(())
/// ```
pub fn decode_page(words: &[u32], refusals: &mut [u8], counts: &mut [i16]) -> Result<(), Refusal> {
    // Pointers and lengths are those of three slices, of which the two that are written are each borrowed alone.
    let refusal = unsafe {
        ffi::lampcygnet_decode_page(
            words.as_ptr(),
            words.len(),
            refusals.as_mut_ptr(),
            refusals.len(),
            counts.as_mut_ptr(),
            counts.len(),
        )
    };
    Refusal::unless(refusal, || ())
}

/// The two lists that [`decode_page`] fills, each as long as the words.
///
/// ```
/// use lampcygnet::{decode_to_vecs, Refusal};
///
/// let (refusals, counts) = decode_to_vecs(&[0x640000DE, 0x640000DF]);
/// assert_eq!((refusals, counts), (vec![0, Refusal::Parity.number()], vec![1024, 0]));
/// assert_eq!(decode_to_vecs(&[]), (vec![], vec![]));
/// ```
pub fn decode_to_vecs(words: &[u32]) -> (Vec<u8>, Vec<i16>) {
    let (mut refusals, mut counts) = (vec![0; words.len()], vec![0; words.len()]);
    let filled = decode_page(words, &mut refusals, &mut counts);
    debug_assert_eq!(filled, Ok(())); // lists of this length are never refused
    (refusals, counts)
}
