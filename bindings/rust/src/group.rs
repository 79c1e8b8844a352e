use crate::ffi;
use crate::refusal::flag;
use crate::Refusal;

/// The MLS auxiliary data of group C, put together: received bit j weighs 2^(j-13), j from 13 to 76.
#[derive(Clone, Copy, Debug, PartialEq, Eq, Hash)]
pub struct Group {
    pub bits: u64,
    /// The receiver found the group's parity good.
    pub parity_good: bool,
}

/// Puts the parts of group C (labels 140 to 143) together, one word at a time.
///
/// ```
/// use lampcygnet::{Reassembler, Refusal};
///
/// let mut reassembler = Reassembler::new();
/// assert_eq!(reassembler.take(0x640000DE), Err(Refusal::Label)); // no part: what is held stays
/// ```
#[derive(Clone, Copy, Debug, Default, PartialEq, Eq)]
pub struct Reassembler {
    held: ffi::Partial,
}

impl Reassembler {
    /// No part is held.
    pub fn new() -> Reassembler {
        Reassembler::default()
    }

    /// Takes one word: the group if this part completes it. Part 1 starts anew; the others are taken only next in sequence
    /// and from the same source, else refused 14, and nothing is held then. A word refused 1 to 4 changes nothing.
    pub fn take(&mut self, word: u32) -> Result<Option<Group>, Refusal> {
        // The function takes every number and writes to no memory.
        let step = unsafe { ffi::lampcygnet_reassemble(self.held, word) };
        self.held = step.next;
        Refusal::unless(step.refusal, || {
            let (complete, parity_good) = (flag(step.complete)?, flag(step.parity_good)?);
            Ok(complete.then_some(Group {
                bits: step.bits,
                parity_good,
            }))
        })?
    }

    /// How many parts are held, and of which source.
    pub fn parts_held(&self) -> u8 {
        self.held.parts
    }
}
