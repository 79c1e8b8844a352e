use crate::ffi;
use crate::Refusal;
use std::fmt;

/// What a figure has to do with a word. [`Reason::number`] is its place in request 1's order.
#[derive(Clone, Copy, Debug, PartialEq, Eq, Hash, PartialOrd, Ord)]
#[repr(u8)]
pub enum Reason {
    /// The figure agrees with the word.
    Agrees = 1,
    /// A tenth of the figure agrees. This and the next two hold only of a whole number of millionths.
    Tenth = 2,
    /// A hundredth of the figure agrees.
    Hundredth = 3,
    /// A thousandth of the figure agrees.
    Thousandth = 4,
    /// Ten times the figure agrees. This and the next three hold only of a figure that 64 bits hold.
    TenTimes = 5,
    /// A hundred times the figure agrees.
    HundredTimes = 6,
    /// A thousand times the figure agrees.
    ThousandTimes = 7,
    /// The figure with the other sign agrees.
    OtherSign = 8,
    /// None of these agrees.
    NoneOfThese = 9,
}

impl Reason {
    /// In the order of their numbers, in which they are looked for.
    const ALL: [Reason; 9] = [
        Reason::Agrees,
        Reason::Tenth,
        Reason::Hundredth,
        Reason::Thousandth,
        Reason::TenTimes,
        Reason::HundredTimes,
        Reason::ThousandTimes,
        Reason::OtherSign,
        Reason::NoneOfThese,
    ];

    /// The number of this reason, 1 to 9.
    pub fn number(self) -> u8 {
        self as u8
    }

    /// The reason with this number.
    pub fn from_number(number: u8) -> Option<Reason> {
        Self::ALL.get(usize::from(number).wrapping_sub(1)).copied()
    }

    /// What the library's numbers stand for. A reason that is not known here is an error.
    fn from_numbers(n: ffi::Explained) -> Result<Reason, Refusal> {
        Refusal::unless(n.refusal, || Reason::from_number(n.reason).ok_or(Refusal::Unknown))?
    }
}

impl fmt::Display for Reason {
    fn fmt(&self, f: &mut fmt::Formatter<'_>) -> fmt::Result {
        f.pad(match self {
            Reason::Agrees => "agrees",
            Reason::Tenth => "a tenth agrees",
            Reason::Hundredth => "a hundredth agrees",
            Reason::Thousandth => "a thousandth agrees",
            Reason::TenTimes => "ten times it agrees",
            Reason::HundredTimes => "a hundred times it agrees",
            Reason::ThousandTimes => "a thousand times it agrees",
            Reason::OtherSign => "the other sign agrees",
            Reason::NoneOfThese => "none of these",
        })
    }
}

/// Why a figure in millionths and a word disagree: the first reason that holds, in the order of their numbers. Refused as
/// [`crate::decode`] refuses the word, then 2 where it is not one of the five measured ones, then 8 where it has no reading.
///
/// ```
/// use lampcygnet::{explain, Reason, Refusal};
///
/// // the word says 0.1, and 1.0 was typed: a decimal point was lost
/// let reason = explain(0x640000DE, 1_000_000)?;
/// assert_eq!(reason, Reason::Tenth);
/// assert_eq!(reason.to_string(), "a tenth agrees");
/// assert_eq!(explain(0xE8000048, 90_000_000), Err(Refusal::Parity));
/// # Ok::<(), Refusal>(())
/// ```
pub fn explain(word: u32, millionths: i64) -> Result<Reason, Refusal> {
    // The function takes every number and writes to no memory.
    Reason::from_numbers(unsafe { ffi::lampcygnet_explain(word, millionths) })
}

#[cfg(test)]
mod tests {
    use super::*;

    #[test]
    fn every_reason_has_its_number() {
        for number in 0..=u8::MAX {
            let reason = Reason::from_number(number);
            assert_eq!(reason.is_some(), (1..=9).contains(&number));
            assert!(reason.is_none_or(|reason| reason.number() == number));
        }
    }

    #[test]
    fn unknown_numbers_are_errors() {
        let told = |refusal, reason| Reason::from_numbers(ffi::Explained { refusal, reason });
        assert_eq!(told(0, 9), Ok(Reason::NoneOfThese));
        assert_eq!(told(8, 0), Err(Refusal::Reach));
        for reason in (0..=u8::MAX).filter(|reason| !(1..=9).contains(reason)) {
            assert_eq!(told(0, reason), Err(Refusal::Unknown));
        }
        assert_eq!(told(16, 1), Err(Refusal::Unknown));
    }
}
