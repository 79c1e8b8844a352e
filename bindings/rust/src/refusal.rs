use std::error::Error;
use std::fmt;

/// Why an input is refused. [`Refusal::number`] is document 01's number.
#[derive(Clone, Copy, Debug, PartialEq, Eq, Hash, PartialOrd, Ord)]
#[repr(u8)]
pub enum Refusal {
    /// The ones are even in number.
    Parity = 1,
    /// No such label, or none that is wanted here.
    Label = 2,
    /// A zero bit is one.
    ZeroBit = 3,
    /// A code or a source is outside its list, or two sources differ.
    Code = 4,
    /// A decimal digit is above 9.
    Digit = 5,
    /// A value is not legal.
    Value = 6,
    /// Bit 28 of label 154 is wrong.
    AngleParity = 7,
    /// A figure is out of reach, or there is no reading where one is needed.
    Reach = 8,
    /// A field is cut short.
    Truncated = 9,
    /// Unknown tag.
    Tag = 10,
    /// The length is wrong for the tag.
    Length = 11,
    /// A group stands at depth 4.
    Depth = 12,
    /// No room in the buffer.
    Room = 13,
    /// A part is out of sequence.
    Sequence = 14,
    /// A sheet above 32,768 bytes.
    Oversize = 15,
    /// No refusal of document 01: the linked library answered with numbers that this crate does not know, as one of
    /// another version may.
    Unknown = 255,
}

impl Refusal {
    /// In the order of their numbers.
    const ALL: [Refusal; 15] = [
        Refusal::Parity,
        Refusal::Label,
        Refusal::ZeroBit,
        Refusal::Code,
        Refusal::Digit,
        Refusal::Value,
        Refusal::AngleParity,
        Refusal::Reach,
        Refusal::Truncated,
        Refusal::Tag,
        Refusal::Length,
        Refusal::Depth,
        Refusal::Room,
        Refusal::Sequence,
        Refusal::Oversize,
    ];

    /// Document 01's number of this refusal, 1 to 15; 255 for [`Refusal::Unknown`].
    pub fn number(self) -> u8 {
        self as u8
    }

    /// The refusal with this number of document 01.
    pub fn from_number(number: u8) -> Option<Refusal> {
        Self::ALL.get(usize::from(number).wrapping_sub(1)).copied()
    }

    /// The value where the number beside it is 0; every other number is an error.
    pub(crate) fn unless<T>(number: u8, value: impl FnOnce() -> T) -> Result<T, Refusal> {
        match number {
            0 => Ok(value()),
            number => Err(Refusal::from_number(number).unwrap_or(Refusal::Unknown)),
        }
    }
}

impl fmt::Display for Refusal {
    fn fmt(&self, f: &mut fmt::Formatter<'_>) -> fmt::Result {
        let text = match self {
            Refusal::Parity => "the ones are even in number",
            Refusal::Label => "no such label, or none that is wanted here",
            Refusal::ZeroBit => "a zero bit is one",
            Refusal::Code => "a code or a source is outside its list, or two sources differ",
            Refusal::Digit => "a decimal digit is above 9",
            Refusal::Value => "a value is not legal",
            Refusal::AngleParity => "the angle's parity bit is wrong",
            Refusal::Reach => "a figure is out of reach, or there is no reading",
            Refusal::Truncated => "a field is cut short",
            Refusal::Tag => "unknown tag",
            Refusal::Length => "the length is wrong for the tag",
            Refusal::Depth => "a group stands at depth 4",
            Refusal::Room => "no room in the buffer",
            Refusal::Sequence => "a part is out of sequence",
            Refusal::Oversize => "the sheet is longer than 32,768 bytes",
            Refusal::Unknown => "the library answered with numbers that are not known here",
        };
        write!(f, "refused {}: {text}", self.number())
    }
}

impl Error for Refusal {}

/// A flag of the library's: 0 or 1.
pub(crate) fn flag(number: u8) -> Result<bool, Refusal> {
    match number {
        0 => Ok(false),
        1 => Ok(true),
        _ => Err(Refusal::Unknown),
    }
}

#[cfg(test)]
mod tests {
    use super::*;

    #[test]
    fn every_number_but_0_is_an_error() {
        assert_eq!(Refusal::unless(0, || 7), Ok(7));
        for number in 1..=u8::MAX {
            let refusal = Refusal::from_number(number).unwrap_or(Refusal::Unknown);
            assert_eq!(Refusal::unless(number, || 7), Err(refusal));
            assert_eq!(refusal == Refusal::Unknown, 15 < number);
            assert!(15 < number || refusal.number() == number);
        }
    }

    #[test]
    fn a_flag_is_0_or_1() {
        assert_eq!((flag(0), flag(1)), (Ok(false), Ok(true)));
        assert!((2..=u8::MAX).all(|number| flag(number) == Err(Refusal::Unknown)));
    }
}
