use crate::ffi;
use crate::refusal::flag;
use crate::Refusal;
use std::fmt;

/// What a word reads, never a bare number.
#[derive(Clone, Copy, Debug, PartialEq)]
pub enum Reading {
    /// VOR azimuth: exactly count x 45 / 1024.
    Degrees(f64),
    /// ILS course or glide: one division of the count by 10240 or 5120.
    DepthDifference(f64),
    /// MLS deviation: exactly count x 75 / 1024.
    Millivolts(f64),
    /// A frequency in tens of kHz.
    TensOfKhz(i64),
    /// The selected azimuth in degrees, and whether it was set by hand.
    SelectedDegrees(i64, bool),
    /// The greatest glide angle in tenths of a degree.
    GreatestTenths(i64),
    /// The selected glide angle in tenths of a degree, and whether it was set by hand.
    SelectedTenths(i64, bool),
}

/// Whether a word shows its reading.
#[derive(Clone, Copy, Debug, PartialEq)]
pub enum Shown {
    Ready(Reading),
    /// The reading is that of a test.
    Test(Reading),
    /// Under failure and nodata, and in the parts of the auxiliary data.
    Absent,
}

/// The course and glide deviations together, in modulation depth difference.
#[derive(Clone, Copy, Debug, PartialEq)]
pub struct ChartPoint {
    pub course: f64,
    pub glide: f64,
}

/// The reading of a word: there is one exactly under ready and test. Refused as [`crate::decode`] refuses the word.
///
/// ```
/// use lampcygnet::{reading, Reading, Shown};
///
/// assert_eq!(reading(0xFC000049), Ok(Shown::Ready(Reading::Degrees(-45.0))));
/// assert_eq!(reading(0x60002096), Ok(Shown::Ready(Reading::Millivolts(75.0 / 1024.0))));
/// assert_eq!(reading(0xA40000DE), Ok(Shown::Absent));
/// ```
pub fn reading(word: u32) -> Result<Shown, Refusal> {
    // The function takes every number and writes to no memory.
    let flat = unsafe { ffi::lampcygnet_reading_of(word) };
    Refusal::unless(flat.refusal, || Shown::from_numbers(flat))?
}

impl Shown {
    /// What the library's numbers stand for. A unit, a mark or a flag that it does not have is an error.
    fn from_numbers(n: ffi::Reading) -> Result<Shown, Refusal> {
        let shown = match n.shown {
            0 => return Ok(Shown::Absent),
            1 => Shown::Ready,
            2 => Shown::Test,
            _ => return Err(Refusal::Unknown),
        };
        Ok(shown(match n.unit {
            1 => Reading::Degrees(n.value),
            2 => Reading::DepthDifference(n.value),
            3 => Reading::Millivolts(n.value),
            4 => Reading::TensOfKhz(n.whole),
            5 => Reading::SelectedDegrees(n.whole, flag(n.manual)?),
            6 => Reading::GreatestTenths(n.whole),
            7 => Reading::SelectedTenths(n.whole, flag(n.manual)?),
            _ => return Err(Refusal::Unknown),
        }))
    }
}

/// The chart point of a course word (label 173) and a glide word (174). Refused by the first word's number, the second's, 2
/// if they are not such words in this order, 4 if their sources differ, 8 if one has no reading.
///
/// ```
/// use lampcygnet::{chart_point, ChartPoint, Refusal};
///
/// assert_eq!(chart_point(0x640000DE, 0xE200003E), Ok(ChartPoint { course: 0.1, glide: 0.1 }));
/// assert_eq!(chart_point(0xE200003E, 0x640000DE), Err(Refusal::Label));
/// ```
pub fn chart_point(course: u32, glide: u32) -> Result<ChartPoint, Refusal> {
    // The function takes every number and writes to no memory.
    let flat = unsafe { ffi::lampcygnet_chart_point(course, glide) };
    Refusal::unless(flat.refusal, || ChartPoint {
        course: flat.course,
        glide: flat.glide,
    })
}

fn by_hand(manual: bool) -> &'static str {
    if manual {
        " set by hand"
    } else {
        ""
    }
}

impl fmt::Display for Reading {
    fn fmt(&self, f: &mut fmt::Formatter<'_>) -> fmt::Result {
        match *self {
            Reading::Degrees(value) => write!(f, "{value} degrees"),
            Reading::DepthDifference(value) => write!(f, "{value} depth difference"),
            Reading::Millivolts(value) => write!(f, "{value} mV"),
            Reading::TensOfKhz(whole) => write!(f, "{}.{:02} MHz", whole / 100, whole % 100),
            Reading::SelectedDegrees(whole, manual) => write!(f, "{whole} degrees selected{}", by_hand(manual)),
            Reading::GreatestTenths(whole) => write!(f, "{}.{} degrees at most", whole / 10, whole % 10),
            Reading::SelectedTenths(whole, manual) => {
                write!(f, "{}.{} degrees selected{}", whole / 10, whole % 10, by_hand(manual))
            }
        }
    }
}

impl fmt::Display for Shown {
    fn fmt(&self, f: &mut fmt::Formatter<'_>) -> fmt::Result {
        match self {
            Shown::Ready(reading) => reading.fmt(f),
            Shown::Test(reading) => write!(f, "{reading} (test)"),
            Shown::Absent => f.write_str("-"),
        }
    }
}

#[cfg(test)]
mod tests {
    use super::*;

    #[test]
    fn an_unknown_number_is_an_error() {
        let numbers = |shown, unit, manual| ffi::Reading {
            refusal: 0,
            shown,
            unit,
            manual,
            whole: 4,
            value: 0.5,
        };
        let read = |shown, unit, manual| Shown::from_numbers(numbers(shown, unit, manual));
        assert_eq!(read(0, 0, 0), Ok(Shown::Absent));
        assert_eq!(read(2, 1, 0), Ok(Shown::Test(Reading::Degrees(0.5))));
        assert_eq!(read(1, 3, 0), Ok(Shown::Ready(Reading::Millivolts(0.5))));
        assert_eq!(read(1, 5, 1), Ok(Shown::Ready(Reading::SelectedDegrees(4, true))));
        for (shown, unit, manual) in [(3, 1, 0), (1, 0, 0), (1, 8, 0), (1, 5, 2), (2, 7, 9)] {
            assert_eq!(read(shown, unit, manual), Err(Refusal::Unknown));
        }
    }

    #[test]
    fn a_reading_is_shown_with_its_unit() {
        for (reading, text) in [
            (Reading::Degrees(-45.0), "-45 degrees"),
            (Reading::DepthDifference(0.1), "0.1 depth difference"),
            (Reading::Millivolts(75.0 / 1024.0), "0.0732421875 mV"),
        ] {
            assert_eq!(reading.to_string(), text);
        }
    }
}
