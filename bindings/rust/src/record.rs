use crate::ffi;
use crate::figure::print_count;
use crate::refusal::flag;
use crate::Refusal;
use std::fmt;

/// The status of a word (its sign/status matrix).
#[derive(Clone, Copy, Debug, PartialEq, Eq, Hash)]
pub enum Status {
    Failure,
    NoData,
    Test,
    Ready,
}

/// The marker beacon of a VOR azimuth.
#[derive(Clone, Copy, Debug, PartialEq, Eq, Hash)]
pub enum Marker {
    None,
    Outer,
    Middle,
    Inner,
}

/// The category of an ILS.
#[derive(Clone, Copy, Debug, PartialEq, Eq, Hash)]
pub enum Category {
    NotStated,
    One,
    Two,
    Three,
}

/// What a word says, by its kind. Counts are in the kind's own steps, frequencies in tens of kHz.
#[derive(Clone, Copy, Debug, PartialEq, Eq, Hash)]
pub enum Body {
    VorAzimuth {
        status: Status,
        marker: Marker,
        count: i16,
    },
    /// Under ready and test the frequency is a channel: a multiple of 50 kHz from 108.00 to 117.95 MHz that is none of ILS; under
    /// nodata it is anything from 100.00 to 179.99 MHz. Anything else is refused 6.
    VorFrequency {
        status: Status,
        frequency: u32,
    },
    IlsCourse {
        status: Status,
        inhibit: bool,
        count: i16,
    },
    IlsGlide {
        status: Status,
        inhibit: bool,
        count: i16,
    },
    /// Under ready and test the frequency is a channel: one of the forty from 108.10 to 111.95 MHz with odd tenths and hundredths 0 or
    /// 5; under nodata it is anything from 100.00 to 179.99 MHz. Anything else is refused 6.
    IlsFrequency {
        status: Status,
        category: Category,
        frequency: u32,
    },
    /// The frequency is a channel under every status: one of the 200 from 5031.00 to 5090.70 MHz, 300 kHz apart. Anything else is refused 6.
    MlsFrequency {
        status: Status,
        frequency: u32,
    },
    MlsAzimuthDeviation {
        status: Status,
        inhibit: bool,
        clearance: bool,
        count: i16,
    },
    MlsGlideDeviation {
        status: Status,
        inhibit: bool,
        clearance: bool,
        count: i16,
    },
    SelectedAzimuth {
        status: Status,
        manual: bool,
        degrees: u32,
    },
    GreatestGlideAngle {
        status: Status,
        tenths: u32,
    },
    SelectedGlideAngle {
        status: Status,
        manual: bool,
        tenths: u32,
    },
    Part1 {
        word_number: u8,
        content: u32,
    },
    Part2 {
        content: u32,
    },
    Part3 {
        content: u32,
    },
    Part4 {
        parity_good: bool,
        content: u32,
    },
}

/// A word's record: its source (0 to 3) and what it says.
#[derive(Clone, Copy, Debug, PartialEq, Eq, Hash)]
pub struct Record {
    pub source: u8,
    pub body: Body,
}

/// The record of a word, or the first refusal in the order 1, 2, 3, 5, 4, 6, 7.
///
/// ```
/// use lampcygnet::{decode, Body, Marker, Refusal, Status};
///
/// let record = decode(0xE8000049)?;
/// assert_eq!(record.body, Body::VorAzimuth { status: Status::Ready, marker: Marker::None, count: 2048 });
/// assert_eq!(record.to_string(), "222 0 ready 90.000000");
/// assert_eq!(decode(0xE8000048), Err(Refusal::Parity));
/// # Ok::<(), Refusal>(())
/// ```
pub fn decode(word: u32) -> Result<Record, Refusal> {
    // The function takes every number and writes to no memory.
    let flat = unsafe { ffi::lampcygnet_decode(word) };
    Refusal::unless(flat.refusal, || Record::from_numbers(flat))?
}

impl Record {
    /// The word of this record, or its refusal: 4 if a code or the source is outside its list, else 6 if another field is.
    ///
    /// ```
    /// use lampcygnet::{Body, Record, Refusal, Status};
    ///
    /// let record = Record { source: 0, body: Body::VorFrequency { status: Status::Ready, frequency: 11320 } };
    /// assert_eq!(record.encode(), Ok(0x04C80038));
    /// assert_eq!(Record { source: 4, ..record }.encode(), Err(Refusal::Code));
    /// let no_channel = Body::VorFrequency { status: Status::Ready, frequency: 17833 };
    /// assert_eq!(Record { source: 0, body: no_channel }.encode(), Err(Refusal::Value));
    /// ```
    pub fn encode(&self) -> Result<u32, Refusal> {
        // The function takes every value of its fields and writes to no memory.
        let word = unsafe { ffi::lampcygnet_encode(self.to_numbers()) };
        Refusal::unless(word.refusal, || word.word)
    }

    /// The label of the record's kind, as a number.
    pub fn label(&self) -> u8 {
        match self.body {
            Body::VorAzimuth { .. } => 0o222,
            Body::VorFrequency { .. } => 0o034,
            Body::IlsCourse { .. } => 0o173,
            Body::IlsGlide { .. } => 0o174,
            Body::IlsFrequency { .. } => 0o033,
            Body::MlsFrequency { .. } => 0o036,
            Body::MlsAzimuthDeviation { .. } => 0o151,
            Body::MlsGlideDeviation { .. } => 0o152,
            Body::SelectedAzimuth { .. } => 0o153,
            Body::GreatestGlideAngle { .. } => 0o154,
            Body::SelectedGlideAngle { .. } => 0o155,
            Body::Part1 { .. } => 0o140,
            Body::Part2 { .. } => 0o141,
            Body::Part3 { .. } => 0o142,
            Body::Part4 { .. } => 0o143,
        }
    }

    /// The status, which the parts of the auxiliary data do not have.
    pub fn status(&self) -> Option<Status> {
        match self.body {
            Body::VorAzimuth { status, .. }
            | Body::VorFrequency { status, .. }
            | Body::IlsCourse { status, .. }
            | Body::IlsGlide { status, .. }
            | Body::IlsFrequency { status, .. }
            | Body::MlsFrequency { status, .. }
            | Body::MlsAzimuthDeviation { status, .. }
            | Body::MlsGlideDeviation { status, .. }
            | Body::SelectedAzimuth { status, .. }
            | Body::GreatestGlideAngle { status, .. }
            | Body::SelectedGlideAngle { status, .. } => Some(status),
            Body::Part1 { .. } | Body::Part2 { .. } | Body::Part3 { .. } | Body::Part4 { .. } => None,
        }
    }

    /// The count of a measured quantity: azimuth, course, glide, and the two MLS deviations.
    pub fn count(&self) -> Option<i16> {
        match self.body {
            Body::VorAzimuth { count, .. }
            | Body::IlsCourse { count, .. }
            | Body::IlsGlide { count, .. }
            | Body::MlsAzimuthDeviation { count, .. }
            | Body::MlsGlideDeviation { count, .. } => Some(count),
            _ => None,
        }
    }

    /// The record that the library's numbers stand for. A kind, a code or a flag that it does not have is an error.
    fn from_numbers(n: ffi::Record) -> Result<Record, Refusal> {
        let status = || match n.status {
            1 => Ok(Status::Failure),
            2 => Ok(Status::NoData),
            3 => Ok(Status::Test),
            4 => Ok(Status::Ready),
            _ => Err(Refusal::Unknown),
        };
        let marker = || match n.marker {
            0 => Ok(Marker::None),
            1 => Ok(Marker::Outer),
            2 => Ok(Marker::Middle),
            4 => Ok(Marker::Inner),
            _ => Err(Refusal::Unknown),
        };
        let category = || match n.category {
            0 => Ok(Category::NotStated),
            1 => Ok(Category::One),
            2 => Ok(Category::Two),
            3 => Ok(Category::Three),
            _ => Err(Refusal::Unknown),
        };
        let (inhibit, clearance, manual) = (|| flag(n.inhibit), || flag(n.clearance), || flag(n.manual));
        let (count, value) = (n.count, n.value);
        let body = match n.kind {
            1 => Body::VorAzimuth {
                status: status()?,
                marker: marker()?,
                count,
            },
            2 => Body::VorFrequency {
                status: status()?,
                frequency: value,
            },
            3 => Body::IlsCourse {
                status: status()?,
                inhibit: inhibit()?,
                count,
            },
            4 => Body::IlsGlide {
                status: status()?,
                inhibit: inhibit()?,
                count,
            },
            5 => Body::IlsFrequency {
                status: status()?,
                category: category()?,
                frequency: value,
            },
            6 => Body::MlsFrequency {
                status: status()?,
                frequency: value,
            },
            7 => Body::MlsAzimuthDeviation {
                status: status()?,
                inhibit: inhibit()?,
                clearance: clearance()?,
                count,
            },
            8 => Body::MlsGlideDeviation {
                status: status()?,
                inhibit: inhibit()?,
                clearance: clearance()?,
                count,
            },
            9 => Body::SelectedAzimuth {
                status: status()?,
                manual: manual()?,
                degrees: value,
            },
            10 => Body::GreatestGlideAngle {
                status: status()?,
                tenths: value,
            },
            11 => Body::SelectedGlideAngle {
                status: status()?,
                manual: manual()?,
                tenths: value,
            },
            12 => Body::Part1 {
                word_number: n.word_number,
                content: value,
            },
            13 => Body::Part2 { content: value },
            14 => Body::Part3 { content: value },
            15 => Body::Part4 {
                parity_good: flag(n.parity_good)?,
                content: value,
            },
            _ => return Err(Refusal::Unknown),
        };
        Ok(Record { source: n.source, body })
    }

    fn to_numbers(self) -> ffi::Record {
        let mut n = ffi::Record {
            source: self.source,
            ..ffi::Record::default()
        };
        n.status = match self.status() {
            None => 0,
            Some(Status::Failure) => 1,
            Some(Status::NoData) => 2,
            Some(Status::Test) => 3,
            Some(Status::Ready) => 4,
        };
        n.count = self.count().unwrap_or(0);
        match self.body {
            Body::VorAzimuth { marker, .. } => {
                n.kind = 1;
                n.marker = match marker {
                    Marker::None => 0,
                    Marker::Outer => 1,
                    Marker::Middle => 2,
                    Marker::Inner => 4,
                };
            }
            Body::VorFrequency { frequency, .. } => (n.kind, n.value) = (2, frequency),
            Body::IlsCourse { inhibit, .. } => (n.kind, n.inhibit) = (3, inhibit.into()),
            Body::IlsGlide { inhibit, .. } => (n.kind, n.inhibit) = (4, inhibit.into()),
            Body::IlsFrequency {
                category, frequency, ..
            } => {
                (n.kind, n.value) = (5, frequency);
                n.category = match category {
                    Category::NotStated => 0,
                    Category::One => 1,
                    Category::Two => 2,
                    Category::Three => 3,
                };
            }
            Body::MlsFrequency { frequency, .. } => (n.kind, n.value) = (6, frequency),
            Body::MlsAzimuthDeviation { inhibit, clearance, .. } => {
                (n.kind, n.inhibit, n.clearance) = (7, inhibit.into(), clearance.into());
            }
            Body::MlsGlideDeviation { inhibit, clearance, .. } => {
                (n.kind, n.inhibit, n.clearance) = (8, inhibit.into(), clearance.into());
            }
            Body::SelectedAzimuth { manual, degrees, .. } => (n.kind, n.manual, n.value) = (9, manual.into(), degrees),
            Body::GreatestGlideAngle { tenths, .. } => (n.kind, n.value) = (10, tenths),
            Body::SelectedGlideAngle { manual, tenths, .. } => {
                (n.kind, n.manual, n.value) = (11, manual.into(), tenths)
            }
            Body::Part1 { word_number, content } => (n.kind, n.word_number, n.value) = (12, word_number, content),
            Body::Part2 { content } => (n.kind, n.value) = (13, content),
            Body::Part3 { content } => (n.kind, n.value) = (14, content),
            Body::Part4 { parity_good, content } => {
                (n.kind, n.parity_good, n.value) = (15, parity_good.into(), content)
            }
        }
        n
    }
}

impl fmt::Display for Status {
    fn fmt(&self, f: &mut fmt::Formatter<'_>) -> fmt::Result {
        f.write_str(match self {
            Status::Failure => "failure",
            Status::NoData => "nodata",
            Status::Test => "test",
            Status::Ready => "ready",
        })
    }
}

/// A number of units of 1/10^places.
pub(crate) struct Fixed {
    pub units: i64,
    pub places: u32,
}

impl fmt::Display for Fixed {
    fn fmt(&self, f: &mut fmt::Formatter<'_>) -> fmt::Result {
        let (unit, size) = (10u64.pow(self.places), self.units.unsigned_abs());
        let sign = if self.units < 0 { "-" } else { "" };
        write!(f, "{sign}{}", size / unit)?;
        if self.places > 0 {
            write!(f, ".{:0width$}", size % unit, width = self.places as usize)?;
        }
        Ok(())
    }
}

/// The line of the listing: label, source, status or part, and figure.
impl fmt::Display for Record {
    fn fmt(&self, f: &mut fmt::Formatter<'_>) -> fmt::Result {
        write!(f, "{:03o} {} ", self.label(), self.source)?;
        let (units, places) = match self.body {
            Body::Part1 { word_number, content } => {
                return write!(f, "part1 {}", u32::from(word_number) + 256 * content)
            }
            Body::Part2 { content } => return write!(f, "part2 {content}"),
            Body::Part3 { content } => return write!(f, "part3 {content}"),
            Body::Part4 { content, .. } => return write!(f, "part4 {content}"),
            Body::VorFrequency { frequency, .. }
            | Body::IlsFrequency { frequency, .. }
            | Body::MlsFrequency { frequency, .. } => (i64::from(frequency), 2),
            Body::SelectedAzimuth { degrees, .. } => (i64::from(degrees), 0),
            Body::GreatestGlideAngle { tenths, .. } | Body::SelectedGlideAngle { tenths, .. } => (i64::from(tenths), 1),
            Body::VorAzimuth { count, .. }
            | Body::IlsCourse { count, .. }
            | Body::IlsGlide { count, .. }
            | Body::MlsAzimuthDeviation { count, .. }
            | Body::MlsGlideDeviation { count, .. } => match print_count(self.label(), count) {
                Ok(millionths) => (millionths, 6),
                Err(_) => return write!(f, "count {count}"),
            },
        };
        match self.status() {
            Some(status @ (Status::Failure | Status::NoData)) => write!(f, "{status} -"),
            Some(status) => write!(f, "{status} {}", Fixed { units, places }),
            None => Ok(()),
        }
    }
}

#[cfg(test)]
mod tests {
    use super::*;

    /// One number changed in the numbers of a record is refused where the record has no such number.
    fn refused(kind: u8, change: impl Fn(&mut ffi::Record)) {
        let mut numbers = ffi::Record {
            kind,
            status: 4,
            ..ffi::Record::default()
        };
        assert!(Record::from_numbers(numbers).is_ok());
        change(&mut numbers);
        assert_eq!(Record::from_numbers(numbers), Err(Refusal::Unknown));
    }

    #[test]
    fn an_unknown_number_is_an_error() {
        for kind in 1..=15 {
            refused(kind, |n| n.kind = 0);
            refused(kind, |n| n.kind += 15);
        }
        for kind in 1..=11 {
            refused(kind, |n| n.status = 0);
            refused(kind, |n| n.status = 5);
        }
        refused(1, |n| n.marker = 3);
        refused(5, |n| n.category = 4);
        refused(3, |n| n.inhibit = 2);
        refused(8, |n| n.clearance = 2);
        refused(9, |n| n.manual = 2);
        refused(15, |n| n.parity_good = 2);
    }
}
