use super::{Sheet, SheetRefusal};
use crate::ffi;
use crate::figure::print_count;
use crate::record::Fixed;
use crate::Refusal;
use std::fmt;

/// The least and the greatest count of some ready words, in the steps of the deviation that they measure.
#[derive(Clone, Copy, Debug, PartialEq, Eq, Hash)]
pub enum Range {
    IlsCourse { least: i16, greatest: i16 },
    IlsGlide { least: i16, greatest: i16 },
    MlsAzimuthDeviation { least: i16, greatest: i16 },
    MlsGlideDeviation { least: i16, greatest: i16 },
}

impl Range {
    /// The range of two counts of a label. A label whose words measure no deviation is an error.
    fn of_label(label: u8, least: i16, greatest: i16) -> Result<Range, Refusal> {
        match label {
            0o173 => Ok(Range::IlsCourse { least, greatest }),
            0o174 => Ok(Range::IlsGlide { least, greatest }),
            0o151 => Ok(Range::MlsAzimuthDeviation { least, greatest }),
            0o152 => Ok(Range::MlsGlideDeviation { least, greatest }),
            _ => Err(Refusal::Unknown),
        }
    }

    /// The least count and the greatest.
    pub fn counts(&self) -> (i16, i16) {
        match *self {
            Range::IlsCourse { least, greatest }
            | Range::IlsGlide { least, greatest }
            | Range::MlsAzimuthDeviation { least, greatest }
            | Range::MlsGlideDeviation { least, greatest } => (least, greatest),
        }
    }
}

/// The mean of some counts: their sum over how many they are, not reduced.
#[derive(Clone, Copy, Debug, PartialEq, Eq, Hash)]
pub struct Mean {
    pub sum: i64,
    pub number: u64,
}

impl fmt::Display for Mean {
    fn fmt(&self, f: &mut fmt::Formatter<'_>) -> fmt::Result {
        write!(f, "{}/{}", self.sum, self.number)
    }
}

/// The words of a sheet, at every depth, summed up for one label and source.
#[derive(Clone, Copy, Debug, PartialEq, Eq, Hash)]
pub struct Summary {
    pub label: u8,
    pub source: u8,
    /// The accepted words of the label and source that are ready.
    pub ready: u64,
    /// Those under test.
    pub test: u64,
    /// Those with no data.
    pub nodata: u64,
    /// Those under failure.
    pub failure: u64,
    /// The refused words, of any label.
    pub refused: u64,
    /// The accepted words of other labels or sources.
    pub other: u64,
    /// All words: the six numbers before add up to it.
    pub words: u64,
    /// The least and the greatest count of the ready ones; none where there is no such word.
    pub range: Option<Range>,
    /// The sum of their counts.
    pub sum: i64,
}

impl Summary {
    /// The mean count of the ready words; none where there is no such word.
    pub fn mean(&self) -> Option<Mean> {
        (self.ready != 0).then_some(Mean {
            sum: self.sum,
            number: self.ready,
        })
    }

    /// The summary that the library's numbers stand for, of the label and source that were asked for.
    fn from_numbers(label: u8, source: u8, n: ffi::Summary) -> Result<Summary, Refusal> {
        let range = Range::of_label(label, n.least, n.greatest)?;
        Ok(Summary {
            label,
            source,
            ready: n.ready,
            test: n.test,
            nodata: n.nodata,
            failure: n.failure,
            refused: n.refused,
            other: n.other,
            words: n.words,
            range: (n.ready != 0).then_some(range),
            sum: n.sum,
        })
    }

    /// A count and the figure that it is printed as.
    fn put_count(&self, f: &mut fmt::Formatter<'_>, name: &str, count: Option<i16>) -> fmt::Result {
        let Some(count) = count else {
            return write!(f, "{name} -");
        };
        write!(f, "{name} {count}")?;
        match print_count(self.label, count) {
            Ok(units) => write!(f, " {}", Fixed { units, places: 6 }),
            Err(_) => Ok(()),
        }
    }
}

/// The summary as the program tells it, with a newline after each line.
impl fmt::Display for Summary {
    fn fmt(&self, f: &mut fmt::Formatter<'_>) -> fmt::Result {
        write!(f, "{:03o} source {}: ready {} ", self.label, self.source, self.ready)?;
        writeln!(f, "test {} nodata {} failure {}", self.test, self.nodata, self.failure)?;
        let counts = self.range.map(|range| range.counts());
        self.put_count(f, "least", counts.map(|counts| counts.0))?;
        self.put_count(f, " greatest", counts.map(|counts| counts.1))?;
        match self.mean() {
            Some(mean) => writeln!(f, "\nsum {} mean {mean}", self.sum)?,
            None => writeln!(f, "\nsum {} mean -", self.sum)?,
        }
        writeln!(f, "words {} refused {} other {}", self.words, self.refused, self.other)
    }
}

/// The summary of any bytes for a label and a source. Refused 2 unless the label is 173, 174, 151 or 152 (an azimuth has no
/// mean on a line), then 4 where the source is above 3, then as [`Sheet::new`] refuses the bytes; the offset beside 2 and 4
/// is 0.
///
/// ```
/// use lampcygnet::sheet::{summarize, SheetRefusal};
/// use lampcygnet::Refusal;
///
/// assert_eq!(summarize(&[0x13], 0o222, 4), Err(SheetRefusal { refusal: Refusal::Label, offset: 0 }));
/// assert_eq!(summarize(&[0x13], 0o173, 4), Err(SheetRefusal { refusal: Refusal::Code, offset: 0 }));
/// assert_eq!(summarize(&[0x13], 0o173, 0), Err(SheetRefusal { refusal: Refusal::Truncated, offset: 0 }));
/// assert_eq!(summarize(&[], 0o173, 0).unwrap().words, 0);
/// ```
pub fn summarize(bytes: &[u8], label: u8, source: u8) -> Result<Summary, SheetRefusal> {
    // Pointer and length are those of a slice, which is only read.
    let n = unsafe { ffi::lampcygnet_summarize(bytes.as_ptr(), bytes.len(), label.into(), source.into()) };
    SheetRefusal::unless(n.refusal, n.offset, || Summary::from_numbers(label, source, n))?
        .map_err(|refusal| SheetRefusal { refusal, offset: 0 })
}

impl Sheet<'_> {
    /// The summary for a label and a source: how many of their words are ready, test, nodata and failure, and over the ready
    /// ones the least and the greatest count, the sum and the mean. Refused 2 unless the label is 173, 174, 151 or 152, then
    /// 4 where the source is above 3. [`summarize`] also takes bytes that are no sheet.
    ///
    /// ```
    /// use lampcygnet::sheet::{Builder, Mean, Range, SheetRefusal};
    /// use lampcygnet::Refusal;
    ///
    /// let mut flight = Builder::new();
    /// flight.word(0x640000DE)?.word(0x7FFF00DE)?.word(0xA40000DE)?.word(0xE8000049)?.word(0xE8000048)?;
    /// let summary = flight.sheet().summary(0o173, 0).unwrap();
    /// assert_eq!((summary.ready, summary.nodata, summary.other, summary.refused), (2, 1, 1, 1));
    /// assert_eq!(summary.range, Some(Range::IlsCourse { least: -1, greatest: 1024 }));
    /// assert_eq!(summary.mean(), Some(Mean { sum: 1023, number: 2 }));
    /// assert_eq!(
    ///     summary.to_string(),
    ///     "173 source 0: ready 2 test 0 nodata 1 failure 0\n\
    ///      least -1 -0.000098 greatest 1024 0.100000\n\
    ///      sum 1023 mean 1023/2\n\
    ///      words 5 refused 1 other 1\n"
    /// );
    /// assert_eq!(flight.sheet().summary(0o174, 0).unwrap().range, None);
    /// assert_eq!(flight.sheet().summary(0o222, 0), Err(Refusal::Label));
    /// # Ok::<(), SheetRefusal>(())
    /// ```
    pub fn summary(&self, label: u8, source: u8) -> Result<Summary, Refusal> {
        summarize(self.bytes, label, source).map_err(|refused| refused.refusal)
    }
}

#[cfg(test)]
mod tests {
    use super::*;

    #[test]
    fn a_range_has_its_label() {
        let numbers = ffi::Summary {
            ready: 1,
            words: 1,
            least: -3,
            greatest: -3,
            sum: -3,
            ..ffi::Summary::default()
        };
        for label in 0..=u8::MAX {
            let summary = Summary::from_numbers(label, 2, numbers);
            let (least, greatest) = (-3, -3);
            let range = match label {
                0o173 => Range::IlsCourse { least, greatest },
                0o174 => Range::IlsGlide { least, greatest },
                0o151 => Range::MlsAzimuthDeviation { least, greatest },
                0o152 => Range::MlsGlideDeviation { least, greatest },
                _ => {
                    assert_eq!(summary, Err(Refusal::Unknown));
                    continue;
                }
            };
            let summary = summary.unwrap();
            assert_eq!((summary.label, summary.source), (label, 2));
            assert_eq!((summary.range, range.counts()), (Some(range), (-3, -3)));
            assert_eq!(summary.mean(), Some(Mean { sum: -3, number: 1 }));
        }
    }

    #[test]
    fn no_ready_word_has_no_range() {
        let summary = Summary::from_numbers(0o151, 3, ffi::Summary::default()).unwrap();
        assert_eq!((summary.range, summary.sum, summary.mean()), (None, 0, None));
        let text = "151 source 3: ready 0 test 0 nodata 0 failure 0\n\
                    least - greatest -\n\
                    sum 0 mean -\n\
                    words 0 refused 0 other 0\n";
        assert_eq!(summary.to_string(), text);
    }
}
