//! Figures: a printed figure to its word, a count to its printed figure.

use crate::word::{self, Body, Record, READY};

/// One of the five measured quantities: its step is `numerator` / `denominator` millionths.
#[derive(Clone, Copy, Debug, PartialEq, Eq)]
pub struct Quantity {
    pub label: u8,
    pub numerator: i128,
    pub denominator: i128,
    pub least: i128,
    pub greatest: i128,
    pub circle: bool,
}

/// "the five quantities are 222, 173, 174, 151 and 152". "Steps: azimuth 45/1024 degree; course 1/10240 and glide 1/5120
/// of modulation depth difference"; request 3 of 151 and 152: "From here the step is exactly 75/1024 mV". "A legal count is any
/// that its 13 or 16 bits hold."
pub const QUANTITIES: [Quantity; 5] = [
    quantity(0o222, 45_000_000, 1024, 13, true),
    quantity(0o173, 1_000_000, 10240, 13, false),
    quantity(0o174, 1_000_000, 5120, 13, false),
    quantity(0o151, 75_000_000, 1024, 16, false),
    quantity(0o152, 75_000_000, 1024, 16, false),
];

const fn quantity(label: u8, numerator: i128, denominator: i128, width: u32, circle: bool) -> Quantity {
    let half = 1 << (width - 1);
    Quantity { label, numerator, denominator, least: -half, greatest: half - 1, circle }
}

/// The measured quantity of a label.
pub fn quantity_of(label: u8) -> Option<Quantity> {
    QUANTITIES.into_iter().find(|quantity| quantity.label == label)
}

const DEGREE: i128 = 1_000_000;

impl Quantity {
    /// "How far a value lies from a figure is the size of their exact difference; for 222 it is the least such size when
    /// the value may be moved by any whole number of turns of 360 degrees." Multiplied by the step's denominator.
    pub fn distance(&self, count: i128, figure: i128) -> i128 {
        let difference = figure * self.denominator - count * self.numerator;
        if !self.circle {
            return difference.abs();
        }
        let turn = 360 * DEGREE * self.denominator;
        let nearest_turns = difference / turn;
        (nearest_turns - 1..=nearest_turns + 1).map(|turns| (difference - turns * turn).abs()).min().unwrap()
    }

    /// "No other legal count of that quantity then has a value nearer to the figure than the coded count's; where another
    /// is equally near, the coded count is the even one": the best of some counts, by that sentence.
    fn best(&self, counts: impl Iterator<Item = i128>, figure: i128) -> i128 {
        counts.min_by_key(|&count| (self.distance(count, figure), count.rem_euclid(2))).unwrap()
    }

    /// The figure is refused: "A course, glide or MLS figure is refused exactly when no legal value lies within half a step
    /// of it. An azimuth is refused exactly when it is below -180, or is 360 or more."
    fn refuses(&self, best: i128, figure: i128) -> bool {
        if self.circle {
            !(-180 * DEGREE..360 * DEGREE).contains(&figure)
        } else {
            2 * self.distance(best, figure) > self.numerator
        }
    }

    /// The nearest legal count out of all of them, or none.
    pub fn nearest_by_scan(&self, figure: i128) -> Option<i128> {
        let best = self.best(self.least..=self.greatest, figure);
        (!self.refuses(best, figure)).then_some(best)
    }

    /// The same out of those few legal counts that can be nearest; tests hold it against the scan.
    pub fn nearest(&self, figure: i128) -> Option<i128> {
        let quotient = (figure * self.denominator).div_euclid(self.numerator);
        let span = self.greatest - self.least + 1;
        let near = (quotient - 2..=quotient + 2).map(|count| {
            if self.circle {
                (count - self.least).rem_euclid(span) + self.least
            } else {
                count.clamp(self.least, self.greatest)
            }
        });
        let best = self.best(near, figure);
        (!self.refuses(best, figure)).then_some(best)
    }

    /// "Printing rounds the count's exact value to the nearest millionth, ties to the even one."
    pub fn print(&self, count: i128) -> i128 {
        let exact = count * self.numerator;
        let below = exact.div_euclid(self.denominator);
        [below, below + 1]
            .into_iter()
            .min_by_key(|&millionths| ((exact - millionths * self.denominator).abs(), millionths.rem_euclid(2)))
            .unwrap()
    }
}

/// A record of a measured label with that source and count, "status ready and every field but the count zero".
pub fn measured_record(label: u8, source: u8, count: i64) -> Option<Record> {
    let status = READY;
    let (inhibit, clearance) = (false, false);
    let body = match label {
        0o222 => Body::VorAzimuth { status, marker: 0, count },
        0o173 => Body::IlsCourse { status, inhibit, count },
        0o174 => Body::IlsGlide { status, inhibit, count },
        0o151 => Body::MlsAzimuth { status, inhibit, clearance, count },
        0o152 => Body::MlsGlide { status, inhibit, clearance, count },
        _ => return None,
    };
    Some(Record { source, body })
}

/// "Coding a figure takes label, source and a signed 64-bit whole number of millionths (degree, depth difference, mV).
/// Order: 2, 4, 8. The word has that label and source, status ready and every field but the count zero."
pub fn code(label: u8, source: u8, millionths: i64) -> Result<u32, u8> {
    let quantity = quantity_of(label).ok_or(2)?;
    if source > 3 {
        return Err(4);
    }
    let count = quantity.nearest(i128::from(millionths)).ok_or(8)?;
    word::encode(&measured_record(label, source, count as i64).unwrap())
}

/// The printed figure of a legal count of a measured label, in millionths; none for another label or count.
pub fn print_millionths(label: u8, count: i64) -> Option<i64> {
    let quantity = quantity_of(label)?;
    let count = i128::from(count);
    (quantity.least..=quantity.greatest).contains(&count).then(|| quantity.print(count) as i64)
}

/// Millionths as text: "six decimals for counts".
pub fn decimals_text(millionths: i64) -> String {
    let sign = if millionths < 0 { "-" } else { "" };
    let size = millionths.unsigned_abs();
    format!("{sign}{}.{:06}", size / 1_000_000, size % 1_000_000)
}

/// The printed figure of a count as text.
pub fn print_text(label: u8, count: i64) -> Option<String> {
    print_millionths(label, count).map(decimals_text)
}

/// "A figure agrees with a word when it codes, under that word's label and source, to the word's count; with a refused or
/// unmeasured word none agrees."
pub fn agrees(word: u32, millionths: i64) -> bool {
    let Ok(record) = word::decode(word) else {
        return false;
    };
    let Some(count) = word::count_of(&record) else {
        return false;
    };
    match code(word::label_of(word), record.source, millionths) {
        Ok(coded) => word::count_of(&word::decode(coded).unwrap()) == Some(count),
        Err(_) => false,
    }
}
