//! Readings and the chart point.

use crate::word::{self, Body, Record, READY, TEST};

/// "A reading is degrees, depth difference, nanovolts, frequency or a setting, never a bare number"; request 3: "the
/// whole-nanovolt reading becomes a double".
#[derive(Clone, Copy, Debug, PartialEq)]
pub enum Value {
    Degrees(f64),
    Depth(f64),
    Millivolts(f64),
    Frequency(i64),
    Setting(i64),
}

/// A reading and its test mark: "test is marked".
#[derive(Clone, Copy, Debug, PartialEq)]
pub struct Reading {
    pub value: Value,
    pub test: bool,
}

/// "Its reading exists exactly under ready and test (test is marked); parts have none. For 222 the reading is a double,
/// exactly count x 45 / 1024 degrees; for 173 and 174 a double, one division of the count by 10240 or 5120." "frequencies as
/// whole tens of kHz." Request 3 of 151 and 152: "a double, exactly count x 75 / 1024 mV."
pub fn reading(record: &Record) -> Option<Reading> {
    let status = word::status_of(record)?;
    if status != READY && status != TEST {
        return None;
    }
    let value = match record.body {
        Body::VorAzimuth { count, .. } => Value::Degrees((count * 45) as f64 / 1024.0),
        Body::IlsCourse { count, .. } => Value::Depth(count as f64 / 10240.0),
        Body::IlsGlide { count, .. } => Value::Depth(count as f64 / 5120.0),
        Body::MlsAzimuth { count, .. } | Body::MlsGlide { count, .. } => {
            Value::Millivolts((count * 75) as f64 / 1024.0)
        }
        Body::VorFrequency { frequency, .. }
        | Body::IlsFrequency { frequency, .. }
        | Body::MlsFrequency { frequency, .. } => Value::Frequency(frequency),
        Body::SelectedAzimuth { degrees, .. } => Value::Setting(degrees),
        Body::GreatestGlide { tenths, .. } | Body::SelectedGlide { tenths, .. } => Value::Setting(tenths),
        Body::Part1 { .. } | Body::Part2 { .. } | Body::Part3 { .. } | Body::Part4 { .. } => return None,
    };
    Some(Reading { value, test: status == TEST })
}

/// "A chart point holds the course and glide doubles together. It takes a course word and a glide word and refuses in this
/// order: the first word's number, the second's, 2 if they are not 173 and 174, 4 if their sources differ, 8 if one has no
/// reading."
pub fn chart_point(course: u32, glide: u32) -> Result<(f64, f64), u8> {
    let first = word::decode(course)?;
    let second = word::decode(glide)?;
    if (word::label_of(course), word::label_of(glide)) != (0o173, 0o174) {
        return Err(2);
    }
    if first.source != second.source {
        return Err(4);
    }
    match (reading(&first), reading(&second)) {
        (Some(Reading { value: Value::Depth(x), .. }), Some(Reading { value: Value::Depth(y), .. })) => Ok((x, y)),
        _ => Err(8),
    }
}
