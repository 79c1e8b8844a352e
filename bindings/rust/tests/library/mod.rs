//! The library as the model's subject: its records and refusals in the model's numbers.

use lampcygnet::sheet::{self, Content, Range, Sheet, SheetRefusal, Summary};
use lampcygnet::{Body, Category, Marker, Reading, Reason, Record, Refusal, Shown, Status};
use model::compare::Subject;
use model::reading::Value;
use model::sheet::{FIGURE, GROUP, NOTE, WORD};

/// The library's records and refusals in the model's numbers.
pub struct Library;

fn status_number(status: Status) -> u8 {
    match status {
        Status::Failure => 0,
        Status::NoData => 1,
        Status::Test => 2,
        Status::Ready => 3,
    }
}

fn status_of(number: u8) -> Option<Status> {
    [Status::Failure, Status::NoData, Status::Test, Status::Ready]
        .into_iter()
        .find(|s| status_number(*s) == number)
}

fn marker_number(marker: Marker) -> u8 {
    match marker {
        Marker::None => 0,
        Marker::Outer => 1,
        Marker::Middle => 2,
        Marker::Inner => 3,
    }
}

fn marker_of(number: u8) -> Option<Marker> {
    [Marker::None, Marker::Outer, Marker::Middle, Marker::Inner]
        .into_iter()
        .find(|m| marker_number(*m) == number)
}

fn category_number(category: Category) -> u8 {
    match category {
        Category::NotStated => 0,
        Category::One => 1,
        Category::Two => 2,
        Category::Three => 3,
    }
}

fn category_of(number: u8) -> Option<Category> {
    [Category::NotStated, Category::One, Category::Two, Category::Three]
        .into_iter()
        .find(|c| category_number(*c) == number)
}

fn to_model(record: Record) -> model::Record {
    let status = record.status().map_or(0, status_number);
    let count = i64::from(record.count().unwrap_or(0));
    let body = match record.body {
        Body::VorAzimuth { marker, .. } => model::Body::VorAzimuth {
            status,
            marker: marker_number(marker),
            count,
        },
        Body::VorFrequency { frequency, .. } => model::Body::VorFrequency {
            status,
            frequency: frequency.into(),
        },
        Body::IlsCourse { inhibit, .. } => model::Body::IlsCourse { status, inhibit, count },
        Body::IlsGlide { inhibit, .. } => model::Body::IlsGlide { status, inhibit, count },
        Body::IlsFrequency {
            category, frequency, ..
        } => model::Body::IlsFrequency {
            status,
            category: category_number(category),
            frequency: frequency.into(),
        },
        Body::MlsFrequency { frequency, .. } => model::Body::MlsFrequency {
            status,
            frequency: frequency.into(),
        },
        Body::MlsAzimuthDeviation { inhibit, clearance, .. } => model::Body::MlsAzimuth {
            status,
            inhibit,
            clearance,
            count,
        },
        Body::MlsGlideDeviation { inhibit, clearance, .. } => model::Body::MlsGlide {
            status,
            inhibit,
            clearance,
            count,
        },
        Body::SelectedAzimuth { manual, degrees, .. } => model::Body::SelectedAzimuth {
            status,
            manual,
            degrees: degrees.into(),
        },
        Body::GreatestGlideAngle { tenths, .. } => model::Body::GreatestGlide {
            status,
            tenths: tenths.into(),
        },
        Body::SelectedGlideAngle { manual, tenths, .. } => model::Body::SelectedGlide {
            status,
            manual,
            tenths: tenths.into(),
        },
        Body::Part1 { word_number, content } => model::Body::Part1 {
            number: word_number.into(),
            content: content.into(),
        },
        Body::Part2 { content } => model::Body::Part2 {
            content: content.into(),
        },
        Body::Part3 { content } => model::Body::Part3 {
            content: content.into(),
        },
        Body::Part4 { parity_good, content } => model::Body::Part4 {
            parity: parity_good,
            content: content.into(),
        },
    };
    model::Record {
        source: record.source,
        body,
    }
}

/// The library's record, where its types can hold the model's numbers.
fn from_model(record: &model::Record) -> Option<Record> {
    let body = match record.body {
        model::Body::VorAzimuth { status, marker, count } => Body::VorAzimuth {
            status: status_of(status)?,
            marker: marker_of(marker)?,
            count: count.try_into().ok()?,
        },
        model::Body::VorFrequency { status, frequency } => Body::VorFrequency {
            status: status_of(status)?,
            frequency: frequency.try_into().ok()?,
        },
        model::Body::IlsCourse { status, inhibit, count } => Body::IlsCourse {
            status: status_of(status)?,
            inhibit,
            count: count.try_into().ok()?,
        },
        model::Body::IlsGlide { status, inhibit, count } => Body::IlsGlide {
            status: status_of(status)?,
            inhibit,
            count: count.try_into().ok()?,
        },
        model::Body::IlsFrequency {
            status,
            category,
            frequency,
        } => Body::IlsFrequency {
            status: status_of(status)?,
            category: category_of(category)?,
            frequency: frequency.try_into().ok()?,
        },
        model::Body::MlsFrequency { status, frequency } => Body::MlsFrequency {
            status: status_of(status)?,
            frequency: frequency.try_into().ok()?,
        },
        model::Body::MlsAzimuth {
            status,
            inhibit,
            clearance,
            count,
        } => Body::MlsAzimuthDeviation {
            status: status_of(status)?,
            inhibit,
            clearance,
            count: count.try_into().ok()?,
        },
        model::Body::MlsGlide {
            status,
            inhibit,
            clearance,
            count,
        } => Body::MlsGlideDeviation {
            status: status_of(status)?,
            inhibit,
            clearance,
            count: count.try_into().ok()?,
        },
        model::Body::SelectedAzimuth {
            status,
            manual,
            degrees,
        } => Body::SelectedAzimuth {
            status: status_of(status)?,
            manual,
            degrees: degrees.try_into().ok()?,
        },
        model::Body::GreatestGlide { status, tenths } => Body::GreatestGlideAngle {
            status: status_of(status)?,
            tenths: tenths.try_into().ok()?,
        },
        model::Body::SelectedGlide { status, manual, tenths } => Body::SelectedGlideAngle {
            status: status_of(status)?,
            manual,
            tenths: tenths.try_into().ok()?,
        },
        model::Body::Part1 { number, content } => Body::Part1 {
            word_number: number.try_into().ok()?,
            content: content.try_into().ok()?,
        },
        model::Body::Part2 { content } => Body::Part2 {
            content: content.try_into().ok()?,
        },
        model::Body::Part3 { content } => Body::Part3 {
            content: content.try_into().ok()?,
        },
        model::Body::Part4 { parity, content } => Body::Part4 {
            parity_good: parity,
            content: content.try_into().ok()?,
        },
    };
    Some(Record {
        source: record.source,
        body,
    })
}

/// The model's reading. Whether a setting was made by hand is the record's mark.
fn reading_to_model(reading: Reading, test: bool, record: Record) -> model::reading::Reading {
    let by_hand = |expected: bool| match record.body {
        Body::SelectedAzimuth { manual, .. } | Body::SelectedGlideAngle { manual, .. } => assert_eq!(expected, manual),
        _ => panic!("no setting: {record:?}"),
    };
    let value = match reading {
        Reading::Degrees(value) => Value::Degrees(value),
        Reading::DepthDifference(value) => Value::Depth(value),
        Reading::Millivolts(value) => Value::Millivolts(value),
        Reading::TensOfKhz(whole) => Value::Frequency(whole),
        Reading::GreatestTenths(whole) => Value::Setting(whole),
        Reading::SelectedDegrees(whole, manual) | Reading::SelectedTenths(whole, manual) => {
            by_hand(manual);
            Value::Setting(whole)
        }
    };
    model::reading::Reading { value, test }
}

fn refused(refusal: SheetRefusal) -> (u8, usize) {
    (refusal.refusal.number(), refusal.offset)
}

/// Where a part of a sheet starts; the part must be the sheet's own bytes.
fn offset_in(sheet: &[u8], part: &[u8]) -> usize {
    let offset = (part.as_ptr() as usize).wrapping_sub(sheet.as_ptr() as usize);
    assert!(
        offset <= sheet.len() && part.len() <= sheet.len() - offset,
        "not the sheet's own bytes"
    );
    offset
}

fn field_to_model(bytes: &[u8], field: sheet::Field) -> model::Field {
    let after_header = field.place + 3;
    let (tag, content) = match field.content {
        Content::Word(_) => (WORD, after_header..after_header + 4),
        Content::Figure { .. } => (FIGURE, after_header..after_header + 9),
        Content::Note(part) | Content::Group(part) => {
            let start = offset_in(bytes, part);
            let tag = if matches!(field.content, Content::Note(_)) {
                NOTE
            } else {
                GROUP
            };
            (tag, start..start + part.len())
        }
    };
    model::Field {
        tag,
        place: field.place,
        depth: field.depth.into(),
        content,
    }
}

fn content_to_model(content: Content) -> model::Content {
    match content {
        Content::Word(word) => model::Content::Word(word),
        Content::Figure { label, millionths } => model::Content::Figure(label, millionths),
        Content::Note(text) => model::Content::Note(text),
        Content::Group(run) => model::Content::Group(run),
    }
}

fn content_from_model<'a>(content: &model::Content<'a>) -> Content<'a> {
    match *content {
        model::Content::Word(word) => Content::Word(word),
        model::Content::Figure(label, millionths) => Content::Figure { label, millionths },
        model::Content::Note(text) => Content::Note(text),
        model::Content::Group(run) => Content::Group(run),
    }
}

/// The model's summary. The range must be one of the label's own.
fn summary_to_model(summary: Summary) -> model::Summary {
    let range = summary.range.map(|range| match (summary.label, range) {
        (0o173, Range::IlsCourse { least, greatest })
        | (0o174, Range::IlsGlide { least, greatest })
        | (0o151, Range::MlsAzimuthDeviation { least, greatest })
        | (0o152, Range::MlsGlideDeviation { least, greatest }) => (least.into(), greatest.into()),
        _ => panic!("no range of its label: {summary:?}"),
    });
    let number = |number: u64| number.try_into().unwrap();
    model::Summary {
        ready: number(summary.ready),
        test: number(summary.test),
        nodata: number(summary.nodata),
        failure: number(summary.failure),
        refused: number(summary.refused),
        other: number(summary.other),
        words: number(summary.words),
        least: range.map(|range| range.0),
        greatest: range.map(|range| range.1),
        sum: summary.sum,
        mean: summary.mean().map(|mean| (mean.sum, number(mean.number))),
    }
}

/// The refusal and the count of a word by the single call, as a page has them.
pub fn single_answer(word: u32) -> (u8, i16) {
    match lampcygnet::decode(word) {
        Ok(record) => (0, record.count().unwrap_or(0)),
        Err(refusal) => (refusal.number(), 0),
    }
}

/// A page beside the answers of the single calls.
pub fn page_beside_singles(words: &[u32], singles: (Vec<u8>, Vec<i16>)) -> Result<(), String> {
    let page = lampcygnet::decode_to_vecs(words);
    if page == singles {
        return Ok(());
    }
    let answers = |(refusals, counts): (Vec<u8>, Vec<i16>)| refusals.into_iter().zip(counts);
    let mut beside = words.iter().zip(answers(page).zip(answers(singles)));
    let (word, (theirs, single)) = beside.find(|(_, (theirs, single))| theirs != single).unwrap();
    Err(format!(
        "{word:08X} in a page: got {theirs:?}, the single call gives {single:?}"
    ))
}

impl Subject for Library {
    fn decode(&self, word: u32) -> Result<model::Record, u8> {
        lampcygnet::decode(word).map(to_model).map_err(Refusal::number)
    }
    fn encode(&self, record: &model::Record) -> Result<u32, u8> {
        match from_model(record) {
            Some(record) => record.encode().map_err(Refusal::number),
            None => model::encode(record),
        }
    }
    fn decode_page(&self, words: &[u32], refusals: &mut [u8], counts: &mut [i16]) -> Result<(), u8> {
        lampcygnet::decode_page(words, refusals, counts).map_err(Refusal::number)?;
        let (numbers, records_counts) = lampcygnet::decode_to_vecs(words);
        assert_eq!((numbers.len(), records_counts.len()), (words.len(), words.len()));
        assert!(refusals.starts_with(&numbers) && counts.starts_with(&records_counts));
        Ok(())
    }
    fn reading(&self, word: u32) -> Result<Option<model::reading::Reading>, u8> {
        let shown = lampcygnet::reading(word).map_err(Refusal::number)?;
        let record = lampcygnet::decode(word).map_err(Refusal::number)?;
        Ok(match shown {
            Shown::Absent => None,
            Shown::Ready(reading) => Some(reading_to_model(reading, false, record)),
            Shown::Test(reading) => Some(reading_to_model(reading, true, record)),
        })
    }
    fn code(&self, label: u8, source: u8, millionths: i64) -> Result<u32, u8> {
        lampcygnet::code_figure(label, source, millionths).map_err(Refusal::number)
    }
    fn print(&self, label: u8, count: i64) -> Option<i64> {
        lampcygnet::print_count(label, count.try_into().ok()?).ok()
    }
    fn agrees(&self, word: u32, millionths: i64) -> bool {
        lampcygnet::agrees(word, millionths)
    }
    fn explain(&self, word: u32, millionths: i64) -> Result<u8, u8> {
        lampcygnet::explain(word, millionths)
            .map(Reason::number)
            .map_err(Refusal::number)
    }
    fn chart_point(&self, course: u32, glide: u32) -> Result<(f64, f64), u8> {
        lampcygnet::chart_point(course, glide)
            .map(|p| (p.course, p.glide))
            .map_err(Refusal::number)
    }
    fn check(&self, sheet: &[u8]) -> Result<Vec<model::Field>, (u8, usize)> {
        let fields = Sheet::new(sheet).map_err(refused)?.fields();
        Ok(fields.map(|field| field_to_model(sheet, field)).collect())
    }
    fn contents<'a>(&self, sheet: &'a [u8]) -> Vec<model::Content<'a>> {
        let fields = Sheet::new(sheet).into_iter().flatten();
        fields.map(|field| content_to_model(field.content)).collect()
    }
    fn note<'a>(&self, sheet: &'a [u8], place: usize) -> Result<&'a [u8], (u8, usize)> {
        let text = Sheet::new(sheet).and_then(|sheet| sheet.note(place)).map_err(refused)?;
        assert_eq!(offset_in(sheet, text), place + 3);
        Ok(text)
    }
    fn write(&self, buffer: &mut [u8], place: usize, content: &model::Content) -> Result<usize, (u8, Option<usize>)> {
        content_from_model(content)
            .write(buffer, place)
            .map_err(|refusal| match refused(refusal) {
                (number @ (13 | 15), 0) => (number, None),
                (number, offset) => (number, Some(offset)),
            })
    }
    fn list(&self, sheet: &[u8]) -> String {
        sheet::list(sheet)
    }
    fn list_into(&self, sheet: &[u8], buffer: &mut [u8]) -> Result<usize, u8> {
        sheet::list_into(sheet, buffer).map_err(Refusal::number)
    }
    fn summarize(&self, sheet: &[u8], label: u8, source: u8) -> Result<model::Summary, model::summary::Refusal> {
        let answer = sheet::summarize(sheet, label, source);
        if let Ok(sheet) = Sheet::new(sheet) {
            assert_eq!(sheet.summary(label, source), answer.map_err(|refused| refused.refusal));
        }
        let summary = answer.map_err(|refusal| match refused(refusal) {
            (number @ (2 | 4), 0) => (number, None),
            (number, offset) => (number, Some(offset)),
        })?;
        assert_eq!((summary.label, summary.source), (label, source));
        Ok(summary_to_model(summary))
    }
}
