//! The listing of a sheet as text.

use crate::figure;
use crate::sheet::{self, Field, FIGURE, WORD};
use crate::word::{self, Body, Record, FAILURE, NODATA, TEST};

/// "The listing program reads a sheet. A bad sheet gives only `sheet refused N at P`. Otherwise one line a word ... Groups
/// and notes print nothing. ... Last comes the total": "word fields in the sheet, and those whose word is refused".
pub fn list(sheet: &[u8]) -> String {
    let fields = match sheet::check(sheet) {
        Ok(fields) => fields,
        Err((number, offset)) => return format!("sheet refused {number} at {offset}\n"),
    };
    let mut text = String::new();
    for (index, field) in fields.iter().enumerate() {
        match field.tag {
            WORD => text += &word_line(word_in(sheet, field)),
            FIGURE => text += figure_line(sheet, field, before(&fields, index)),
            _ => {}
        }
    }
    let words: Vec<u32> = fields.iter().filter(|field| field.tag == WORD).map(|field| word_in(sheet, field)).collect();
    let refused = words.iter().filter(|&&word| word::decode(word).is_err()).count();
    text + &format!("words {} refused {}\n", words.len(), refused)
}

/// The listing at the start of a buffer: "13: no room in the lent buffer"; "Lent memory stays as it stood". Gives its length.
pub fn list_into(sheet: &[u8], buffer: &mut [u8]) -> Result<usize, u8> {
    let text = list(sheet);
    let start = buffer.get_mut(..text.len()).ok_or(13)?;
    start.copy_from_slice(text.as_bytes());
    Ok(text.len())
}

fn word_in(sheet: &[u8], field: &Field) -> u32 {
    u32::from_be_bytes(sheet[field.content.clone()].try_into().unwrap())
}

/// "the field just before it in its group": out of those before it that are in its group, or further in, the one of its depth
/// whose content ends where its tag stands.
fn before(fields: &[Field], index: usize) -> Option<&Field> {
    let field = &fields[index];
    let mut in_group = fields[..index].iter().rev().take_while(|other| other.depth >= field.depth);
    in_group.find(|other| other.depth == field.depth && other.content.end == field.place)
}

/// "one line a word: label in three octal digits, source, status, figure, or `refused N`."
pub fn word_line(word: u32) -> String {
    match word::decode(word) {
        Err(number) => format!("refused {number}\n"),
        Ok(record) => {
            let label = word::label_of(word);
            format!("{label:03o} {} {} {}\n", record.source, status_text(&record), figure_text(word, &record))
        }
    }
}

/// The status's name; "parts show `part1` to `part4` in the status's place".
fn status_text(record: &Record) -> &'static str {
    match (word::status_of(record), &record.body) {
        (Some(FAILURE), _) => "failure",
        (Some(NODATA), _) => "nodata",
        (Some(TEST), _) => "test",
        (Some(_), _) => "ready",
        (None, Body::Part1 { .. }) => "part1",
        (None, Body::Part2 { .. }) => "part2",
        (None, Body::Part3 { .. }) => "part3",
        (None, _) => "part4",
    }
}

/// "Failure and nodata show `-`. Figures: six decimals for counts, two for MHz, whole degrees for 153, one decimal for 154
/// and 155; parts show ... bits 14-29 as a number."
fn figure_text(word: u32, record: &Record) -> String {
    if matches!(word::status_of(record), Some(FAILURE | NODATA)) {
        return "-".to_string();
    }
    match record.body {
        Body::VorFrequency { frequency, .. }
        | Body::IlsFrequency { frequency, .. }
        | Body::MlsFrequency { frequency, .. } => {
            format!("{}.{:02}", frequency / 100, frequency % 100)
        }
        Body::SelectedAzimuth { degrees, .. } => degrees.to_string(),
        Body::GreatestGlide { tenths, .. } | Body::SelectedGlide { tenths, .. } => {
            format!("{}.{}", tenths / 10, tenths % 10)
        }
        Body::Part1 { .. } | Body::Part2 { .. } | Body::Part3 { .. } | Body::Part4 { .. } => {
            word::bits(word, 14, 29).to_string()
        }
        _ => figure::print_text(word::label_of(word), word::count_of(record).unwrap()).unwrap(),
    }
}

/// "A figure field gives `figure agrees`, `figure differs`, or `figure unmatched` when the field just before it in its group
/// is not an accepted measured word of its label with a reading."
fn figure_line(sheet: &[u8], field: &Field, before: Option<&Field>) -> &'static str {
    let label = sheet[field.content.start];
    let millionths = i64::from_be_bytes(sheet[field.content.start + 1..field.content.end].try_into().unwrap());
    match before {
        Some(other) if other.tag == WORD && is_measured(word_in(sheet, other), label) => {
            if figure::agrees(word_in(sheet, other), millionths) {
                "figure agrees\n"
            } else {
                "figure differs\n"
            }
        }
        _ => "figure unmatched\n",
    }
}

/// An accepted measured word of that label with a reading.
fn is_measured(word: u32, label: u8) -> bool {
    let Ok(record) = word::decode(word) else {
        return false;
    };
    word::label_of(word) == label
        && word::count_of(&record).is_some()
        && !matches!(word::status_of(&record), Some(FAILURE | NODATA))
}
