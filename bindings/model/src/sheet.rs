//! The sheet: checking it, the note at a place, and writing one field.

use std::ops::Range;

/// The greatest length of a sheet in bytes.
pub const LIMIT: usize = 32_768;

pub const WORD: u8 = 0x10;
pub const FIGURE: u8 = 0x11;
pub const NOTE: u8 = 0x12;
pub const GROUP: u8 = 0x20;

/// A refusal and the offset of the field's tag.
pub type Refusal = (u8, usize);

/// One field: where its tag stands, how deep, and the range of its content.
#[derive(Clone, Debug, PartialEq, Eq)]
pub struct Field {
    pub tag: u8,
    pub place: usize,
    pub depth: usize,
    pub content: Range<usize>,
}

/// The fields of the run from `start` to `end`: "from the left, at each field 9 (header cut), 10, 9 (content runs past the
/// enclosing end), 11, 12, then the group's inside"; "each field by the order of its tag (a group before its inside)".
fn run(sheet: &[u8], start: usize, end: usize, depth: usize) -> Result<Vec<Field>, Refusal> {
    let mut fields = Vec::new();
    let mut place = start;
    while place < end {
        let field = head(sheet, place, end, depth)?;
        place = field.content.end;
        let inside = if field.tag == GROUP {
            run(sheet, field.content.start, field.content.end, depth + 1)?
        } else {
            Vec::new()
        };
        fields.push(field);
        fields.extend(inside);
    }
    Ok(fields)
}

/// The field whose tag stands at a place: "a one-byte tag, a two-byte length (high byte first), content. Tag 10 hex: word,
/// 4 bytes. 11: figure, 9 bytes. 12: note of any length. 20: group." A group at depth 4 is 12.
fn head(sheet: &[u8], place: usize, end: usize, depth: usize) -> Result<Field, Refusal> {
    if end - place < 3 {
        return Err((9, place));
    }
    let tag = sheet[place];
    if ![WORD, FIGURE, NOTE, GROUP].contains(&tag) {
        return Err((10, place));
    }
    let length = 256 * usize::from(sheet[place + 1]) + usize::from(sheet[place + 2]);
    let content = place + 3..place + 3 + length;
    if content.end > end {
        return Err((9, place));
    }
    if (tag == WORD && length != 4) || (tag == FIGURE && length != 9) {
        return Err((11, place));
    }
    if tag == GROUP && depth == 4 {
        return Err((12, place));
    }
    Ok(Field { tag, place, depth, content })
}

/// Checking a sheet: "15 first", at offset 0; then the run of top fields, "at depth 1".
pub fn check(sheet: &[u8]) -> Result<Vec<Field>, Refusal> {
    if sheet.len() > LIMIT {
        return Err((15, 0));
    }
    run(sheet, 0, sheet.len(), 1)
}

/// "A note is asked for by its place: the sheet's own refusal first, then 10 with that place where the walk finds no note."
pub fn note(sheet: &[u8], place: usize) -> Result<&[u8], Refusal> {
    let fields = check(sheet)?;
    let found = fields.into_iter().find(|field| field.tag == NOTE && field.place == place);
    found.map(|field| &sheet[field.content]).ok_or((10, place))
}

/// What one field holds.
#[derive(Clone, Copy, Debug, PartialEq, Eq)]
pub enum Content<'a> {
    Word(u32),
    Figure(u8, i64),
    Note(&'a [u8]),
    Group(&'a [u8]),
}

/// What the fields of a sheet hold, in the order of their tags; nothing of a refused one.
pub fn contents(sheet: &[u8]) -> Vec<Content<'_>> {
    let content = |field: Field| {
        let bytes = &sheet[field.content];
        match field.tag {
            WORD => Content::Word(bytes.iter().fold(0, |word, &byte| word * 256 + u32::from(byte))),
            FIGURE => Content::Figure(bytes[0], i64::from_be_bytes(bytes[1..].try_into().unwrap())),
            NOTE => Content::Note(bytes),
            _ => Content::Group(bytes),
        }
    };
    check(sheet).unwrap_or_default().into_iter().map(content).collect()
}

/// The tag and the content's bytes: "word, 4 bytes, high first. 11: figure, 9 bytes: label as a number, then the millionths
/// in two's complement."
fn tag_and_bytes(content: &Content) -> (u8, Vec<u8>) {
    match *content {
        Content::Word(word) => (WORD, word.to_be_bytes().to_vec()),
        Content::Figure(label, millionths) => {
            let mut bytes = vec![label];
            bytes.extend(millionths.to_be_bytes());
            (FIGURE, bytes)
        }
        Content::Note(text) => (NOTE, text.to_vec()),
        Content::Group(fields) => (GROUP, fields.to_vec()),
    }
}

/// The bytes of a field whose content is at most 65,535 bytes long.
pub fn field_bytes(content: &Content) -> Vec<u8> {
    let (tag, bytes) = tag_and_bytes(content);
    let length = u16::try_from(bytes.len()).expect("a length of two bytes");
    let mut field = vec![tag];
    field.extend(length.to_be_bytes());
    field.extend(bytes);
    field
}

/// How many bytes a field has: its tag, the two of its length, and its content.
pub fn field_length(content: &Content) -> usize {
    3 + tag_and_bytes(content).1.len()
}

/// Why a field is not written; the offset is that in a group's run.
pub type WriteRefusal = (u8, Option<usize>);

/// "The writer adds one field at a given place: 15 if the end would pass 32,768, else 13 if the buffer is too short or the
/// place lies past it. Only the field's bytes change. A group is made from a run of bytes checked first as the inside of a
/// top group: 9 to 12, with the offset in the run, come before 15 and 13." Gives the end of the field.
pub fn write(buffer: &mut [u8], place: usize, content: &Content) -> Result<usize, WriteRefusal> {
    if let Content::Group(fields) = *content {
        run(fields, 0, fields.len(), 2).map_err(|(number, offset)| (number, Some(offset)))?;
    }
    let end = place as u128 + field_length(content) as u128;
    if end > LIMIT as u128 {
        return Err((15, None));
    }
    if end > buffer.len() as u128 {
        return Err((13, None));
    }
    let end = end as usize;
    buffer[place..end].copy_from_slice(&field_bytes(content));
    Ok(end)
}
