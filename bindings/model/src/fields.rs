//! The fields of a sheet as text, a line for each.

use crate::sheet::{self, FIGURE, NOTE, WORD};

/// "One line for each field of a sheet: place, depth, tag in two hex digits, length, then for a word its eight hex digits, for a
/// figure its label in three octal digits and the figure with six decimals, for a note its text, for a group nothing more."
/// A refused sheet as the listing has it.
pub fn list_fields(sheet: &[u8]) -> String {
    let fields = match sheet::check(sheet) {
        Ok(fields) => fields,
        Err((number, offset)) => return format!("sheet refused {number} at {offset}\n"),
    };
    let line = |field: &sheet::Field| {
        let content = &sheet[field.content.clone()];
        let shown = match field.tag {
            WORD => Some(format!("{:08X}", u32::from_be_bytes(content.try_into().unwrap()))),
            FIGURE => Some(figure(content[0], i64::from_be_bytes(content[1..].try_into().unwrap()))),
            NOTE => Some(content.iter().map(|&byte| note_byte(byte)).collect()),
            _ => None,
        };
        let start = format!("{} {} {:02X} {}", field.place, field.depth, field.tag, content.len());
        shown.map_or(start.clone(), |shown| start + " " + &shown) + "\n"
    };
    fields.iter().map(line).collect()
}

fn figure(label: u8, millionths: i64) -> String {
    let size = i128::from(millionths).abs();
    let minus = if millionths < 0 { "-" } else { "" };
    format!("{label:03o} {minus}{}.{:06}", size / 1_000_000, size % 1_000_000)
}

/// "A backslash and bytes that are not printable ASCII as `\xNN`."
fn note_byte(byte: u8) -> String {
    match byte {
        b'\\' => "\\x5C".into(),
        b' '..=b'~' => char::from(byte).to_string(),
        _ => format!("\\x{byte:02X}"),
    }
}
