//! The labels as text, a line for each.

use crate::word::LABELS;

/// "`222 10010010 49` (label, bits 1 to 8 in their order, byte)": the digits of the byte turned, and what they are in octal.
fn line(byte: u8) -> String {
    let bits: String = format!("{byte:08b}").chars().rev().collect();
    let label = u8::from_str_radix(&bits, 2).unwrap();
    format!("{label:03o} {bits} {byte:02X}\n")
}

/// "A line for each of the fifteen."
pub fn label_table() -> String {
    LABELS.iter().map(|row| line(row.0.reverse_bits())).collect()
}

/// "One for each of the 256 bytes, from 00 to FF."
pub fn byte_table() -> String {
    (0..=255).map(line).collect()
}
