//! Why a figure and a word disagree, and the text that tells it to transcribers.

use crate::figure;
use crate::reading;
use crate::word;

/// "names the first of nine reasons that holds, in this order: they agree; a tenth, a hundredth or a thousandth of the figure
/// agrees ...; ten, a hundred or a thousand times it agrees; the figure with the other sign agrees; none of these": the
/// numbers 1 to 9, as the program names them.
pub const REASONS: [&str; 9] = [
    "agrees",
    "a tenth agrees",
    "a hundredth agrees",
    "a thousandth agrees",
    "ten times it agrees",
    "a hundred times it agrees",
    "a thousand times it agrees",
    "the other sign agrees",
    "none of these",
];

/// The reason "they agree".
pub const AGREES: u8 = 1;

/// Which figure a reason is about, as this fraction of the one that was typed. The last reason is about none.
const FRACTIONS: [(i128, i128); 8] = [(1, 1), (1, 10), (1, 100), (1, 1000), (10, 1), (100, 1), (1000, 1), (-1, 1)];

/// The figure that a reason is about: "only where that is a whole number of millionths"; "A product or negation too large for
/// the figure's 64 bits does not agree."
pub fn figure_of(reason: u8, millionths: i64) -> Option<i64> {
    let (times, over) = FRACTIONS[usize::from(reason) - 1];
    let product = i128::from(millionths) * times;
    if product % over != 0 {
        return None;
    }
    i64::try_from(product / over).ok()
}

/// Whether a reason from 1 to 9 holds of an accepted word: the figure it is about "agrees"; "none of these" where no other does.
pub fn holds(reason: u8, word: u32, millionths: i64) -> bool {
    match reason {
        9 => !(1..=8).any(|other| holds(other, word, millionths)),
        _ => figure_of(reason, millionths).is_some_and(|figure| figure::agrees(word, figure)),
    }
}

/// "Refusals: the word's own number first, then 2 for a word that isn't one of the five measured ones, then 8 when it has no
/// reading."
pub fn refusal(word: u32) -> Option<u8> {
    match word::decode(word) {
        Err(number) => Some(number),
        Ok(record) if word::count_of(&record).is_none() => Some(2),
        Ok(record) if reading::reading(&record).is_none() => Some(8),
        Ok(_) => None,
    }
}

/// "takes a word and a figure and names the first of nine reasons that holds"; or the refusal.
pub fn explain(word: u32, millionths: i64) -> Result<u8, u8> {
    match refusal(word) {
        Some(number) => Err(number),
        None => {
            Ok((1..=9).find(|&reason| holds(reason, word, millionths)).expect("the last holds where no other does"))
        }
    }
}

/// The most bytes of a line that is read: "one longer than 200 bytes is unread".
pub const LINE_MOST: usize = 200;

/// A line in: "Empty lines and lines that start with `#` pass unanswered and uncounted."
enum Line {
    Passed,
    Unread,
    Typed { word: u32, millionths: i64 },
}

/// "`WORD FIGURE`: the word as eight hex digits of either case, blanks or tabs, the figure as it was typed".
fn line_of(bytes: &[u8]) -> Line {
    if bytes.is_empty() || bytes[0] == b'#' {
        return Line::Passed;
    }
    if bytes.len() > LINE_MOST {
        return Line::Unread;
    }
    let pieces: Vec<&[u8]> = bytes.split(|byte| b" \t".contains(byte)).filter(|piece| !piece.is_empty()).collect();
    match pieces[..] {
        [word, figure] => match (typed_word(word), typed_figure(figure)) {
            (Some(word), Some(millionths)) => Line::Typed { word, millionths },
            _ => Line::Unread,
        },
        _ => Line::Unread,
    }
}

/// "the word as eight hex digits of either case".
pub fn typed_word(text: &[u8]) -> Option<u32> {
    let digits: Option<Vec<u32>> = text.iter().map(|&byte| char::from(byte).to_digit(16)).collect();
    digits.filter(|digits| digits.len() == 8).map(|digits| digits.iter().fold(0, |word, digit| word << 4 | digit))
}

/// "the figure as it was typed, with an optional sign, a decimal point or comma, and at most six decimals": at least one digit
/// in all, and millionths that 64 bits hold.
pub fn typed_figure(text: &[u8]) -> Option<i64> {
    let (sign, size) = match text {
        [b'-', size @ ..] => (-1, size),
        [b'+', size @ ..] => (1, size),
        size => (1, size),
    };
    let (whole, decimals) = match size.iter().position(|byte| b".,".contains(byte)) {
        Some(point) => (&size[..point], &size[point + 1..]),
        None => (size, &[][..]),
    };
    if whole.len() + decimals.len() == 0 || decimals.len() > 6 {
        return None;
    }
    let zeros = [b'0'; 6];
    let digits = [whole, decimals, &zeros[decimals.len()..]].concat();
    let mut number: i128 = 0;
    for byte in digits {
        let digit = char::from(byte).to_digit(10)?;
        number = (number * 10 + i128::from(digit)).min(1 << 64);
    }
    i64::try_from(sign * number).ok()
}

/// What the answers are counted as, in the order of the last line.
const COUNTED: [&str; 4] = ["agree", "disagree", "refused", "unread"];

/// The answer to a line that has one, and its place in `COUNTED`: "all but the first followed by `; the word says` and the word's
/// figure"; `refused N`; `line N: no word and figure`, with the line's place.
fn answer(line: Line, place: usize) -> Option<(usize, String)> {
    let (word, millionths) = match line {
        Line::Passed => return None,
        Line::Unread => return Some((3, format!("line {place}: no word and figure"))),
        Line::Typed { word, millionths } => (word, millionths),
    };
    let (counted, told) = match explain(word, millionths) {
        Err(number) => (2, format!("refused {number}")),
        Ok(AGREES) => (0, REASONS[0].to_string()),
        Ok(reason) => (1, format!("{}; the word says {}", REASONS[usize::from(reason) - 1], word_says(word))),
    };
    Some((counted, format!("{word:08X} {}: {told}", figure::decimals_text(millionths))))
}

/// The figure of an accepted measured word: its count, printed.
fn word_says(word: u32) -> String {
    let record = word::decode(word).unwrap();
    figure::print_text(word::label_of(word), word::count_of(&record).unwrap()).unwrap()
}

/// The lines of an input: each ends with a line feed, which the last may lack, and "may end in a carriage return".
fn lines(input: &[u8]) -> impl Iterator<Item = &[u8]> {
    let lines = input.split_inclusive(|&byte| byte == b'\n');
    lines.map(|line| line.strip_suffix(b"\n").unwrap_or(line)).map(|line| line.strip_suffix(b"\r").unwrap_or(line))
}

/// "One line out for each line in, in order", and at last how many there were of each sort.
pub fn explain_text(input: &[u8]) -> Vec<u8> {
    let mut text = String::new();
    let mut counts = [0; 4];
    for (index, line) in lines(input).enumerate() {
        if let Some((counted, told)) = answer(line_of(line), index + 1) {
            counts[counted] += 1;
            text += &told;
            text += "\n";
        }
    }
    text += &format!("lines {}", counts.iter().sum::<usize>());
    for (name, count) in COUNTED.iter().zip(counts) {
        text += &format!(" {name} {count}");
    }
    (text + "\n").into_bytes()
}
