//! The four parts of group C put together, one word at a time.

use crate::word::{self, Body, Record};

/// The contents taken so far (one to three of them), all from one source.
#[derive(Clone, Debug, PartialEq, Eq)]
pub struct Partial {
    pub source: u8,
    pub contents: Vec<u16>,
}

/// What one step gives beside the partial group.
#[derive(Clone, Copy, Debug, PartialEq, Eq)]
pub enum Answer {
    /// The part was taken; its number.
    Taken(usize),
    /// The whole group: 64 bits and the parity mark.
    Whole(u64, bool),
    Refused(u8),
}

/// The first of the tests that apply here: "Refusals 1 to 4 leave the begun group unchanged; the bits 31, 30 rule is 4";
/// "2: ... or not 140-143 at the joiner".
fn refusal(word: u32) -> Option<u8> {
    if word::breaks_1(word) {
        Some(1)
    } else if word::part_number(word::label_of(word)).is_none() {
        Some(2)
    } else if word::breaks_3(word) {
        Some(3)
    } else if word::breaks_4(word) {
        Some(4)
    } else {
        None
    }
}

/// The number, the sixteen bits and the parity mark of an accepted part.
fn part(record: &Record) -> (usize, u16, bool) {
    match record.body {
        Body::Part1 { number, content } => (1, (number + 256 * content) as u16, false),
        Body::Part2 { content } => (2, content as u16, false),
        Body::Part3 { content } => (3, content as u16, false),
        Body::Part4 { parity, content } => (4, content as u16, parity),
        _ => unreachable!("only parts come here"),
    }
}

/// "received bit j weighs 2^(j-13)", the parts carrying "bits 13 to 76 of the received MLS word, lowest bit number first".
fn whole(contents: &[u16]) -> u64 {
    contents.iter().rev().fold(0, |sum, &content| sum << 16 | u64::from(content))
}

/// One step: "Part 1 starts anew, dropping anything begun. Parts 2, 3 and 4 are taken only next in turn and from the same
/// source; else 14, and the begun group is dropped. After part 4 the 64 bits and the parity mark are given and nothing is
/// begun."
pub fn step(state: Option<Partial>, word: u32) -> (Option<Partial>, Answer) {
    if let Some(number) = refusal(word) {
        return (state, Answer::Refused(number));
    }
    let record = word::decode(word).expect("a part that passes its own tests is an accepted word");
    let (number, content, parity) = part(&record);
    if number == 1 {
        return (Some(Partial { source: record.source, contents: vec![content] }), Answer::Taken(1));
    }
    match state {
        Some(mut partial) if partial.contents.len() + 1 == number && partial.source == record.source => {
            partial.contents.push(content);
            if number == 4 {
                (None, Answer::Whole(whole(&partial.contents), parity))
            } else {
                (Some(partial), Answer::Taken(number))
            }
        }
        _ => (None, Answer::Refused(14)),
    }
}
