//! The one place where other code meets the model. Implement [`Subject`] over the library's functions (its `extern "C"`
//! functions, or a baseline); what is not implemented is the model itself and so never differs. Each function of this module
//! runs inputs through both and gives the first difference as text.

use crate::explain;
use crate::figure::{self, Quantity};
use crate::generate::{self, Random};
use crate::listing;
use crate::page;
use crate::reading::{self, Reading, Value};
use crate::reassembly::{self, Answer, Partial};
use crate::sheet::{self, Content, Field, Refusal, WriteRefusal, LIMIT};
use crate::summary::{self, Summary};
use crate::word::{self, Record};

/// The functions that can be compared.
pub trait Subject: Sync {
    fn decode(&self, word: u32) -> Result<Record, u8> {
        word::decode(word)
    }
    fn encode(&self, record: &Record) -> Result<u32, u8> {
        word::encode(record)
    }
    fn decode_page(&self, words: &[u32], refusals: &mut [u8], counts: &mut [i16]) -> Result<(), u8> {
        let page = page::decode_page(words, refusals, counts);
        refusals.copy_from_slice(&page.refusals);
        counts.copy_from_slice(&page.counts);
        page.answer
    }
    fn reading(&self, word: u32) -> Result<Option<Reading>, u8> {
        word::decode(word).map(|record| reading::reading(&record))
    }
    fn code(&self, label: u8, source: u8, millionths: i64) -> Result<u32, u8> {
        figure::code(label, source, millionths)
    }
    fn print(&self, label: u8, count: i64) -> Option<i64> {
        figure::print_millionths(label, count)
    }
    fn agrees(&self, word: u32, millionths: i64) -> bool {
        figure::agrees(word, millionths)
    }
    fn explain(&self, word: u32, millionths: i64) -> Result<u8, u8> {
        explain::explain(word, millionths)
    }
    fn explain_text(&self, input: &[u8]) -> Vec<u8> {
        explain::explain_text(input)
    }
    fn chart_point(&self, course: u32, glide: u32) -> Result<(f64, f64), u8> {
        reading::chart_point(course, glide)
    }
    fn step(&self, state: Option<Partial>, word: u32) -> (Option<Partial>, Answer) {
        reassembly::step(state, word)
    }
    fn check(&self, sheet: &[u8]) -> Result<Vec<Field>, Refusal> {
        sheet::check(sheet)
    }
    fn contents<'a>(&self, sheet: &'a [u8]) -> Vec<Content<'a>> {
        sheet::contents(sheet)
    }
    fn note<'a>(&self, sheet: &'a [u8], place: usize) -> Result<&'a [u8], Refusal> {
        sheet::note(sheet, place)
    }
    fn write(&self, buffer: &mut [u8], place: usize, content: &Content) -> Result<usize, WriteRefusal> {
        sheet::write(buffer, place, content)
    }
    fn list(&self, sheet: &[u8]) -> String {
        listing::list(sheet)
    }
    fn list_into(&self, sheet: &[u8], buffer: &mut [u8]) -> Result<usize, u8> {
        listing::list_into(sheet, buffer)
    }
    fn summarize(&self, sheet: &[u8], label: u8, source: u8) -> Result<Summary, summary::Refusal> {
        summary::summarize(sheet, label, source)
    }
}

/// The model as a subject: the comparison of the model with itself.
pub struct Model;

impl Subject for Model {}

/// The first difference that was found.
pub type Outcome = Result<(), String>;

fn same<T: PartialEq + std::fmt::Debug>(input: impl FnOnce() -> String, subject: T, model: T) -> Outcome {
    if subject == model {
        return Ok(());
    }
    let [subject, model] = [subject, model].map(|answer| format!("{answer:?}").chars().take(1000).collect::<String>());
    Err(format!("{}: got {subject}, the model gives {model}", input()))
}

/// One word: its record or refusal, and the word and the reading of its record.
pub fn word(subject: &dyn Subject, word: u32) -> Outcome {
    let record = word::decode(word);
    same(|| format!("decode {word:08X}"), subject.decode(word), record)?;
    match record {
        Ok(record) => {
            same(|| format!("encode {record:?}"), subject.encode(&record), Ok(word))?;
            reading(subject, word)
        }
        Err(_) => Ok(()),
    }
}

/// A list after a call: the first element that is not the model's.
fn same_list<T: PartialEq + std::fmt::Debug>(input: impl Fn() -> String, subject: &[T], model: &[T]) -> Outcome {
    let mut elements = subject.iter().zip(model).enumerate();
    elements.try_for_each(|(index, (theirs, ours))| same(|| format!("{}, element {index}", input()), theirs, ours))
}

/// A page of words into two lists as they stand before the call: the answer, and both lists whole afterwards.
pub fn page(subject: &dyn Subject, words: &[u32], refusals: &[u8], counts: &[i16]) -> Outcome {
    let model = page::decode_page(words, refusals, counts);
    let (mut their_refusals, mut their_counts) = (refusals.to_vec(), counts.to_vec());
    let answer = subject.decode_page(words, &mut their_refusals, &mut their_counts);
    let start = &words[..words.len().min(400)];
    let what = || format!("page of {}, {} and {}: {start:08X?}", words.len(), refusals.len(), counts.len());
    same(what, answer, model.answer)?;
    same_list(|| format!("refusals after {}", what()), &their_refusals, &model.refusals)?;
    same_list(|| format!("counts after {}", what()), &their_counts, &model.counts)
}

/// A page of so many words into lists one element shorter, as long and one longer, each by itself.
pub fn page_rooms(subject: &dyn Subject, random: &mut Random, length: usize) -> Outcome {
    let words: Vec<u32> = (0..length).map(|_| generate::any_word(random)).collect();
    let rooms = [length.saturating_sub(1), length, length + 1];
    for (refusals, counts) in rooms.into_iter().flat_map(|one| rooms.map(|other| (one, other))) {
        let (refusals, counts) = generate::lent_lists(random, refusals, counts);
        page(subject, &words, &refusals, &counts)?;
    }
    Ok(())
}

/// A reading with its double as bits, so that only the very same double is the same.
fn exact(reading: Reading) -> (u8, u64, bool) {
    let (unit, bits) = match reading.value {
        Value::Degrees(double) => (0, double.to_bits()),
        Value::Depth(double) => (1, double.to_bits()),
        Value::Millivolts(double) => (2, double.to_bits()),
        Value::Frequency(whole) => (3, whole as u64),
        Value::Setting(whole) => (4, whole as u64),
    };
    (unit, bits, reading.test)
}

/// The reading of one word, accepted or not.
pub fn reading(subject: &dyn Subject, word: u32) -> Outcome {
    let model = word::decode(word).map(|record| reading::reading(&record));
    let [theirs, ours] = [subject.reading(word), model].map(|answer| answer.map(|reading| reading.map(exact)));
    same(|| format!("reading {word:08X}"), theirs, ours)
}

/// One chart point, its doubles bit for bit.
pub fn chart_point(subject: &dyn Subject, course: u32, glide: u32) -> Outcome {
    let answers = [subject.chart_point(course, glide), reading::chart_point(course, glide)];
    let [theirs, ours] = answers.map(|answer| answer.map(|(x, y)| (x.to_bits(), y.to_bits())));
    same(|| format!("chart point {course:08X} {glide:08X}"), theirs, ours)
}

/// One record, legal or not.
pub fn record(subject: &dyn Subject, record: &Record) -> Outcome {
    same(|| format!("encode {record:?}"), subject.encode(record), word::encode(record))
}

/// Every frequency as a record of each kind under each status, and every four digits in a word of each.
pub fn frequencies(subject: &dyn Subject) -> Outcome {
    generate::every_frequency().try_for_each(|frequency| record(subject, &frequency))?;
    let mut words = [0o034, 0o033, 0o036].into_iter().flat_map(generate::words_of_every_digit);
    words.try_for_each(|number| word(subject, number))
}

/// One figure.
pub fn figure(subject: &dyn Subject, label: u8, source: u8, millionths: i64) -> Outcome {
    same(
        || format!("code {label:03o} {source} {millionths}"),
        subject.code(label, source, millionths),
        figure::code(label, source, millionths),
    )
}

/// A figure beside a word.
pub fn agreement(subject: &dyn Subject, word: u32, millionths: i64) -> Outcome {
    same(
        || format!("agrees {word:08X} {millionths}"),
        subject.agrees(word, millionths),
        figure::agrees(word, millionths),
    )
}

/// A figure explained beside a word.
pub fn explanation(subject: &dyn Subject, word: u32, millionths: i64) -> Outcome {
    same(
        || format!("explain {word:08X} {millionths}"),
        subject.explain(word, millionths),
        explain::explain(word, millionths),
    )
}

/// Figures for which several reasons may hold.
pub fn double_explanations(subject: &dyn Subject) -> Outcome {
    generate::double_slips().into_iter().try_for_each(|(word, figure)| explanation(subject, word, figure))
}

/// Every legal count of a quantity beside the slips of its printed figure, under ready and now and then under each status; some
/// beside the ends of 64 bits.
pub fn explanations(subject: &dyn Subject, quantity: &Quantity) -> Outcome {
    for count in quantity.least..=quantity.greatest {
        let number = count as i64;
        let record = figure::measured_record(quantity.label, (number & 3) as u8, number).unwrap();
        let ready = word::encode(&record).unwrap();
        generate::slips_of_count(quantity, count).try_for_each(|slip| explanation(subject, ready, slip))?;
        if number % 61 == 0 {
            for word in (0..4).map(|status| generate::with_parity(ready & !(3 << 29) | status << 29)) {
                generate::slips_of_count(quantity, count).try_for_each(|slip| explanation(subject, word, slip))?;
                generate::ends_of_64_bits().try_for_each(|end| explanation(subject, word, end))?;
                explanation(subject, word ^ 1 << 31, quantity.print(count) as i64)?;
            }
        }
    }
    Ok(())
}

/// The answers to lines with words and figures.
pub fn explained_text(subject: &dyn Subject, input: &[u8]) -> Outcome {
    let shown = || format!("explain the text {:?}", String::from_utf8_lossy(&input[..input.len().min(400)]));
    let [theirs, ours] = [subject.explain_text(input), explain::explain_text(input)];
    let lines = |text: &[u8]| String::from_utf8_lossy(text).lines().map(str::to_string).collect::<Vec<String>>();
    if theirs != ours {
        let (theirs, ours) = (lines(&theirs), lines(&ours));
        let first =
            theirs.iter().zip(&ours).position(|(one, other)| one != other).unwrap_or(theirs.len().min(ours.len()));
        let at = |lines: &[String]| lines.get(first).cloned();
        return Err(format!("{}: line {} out is {:?}, the model's {:?}", shown(), first + 1, at(&theirs), at(&ours)));
    }
    Ok(())
}

/// One count printed.
pub fn print(subject: &dyn Subject, label: u8, count: i64) -> Outcome {
    same(|| format!("print {label:03o} {count}"), subject.print(label, count), figure::print_millionths(label, count))
}

/// A sheet as a message shows it.
fn shown(bytes: &[u8]) -> String {
    if bytes.len() < 400 {
        format!("{bytes:02X?}")
    } else {
        format!("{} bytes", bytes.len())
    }
}

/// The fields of one sheet, or its refusal.
pub fn check(subject: &dyn Subject, bytes: &[u8]) -> Outcome {
    same(|| format!("check {}", shown(bytes)), subject.check(bytes), sheet::check(bytes))
}

/// The note at a place of a sheet.
pub fn note(subject: &dyn Subject, bytes: &[u8], place: usize) -> Outcome {
    same(|| format!("note at {place} in {}", shown(bytes)), subject.note(bytes, place), sheet::note(bytes, place))
}

/// One sheet: its fields or refusal, what its fields hold, its notes, and its listing.
pub fn sheet(subject: &dyn Subject, bytes: &[u8]) -> Outcome {
    check(subject, bytes)?;
    same(|| format!("contents {}", shown(bytes)), subject.contents(bytes), sheet::contents(bytes))?;
    same(|| format!("list {}", shown(bytes)), subject.list(bytes), listing::list(bytes))?;
    places(bytes).into_iter().try_for_each(|place| note(subject, bytes, place))
}

/// Where notes are asked for: everywhere in a short sheet; in a long one at some of its tags and beside them.
fn places(bytes: &[u8]) -> Vec<usize> {
    let mut places = vec![0, 1, bytes.len(), usize::MAX];
    if bytes.len() <= 40 {
        places.extend(0..bytes.len() + 2);
    } else if let Ok(fields) = sheet::check(bytes) {
        let step = 1 + fields.len() / 3;
        places.extend(fields.iter().step_by(step).flat_map(|field| [field.place, field.content.end]));
        places.extend(fields.iter().rev().find(|field| field.tag == sheet::NOTE).map(|field| field.place));
    }
    places
}

/// The listing of one sheet into buffers of a few lengths: the answer and the whole buffer afterwards.
pub fn listing_room(subject: &dyn Subject, bytes: &[u8], room: usize) -> Outcome {
    let needed = listing::list(bytes).len();
    for room in [0, room, needed - 1, needed, needed + 1] {
        let (mut theirs, mut ours) = (vec![0xA5; room], vec![0xA5; room]);
        let (answer, model) = (subject.list_into(bytes, &mut theirs), listing::list_into(bytes, &mut ours));
        let what = || format!("list into {room} bytes {}", shown(bytes));
        same(what, answer, model)?;
        same(|| format!("buffer after {}", what()), theirs, ours)?;
    }
    Ok(())
}

/// One sheet summed up for a label and a source.
pub fn summary(subject: &dyn Subject, bytes: &[u8], label: u8, source: u8) -> Outcome {
    same(
        || format!("summary {label:03o} {source} of {}", shown(bytes)),
        subject.summarize(bytes, label, source),
        summary::summarize(bytes, label, source),
    )
}

/// One sheet summed up for every label and source that a summary can have, for the azimuth and for source 4.
pub fn summaries(subject: &dyn Subject, bytes: &[u8]) -> Outcome {
    let labels = summary::LABELS.into_iter().chain([0o222]);
    let mut choices = labels.flat_map(|label| (0..=4).map(move |source| (label, source)));
    choices.try_for_each(|(label, source)| summary(subject, bytes, label, source))
}

/// One field written into a buffer: the answer and the whole buffer afterwards.
pub fn write(subject: &dyn Subject, buffer: &[u8], place: usize, content: &Content) -> Outcome {
    let (mut theirs, mut ours) = (buffer.to_vec(), buffer.to_vec());
    let answer = subject.write(&mut theirs, place, content);
    let model = sheet::write(&mut ours, place, content);
    let shown = || format!("write at {place} into {} bytes {content:?}", buffer.len());
    same(shown, answer, model)?;
    same(|| format!("buffer after {}", shown()), theirs, ours)
}

/// A run of words put together from nothing.
pub fn parts(subject: &dyn Subject, words: &[u32]) -> Outcome {
    let (mut theirs, mut ours) = (None, None);
    for (index, &word) in words.iter().enumerate() {
        let (next_theirs, answer) = subject.step(theirs, word);
        let (next_ours, model) = reassembly::step(ours, word);
        same(|| format!("step {index} of {words:08X?}"), (&next_theirs, answer), (&next_ours, model))?;
        (theirs, ours) = (next_theirs, next_ours);
    }
    Ok(())
}

/// `rounds` random inputs of every sort.
pub fn random(subject: &dyn Subject, random: &mut Random, rounds: usize) -> Outcome {
    for _ in 0..rounds {
        random_words(subject, random)?;
        random_page(subject, random)?;
        random_figures(subject, random)?;
        random_explanations(subject, random)?;
        let bytes = generate::any_sheet(random);
        sheet(subject, &bytes)?;
        let room = random.below(400) as usize;
        listing_room(subject, &bytes, room)?;
        random_summary(subject, random)?;
        let length = random.below(40) as usize;
        parts(subject, &generate::part_words(random, length))?;
        random_writes(subject, random)?;
    }
    Ok(())
}

/// Words, records and chart points.
pub fn random_words(subject: &dyn Subject, random: &mut Random) -> Outcome {
    for _ in 0..20 {
        word(subject, generate::any_word(random))?;
        reading(subject, generate::any_word(random))?;
        record(subject, &generate::any_record(random))?;
        let (course, glide) = generate::chart_words(random);
        chart_point(subject, course, glide)?;
    }
    Ok(())
}

/// A page of words of any sort, into lists of any rooms.
pub fn random_page(subject: &dyn Subject, random: &mut Random) -> Outcome {
    let (words, refusals, counts) = generate::any_page(random);
    page(subject, &words, &refusals, &counts)
}

/// Figures coded, held against words, and counts printed.
pub fn random_figures(subject: &dyn Subject, random: &mut Random) -> Outcome {
    for _ in 0..20 {
        let (label, source, millionths) = generate::any_figure(random);
        figure(subject, label, source, millionths)?;
        let word = match figure::code(label, source, millionths) {
            Ok(word) if random.flag() => word,
            _ => generate::any_word(random),
        };
        let near = millionths.saturating_add(random.within(-50_000, 50_000));
        agreement(subject, word, millionths)?;
        agreement(subject, word, near)?;
        print(subject, label, random.within(-40_000, 40_000))?;
    }
    Ok(())
}

/// Figures explained beside words.
pub fn random_explanations(subject: &dyn Subject, random: &mut Random) -> Outcome {
    for _ in 0..20 {
        let (word, millionths) = generate::any_explained(random);
        explanation(subject, word, millionths)?;
    }
    Ok(())
}

/// A sheet of any sort, summed up.
pub fn random_summary(subject: &dyn Subject, random: &mut Random) -> Outcome {
    let (bytes, label, source) = generate::any_summarized(random);
    summary(subject, &bytes, label, source)
}

/// A field of each sort written at a random place of a buffer.
pub fn random_writes(subject: &dyn Subject, random: &mut Random) -> Outcome {
    let size = if random.once_in(16) { 65_500 + random.below(100) } else { random.below(20) } as usize;
    let text = random.bytes(size);
    let inside = match random.below(32) {
        0..=3 => generate::any_sheet(random),
        4..=7 => generate::nested_sheet(random, 3),
        8 => generate::exact_sheet(random, LIMIT - 3),
        _ => generate::legal_sheet(random, size % 64),
    };
    let (word, label, millionths) = (random.draw() as u32, random.draw() as u8, random.draw() as i64);
    for content in
        [Content::Word(word), Content::Figure(label, millionths), Content::Note(&text), Content::Group(&inside)]
    {
        let (length, place) = generate::room_and_place(random, &content);
        write(subject, &random.bytes(length), place, &content)?;
    }
    Ok(())
}
