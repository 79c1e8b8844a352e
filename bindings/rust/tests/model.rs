//! The library beside the independent model, on many words, pages of them, records, figures, runs of parts and sheets.

mod library;

use lampcygnet::sheet::{self as sheets, Builder, Content, Sheet, SheetRefusal};
use lampcygnet::{Reason, Reassembler, Refusal};
use library::{page_beside_singles, single_answer, Library};
use model::compare;
use model::figure::QUANTITIES;
use model::generate::{self, Random};
use model::reassembly::{self, Answer};
use model::sheet;
use model::word::LABELS;
use std::fs;
use std::path::PathBuf;
use std::thread;

/// Random inputs of every sort.
#[test]
fn random_inputs() {
    let mut random = Random::from_environment("random inputs", 1);
    compare::random(&Library, &mut random, 4_000).unwrap();
}

/// Words of every sort with their readings, records legal and not, and chart points: 400,000 each.
#[test]
fn random_words() {
    let mut random = Random::from_environment("words", 10);
    for _ in 0..20_000 {
        compare::random_words(&Library, &mut random).unwrap();
    }
}

/// All words of every label in the table, with both parities, one by one and in pages.
#[test]
fn words_of_every_label() {
    let words_of = |label: u8| {
        for page in 0..1u32 << 12 {
            let uppers = page << 12..(page + 1) << 12;
            let words: Vec<u32> = uppers
                .map(|upper| upper << 8 | u32::from(label.reverse_bits()))
                .collect();
            let answers = words
                .iter()
                .map(|&word| compare::word(&Library, word).map(|()| single_answer(word)));
            page_beside_singles(&words, answers.collect::<Result<_, String>>().unwrap()).unwrap();
        }
    };
    thread::scope(|scope| {
        for half in LABELS.chunks(8) {
            scope.spawn(move || half.iter().for_each(|row| words_of(row.0)));
        }
    });
}

/// Pages of words of every sort, of none to some hundreds, into lists too short, as long or longer: 40,000.
#[test]
fn random_pages() {
    let mut random = Random::from_environment("pages", 15);
    for _ in 0..40_000 {
        compare::random_page(&Library, &mut random).unwrap();
    }
}

/// Pages of every length up to 300, into lists one element shorter, as long and one longer.
#[test]
fn pages_of_every_length() {
    let mut random = Random::from_environment("lengths of pages", 16);
    for length in 0..=300 {
        compare::page_rooms(&Library, &mut random, length).unwrap();
    }
}

/// Every frequency as a record of VOR, ILS and MLS under every status, on a channel or off it, and every four digits in their words.
#[test]
fn every_frequency() {
    compare::frequencies(&Library).unwrap();
}

/// The figures at and beside every boundary of each quantity, and every count printed.
#[test]
fn figures_at_every_boundary() {
    for quantity in &QUANTITIES {
        for figure in generate::boundary_figures(quantity) {
            compare::figure(&Library, quantity.label, (figure & 3) as u8, figure).unwrap();
        }
        for count in quantity.least - 2..=quantity.greatest + 2 {
            compare::print(&Library, quantity.label, count as i64).unwrap();
        }
    }
}

/// Figures near the legal range, at boundaries, of every size, and at the ends of 64 bits; 400,000 of them beside words too.
#[test]
fn random_figures() {
    let mut random = Random::from_environment("figures", 4);
    for _ in 0..20_000 {
        compare::random_figures(&Library, &mut random).unwrap();
    }
    for _ in 0..2_500_000 {
        let (label, source, millionths) = generate::any_figure(&mut random);
        compare::figure(&Library, label, source, millionths).unwrap();
    }
}

/// Every legal count of each quantity beside the slips of its printed figure, under every status, and beside the ends of 64 bits;
/// and figures for which two reasons hold.
#[test]
fn explanations_of_every_count() {
    compare::double_explanations(&Library).unwrap();
    thread::scope(|scope| {
        for half in QUANTITIES.chunks(4) {
            scope.spawn(move || {
                for quantity in half {
                    compare::explanations(&Library, quantity).unwrap();
                }
            });
        }
    });
}

/// Slips of figures that agree, figures of every size and at the ends of 64 bits, beside words of every sort, refused ones and those
/// of other labels among them: 200,000.
#[test]
fn random_explanations() {
    let mut random = Random::from_environment("explanations", 11);
    for _ in 0..10_000 {
        compare::random_explanations(&Library, &mut random).unwrap();
    }
}

/// A reason is shown as the program tells it.
#[test]
fn reasons_are_shown_as_told() {
    for (number, text) in (1..).zip(model::explain::REASONS) {
        assert_eq!(Reason::from_number(number).unwrap().to_string(), text);
    }
}

/// Runs of parts, answer by answer.
#[test]
fn runs_of_parts() {
    let mut random = Random::from_environment("runs of parts", 2);
    for _ in 0..20_000 {
        let (mut library, mut model) = (Reassembler::new(), None);
        for word in generate::part_words(&mut random, 40) {
            let theirs = match library.take(word) {
                Ok(Some(group)) => Answer::Whole(group.bits, group.parity_good),
                Ok(None) => Answer::Taken(library.parts_held().into()),
                Err(refusal) => Answer::Refused(refusal.number()),
            };
            let (next, ours) = reassembly::step(model, word);
            assert_eq!(theirs, ours, "{word:08X}");
            assert_eq!(
                usize::from(library.parts_held()),
                next.as_ref().map_or(0, |held| held.contents.len())
            );
            model = next;
        }
    }
}

/// A record is shown as the listing shows its word.
#[test]
fn records_are_shown_as_listed() {
    let mut random = Random::from_environment("records shown", 3);
    for _ in 0..200_000 {
        let word = generate::legal_word(&mut random);
        let line = lampcygnet::decode(word).unwrap().to_string();
        assert_eq!(line, model::listing::word_line(word).trim_end(), "{word:08X}");
    }
}

/// Sheets of every sort, legal and damaged.
#[test]
fn random_sheets() {
    let mut random = Random::from_environment("sheets", 5);
    for _ in 0..100_000 {
        compare::sheet(&Library, &generate::any_sheet(&mut random)).unwrap();
    }
}

/// One field with every tag, at every depth, whose length fits or does not.
#[test]
fn every_short_field() {
    for depth in 1..=5 {
        for bytes in generate::every_short_field(depth) {
            compare::sheet(&Library, &bytes).unwrap();
        }
    }
}

/// Sheets summed up: words mostly of the label and source that are asked for, legal and damaged, 60,000; and the fullest ones.
#[test]
fn random_summaries() {
    let mut random = Random::from_environment("summaries", 12);
    for _ in 0..60_000 {
        compare::random_summary(&Library, &mut random).unwrap();
    }
    for label in model::summary::LABELS {
        for least in [false, true] {
            compare::summaries(&Library, &generate::fullest_sheet(label, 3, least)).unwrap();
        }
    }
}

/// Sheets of every sort summed up for every label and source that a summary can have.
#[test]
fn summaries_of_every_choice() {
    let mut random = Random::from_environment("summaries of every choice", 13);
    for _ in 0..5_000 {
        compare::summaries(&Library, &generate::any_sheet(&mut random)).unwrap();
    }
}

/// A summary is shown as the program tells it.
#[test]
fn summaries_are_shown_as_told() {
    let mut random = Random::from_environment("summaries shown", 14);
    for _ in 0..20_000 {
        let (bytes, label, source) = generate::any_summarized(&mut random);
        if let Ok(summary) = sheets::summarize(&bytes, label, source) {
            let ours = model::summarize(&bytes, label, source).unwrap();
            assert_eq!(summary.to_string(), model::summary_text(label, source, &ours));
        }
    }
}

/// The sheets of the test vectors, each damaged once at every place of its start, and then again and again at random.
#[test]
fn damaged_vectors() {
    let folder = PathBuf::from(env!("CARGO_MANIFEST_DIR")).join("../../crates/test_sheets/data/sheets");
    let mut random = Random::from_environment("damaged vectors", 6);
    let mut sheets = 0;
    for entry in fs::read_dir(folder).unwrap() {
        let name = entry.unwrap().path();
        if name.extension().is_some_and(|extension| extension == "bin") {
            let bytes = fs::read(&name).unwrap();
            sheets += 1;
            compare::sheet(&Library, &bytes).unwrap();
            compare::summaries(&Library, &bytes).unwrap();
            let start = &bytes[..bytes.len().min(200)];
            for damaged in generate::damaged_everywhere(start) {
                compare::sheet(&Library, &damaged).unwrap();
            }
            let mut damaged = bytes.clone();
            for _ in 0..40 {
                generate::damage(&mut random, &mut damaged);
                compare::sheet(&Library, &damaged).unwrap();
            }
        }
    }
    assert!(sheets >= 82, "{sheets} sheets");
}

/// Fields of every sort at random places of buffers of random lengths.
#[test]
fn random_writes() {
    let mut random = Random::from_environment("writes", 7);
    for _ in 0..40_000 {
        compare::random_writes(&Library, &mut random).unwrap();
    }
}

/// One field added to a builder, beside the model's writer at the end of the same bytes.
fn add(builder: &mut Builder, bytes: &mut Vec<u8>, content: &model::Content) {
    let answer = match *content {
        model::Content::Word(word) => builder.word(word),
        model::Content::Figure(label, millionths) => builder.figure(label, millionths),
        model::Content::Note(text) => builder.note(text),
        model::Content::Group(run) => builder.group(run),
    };
    let mut buffer = bytes.clone();
    buffer.resize(bytes.len() + sheet::field_length(content), 0);
    match (answer.map(|_| ()), sheet::write(&mut buffer, bytes.len(), content)) {
        (Ok(()), Ok(_)) => *bytes = buffer,
        (Err(refusal), Err((number, offset))) => {
            assert_eq!(
                (refusal.refusal.number(), refusal.offset),
                (number, offset.unwrap_or(0))
            );
        }
        (theirs, ours) => panic!("{theirs:?}, the model gives {ours:?}"),
    }
}

/// What a builder holds is its fields' bytes one after the other, legal after every field, and a refused field is left out.
#[test]
fn builders() {
    let mut random = Random::from_environment("builders", 8);
    for _ in 0..2000 {
        let (mut builder, mut bytes) = (Builder::new(), Vec::new());
        for _ in 0..random.below(12) {
            let most = if random.once_in(8) { 40_000 } else { 40 };
            let size = random.below(most) as usize;
            let text = random.bytes(size);
            let run = match random.below(4) {
                0 => generate::any_sheet(&mut random),
                1 => generate::nested_sheet(&mut random, 3),
                _ => generate::legal_sheet(&mut random, size % 100),
            };
            let content = match random.below(4) {
                0 => model::Content::Word(random.draw() as u32),
                1 => model::Content::Figure(random.draw() as u8, random.draw() as i64),
                2 => model::Content::Note(&text),
                _ => model::Content::Group(&run),
            };
            add(&mut builder, &mut bytes, &content);
            assert_eq!(builder.as_bytes(), bytes);
            assert_eq!(Sheet::new(&bytes), Ok(builder.sheet()));
        }
        assert_eq!(builder.into_bytes(), bytes);
    }
}

/// The fields are at most as many as the hint says, and after the last one there is none again.
#[test]
fn fields_end_once() {
    let mut random = Random::from_environment("ends of fields", 9);
    for _ in 0..5000 {
        let size = random.below(400) as usize;
        let bytes = generate::legal_sheet(&mut random, size);
        let sheet = Sheet::new(&bytes).unwrap();
        let mut fields = sheet.fields();
        loop {
            let most = fields.size_hint().1.unwrap();
            assert!(fields.clone().count() <= most);
            if fields.next().is_none() {
                break;
            }
        }
        assert!((0..3).all(|_| fields.next().is_none()));
        assert!(sheet.into_iter().eq(sheet.fields()));
        assert_eq!(sheet.to_string(), model::list(&bytes));
        assert_eq!(sheet.as_bytes(), bytes);
    }
}

/// A refusal is told with its number, its words and its offset.
#[test]
fn refusals_of_sheets_are_errors() {
    let refusal: Box<dyn std::error::Error> = Box::new(Sheet::try_from(&[0u8; 3][..]).unwrap_err());
    assert_eq!(refusal.to_string(), "refused 10: unknown tag, at offset 0");
    let oversize = SheetRefusal {
        refusal: Refusal::Oversize,
        offset: 0,
    };
    assert_eq!(Sheet::new(&vec![0x12; 32_769]), Err(oversize));
    assert_eq!(
        Builder::new().push(Content::Note(&vec![0; 32_766])).map(|_| ()),
        Err(oversize)
    );
}
