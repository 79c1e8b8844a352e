//! Both baselines against the model on random inputs.

use bench::{c, input, library, rust};
use model::compare::{self, Subject};
use model::generate::{self, Random};
use model::word::{self, Body, Record};
use model::{figure, sheet, summary, Summary};

/// A word's record out of its plain numbers.
fn record(label: u8, source: u8, status: u8, code: u8, value: i64) -> Record {
    let (one, two) = (code & 1 == 1, code & 2 == 2);
    let body = match label {
        0o222 => Body::VorAzimuth { status, marker: code, count: value },
        0o034 => Body::VorFrequency { status, frequency: value },
        0o173 => Body::IlsCourse { status, inhibit: one, count: value },
        0o174 => Body::IlsGlide { status, inhibit: one, count: value },
        0o033 => Body::IlsFrequency { status, category: code, frequency: value },
        0o036 => Body::MlsFrequency { status, frequency: value },
        0o151 => Body::MlsAzimuth { status, inhibit: one, clearance: two, count: value },
        0o152 => Body::MlsGlide { status, inhibit: one, clearance: two, count: value },
        0o153 => Body::SelectedAzimuth { status, manual: one, degrees: value },
        0o154 => Body::GreatestGlide { status, tenths: value },
        0o155 => Body::SelectedGlide { status, manual: one, tenths: value },
        0o140 => Body::Part1 { number: value & 255, content: value >> 8 },
        0o141 => Body::Part2 { content: value },
        0o142 => Body::Part3 { content: value },
        0o143 => Body::Part4 { parity: one, content: value },
        _ => panic!("no label {label:03o}"),
    };
    Record { source, body }
}

/// A legal sheet's fields are the model's own: the baselines only say whether it is legal.
fn with_fields(sheet: &[u8], checked: Result<(), (u8, usize)>) -> Result<Vec<sheet::Field>, (u8, usize)> {
    checked.map(|()| sheet::check(sheet).unwrap_or_default())
}

/// The refusal of a summary: its own two have no offset.
fn summary_refusal((number, offset): (u8, usize)) -> summary::Refusal {
    (number, (number > 4).then_some(offset))
}

/// The model's summary out of plain numbers in the header's order.
fn summary_of(numbers: [u64; 7], range: Option<(i64, i64)>, sum: i64) -> Summary {
    let [ready, test, nodata, failure, refused, other, words] = numbers.map(|number| number as usize);
    let (least, greatest) = range.unzip();
    let mean = range.map(|_| (sum, ready));
    Summary { ready, test, nodata, failure, refused, other, words, least, greatest, sum, mean }
}

struct C;

impl Subject for C {
    fn decode(&self, word: u32) -> Result<Record, u8> {
        c::decode(word).map(|r| record(r.label, r.source, r.status, r.code, r.value.into()))
    }
    fn decode_page(&self, words: &[u32], refusals: &mut [u8], counts: &mut [i16]) -> Result<(), u8> {
        c::decode_page(words, refusals, counts)
    }
    fn code(&self, label: u8, source: u8, millionths: i64) -> Result<u32, u8> {
        c::code(label, source, millionths)
    }
    fn explain(&self, word: u32, millionths: i64) -> Result<u8, u8> {
        c::explain(word, millionths)
    }
    fn check(&self, sheet: &[u8]) -> Result<Vec<sheet::Field>, (u8, usize)> {
        with_fields(sheet, c::check(sheet))
    }
    fn list(&self, sheet: &[u8]) -> String {
        let mut text = vec![0; c::TEXT_MAX];
        let used = c::list(sheet, &mut text).unwrap();
        text.truncate(used);
        String::from_utf8(text).unwrap()
    }
    fn list_into(&self, sheet: &[u8], buffer: &mut [u8]) -> Result<usize, u8> {
        c::list(sheet, buffer)
    }
    fn summarize(&self, sheet: &[u8], label: u8, source: u8) -> Result<Summary, summary::Refusal> {
        let s = c::summarize(sheet, label, source).map_err(summary_refusal)?;
        let [failure, nodata, test, ready] = s.by_status;
        assert!(ready > 0 || (s.least, s.greatest) == (0, 0));
        let numbers = [ready, test, nodata, failure, s.refused, s.other, s.words].map(u64::from);
        Ok(summary_of(numbers, (ready > 0).then_some((s.least.into(), s.greatest.into())), s.sum))
    }
}

struct Rust;

impl Subject for Rust {
    fn decode(&self, word: u32) -> Result<Record, u8> {
        use rust::Body as B;
        rust::decode(word).map(|r| {
            let (status, code, value) = match r.body {
                B::Azimuth { status, marker, count } => (status as u8, marker as u8, i64::from(count)),
                B::Deviation { status, inhibit, count } => (status as u8, inhibit as u8, i64::from(count)),
                B::MlsDeviation { status, inhibit, clearance, count } => {
                    (status as u8, inhibit as u8 + 2 * clearance as u8, i64::from(count))
                }
                B::Frequency { status, category, frequency } => (status as u8, category, i64::from(frequency)),
                B::SelectedAzimuth { status, manual, degrees } => (status as u8, manual as u8, i64::from(degrees)),
                B::GreatestGlide { status, tenths } => (status as u8, 0, i64::from(tenths)),
                B::SelectedGlide { status, manual, tenths } => (status as u8, manual as u8, i64::from(tenths)),
                B::Part { number, parity, content } => {
                    assert_eq!(number - 1, r.label & 3);
                    (0, parity as u8, i64::from(content))
                }
            };
            record(r.label, r.source, status, code, value)
        })
    }
    fn decode_page(&self, words: &[u32], refusals: &mut [u8], counts: &mut [i16]) -> Result<(), u8> {
        rust::decode_page(words, refusals, counts)
    }
    fn code(&self, label: u8, source: u8, millionths: i64) -> Result<u32, u8> {
        rust::code(label, source, millionths)
    }
    fn explain(&self, word: u32, millionths: i64) -> Result<u8, u8> {
        rust::explain(word, millionths)
    }
    fn check(&self, sheet: &[u8]) -> Result<Vec<sheet::Field>, (u8, usize)> {
        with_fields(sheet, rust::check(sheet))
    }
    fn list(&self, sheet: &[u8]) -> String {
        let mut text = Vec::new();
        rust::list(sheet, &mut text);
        String::from_utf8(text).unwrap()
    }
    fn summarize(&self, sheet: &[u8], label: u8, source: u8) -> Result<Summary, summary::Refusal> {
        let s = rust::summarize(sheet, label, source).map_err(summary_refusal)?;
        let numbers = [s.ready, s.test, s.nodata, s.failure, s.refused, s.other, s.words].map(u64::from);
        Ok(summary_of(numbers, s.range.map(|(least, greatest)| (least.into(), greatest.into())), s.sum))
    }
}

const SUBJECTS: [(&str, &dyn Subject); 2] = [("C", &C), ("Rust", &Rust)];

fn each(test: impl Fn(&dyn Subject) -> compare::Outcome) {
    for (name, subject) in SUBJECTS {
        test(subject).unwrap_or_else(|difference| panic!("{name}: {difference}"));
    }
}

#[test]
fn random_inputs() {
    each(|subject| compare::random(subject, &mut Random::from_environment("random inputs", 11), 6000));
}

#[test]
fn random_words() {
    each(|subject| {
        let mut random = Random::from_environment("words", 12);
        (0..2_000_000).try_for_each(|_| compare::word(subject, generate::any_word(&mut random)))
    });
}

/// Every four digits of each frequency's label under every status.
#[test]
fn every_frequency() {
    each(compare::frequencies);
}

/// The words that are timed: a fiftieth refused, and VOR and ILS frequencies under each status, at channels of every MHz.
#[test]
fn timed_words() {
    let words = input::receiver_words(&mut input::Random::new(20), 100_000);
    each(|subject| words.iter().try_for_each(|&word| compare::word(subject, word)));
    let records: Vec<Record> = words.iter().filter_map(|&word| model::decode(word).ok()).collect();
    assert!((98_000..99_000).contains(&records.len()), "{} accepted", records.len());
    let under = |ils: bool, status: u8| -> Vec<i64> {
        let frequency = |record: &Record| match record.body {
            Body::VorFrequency { status: own, frequency } if !ils && own == status => Some(frequency),
            Body::IlsFrequency { status: own, frequency, .. } if ils && own == status => Some(frequency),
            _ => None,
        };
        records.iter().filter_map(frequency).collect()
    };
    for (ils, mhz) in [(false, 108..=117), (true, 108..=111)] {
        for status in [word::NODATA, word::TEST, word::READY] {
            let found = under(ils, status);
            assert!((900..1_300).contains(&found.len()), "{} of ILS: {ils}, status {status}", found.len());
            assert!(mhz.clone().all(|mhz| found.iter().any(|frequency| frequency / 100 == mhz)));
        }
    }
}

#[test]
fn every_boundary_figure() {
    each(|subject| {
        figure::QUANTITIES.iter().try_for_each(|quantity| {
            let figures = generate::boundary_figures(quantity);
            figures.into_iter().try_for_each(|m| compare::figure(subject, quantity.label, (m & 3) as u8, m))
        })
    });
}

/// Every count of every quantity beside the slips of its figure, and figures for which several reasons may hold.
#[test]
fn every_explanation() {
    each(|subject| {
        figure::QUANTITIES.iter().try_for_each(|quantity| compare::explanations(subject, quantity))?;
        compare::double_explanations(subject)
    });
}

/// Figures explained beside words of every sort.
#[test]
fn random_explanations() {
    each(|subject| {
        let mut random = Random::from_environment("explanations", 16);
        (0..20_000).try_for_each(|_| compare::random_explanations(subject, &mut random))
    });
}

/// The explanations that are timed: each reason, and each label under it, about equally often, and a few refused words.
#[test]
fn timed_explanations() {
    let explained = input::explanations(&mut input::Random::new(17), 90_000);
    each(|subject| explained.iter().try_for_each(|&(word, m)| compare::explanation(subject, word, m)));
    let count = |answer: Result<u8, u8>, labels: &[u8]| {
        let has = |&&(word, m): &&(u32, i64)| labels.contains(&(word as u8)) && model::explain(word, m) == answer;
        explained.iter().filter(has).count()
    };
    for reason in 1..=9 {
        for label in [0x49, 0xDE, 0x3E, 0x96, 0x56] {
            let found = count(Ok(reason), &[label]);
            assert!((1_750..=2_250).contains(&found), "{found} of {label:02X} have the reason {reason}");
        }
    }
    for refusal in [1, 2, 8] {
        let found = count(Err(refusal), &(0..=255).collect::<Vec<u8>>());
        assert!((500..=700).contains(&found), "{found} are refused {refusal}");
    }
}

/// Pages of every sort and of every length up to 300, into lists too short, as long as the words and longer; and pages of every four
/// digits of a frequency.
#[test]
fn pages() {
    each(|subject| {
        let mut random = Random::from_environment("pages", 13);
        (0..20_000).try_for_each(|_| compare::random_page(subject, &mut random))?;
        (0..=300).try_for_each(|length| compare::page_rooms(subject, &mut random, length))?;
        [0o034, 0o033, 0o036].into_iter().try_for_each(|label| {
            let words: Vec<u32> = generate::words_of_every_digit(label).collect();
            compare::page(subject, &words, &vec![99; words.len()], &vec![99; words.len()])
        })
    });
}

/// The library's single calls for each word of a page.
struct Singly;

impl Subject for Singly {
    fn decode_page(&self, words: &[u32], refusals: &mut [u8], counts: &mut [i16]) -> Result<(), u8> {
        library::decode_singly(words, refusals, counts)
    }
}

/// The library's pages as C has them.
struct Paged;

impl Subject for Paged {
    fn decode_page(&self, words: &[u32], refusals: &mut [u8], counts: &mut [i16]) -> Result<(), u8> {
        library::decode_page(words, refusals, counts)
    }
}

/// The words that are timed, as pages: the C, the Rust, the library and its single calls give the model's answers.
#[test]
fn timed_pages() {
    let mut random = input::Random::new(21);
    let words = [input::any_words(&mut random, 50_000), input::receiver_words(&mut random, 50_000)];
    for subject in [&C as &dyn Subject, &Rust, &Singly, &Paged] {
        for words in &words {
            compare::page(subject, words, &vec![99; words.len()], &vec![99; words.len() + 1]).unwrap();
            compare::page(subject, words, &vec![99; words.len() - 1], &vec![99; words.len()]).unwrap();
        }
        compare::page(subject, &[], &[], &[]).unwrap();
    }
}

/// Sheets of every sort.
#[test]
fn random_sheets() {
    each(|subject| {
        let mut random = Random::from_environment("sheets", 14);
        (0..20_000).try_for_each(|_| compare::sheet(subject, &generate::any_sheet(&mut random)))
    });
}

/// The sheets that are timed: of the size asked for, legal, with words mostly accepted and figures that mostly agree.
#[test]
fn timed_sheets() {
    let mut random = input::Random::new(15);
    let words = input::receiver_words(&mut random, 5000);
    for size in [3, 100, 1024, 32_768] {
        let sheet = input::sheet(&mut random, &words, size);
        assert_eq!(sheet.len(), size);
        each(|subject| compare::sheet(subject, &sheet));
        let listing = model::list(&sheet);
        let lines = |start: &str| listing.lines().filter(|line| line.starts_with(start)).count();
        if size == 32_768 {
            assert!(lines("figure agrees") > 200 && lines("figure differs") > 20 && lines("figure unmatched") > 20);
            assert!(lines("refused") > 20 && lines("refused") < 120, "{}", lines("refused"));
        }
    }
}

/// Sheets of every sort summed up, and the fullest ones.
#[test]
fn random_summaries() {
    each(|subject| {
        let mut random = Random::from_environment("summaries", 18);
        (0..40_000).try_for_each(|_| compare::random_summary(subject, &mut random))?;
        let fullest = summary::LABELS.iter().flat_map(|&label| [false, true].map(|least| (label, least)));
        let mut fullest = fullest.map(|(label, least)| generate::fullest_sheet(label, 1, least));
        fullest.try_for_each(|sheet| compare::summaries(subject, &sheet))
    });
}

/// The sheets that are timed, summed up for every label and source: the C, the Rust and the library give the model's numbers.
#[test]
fn timed_summaries() {
    let mut random = input::Random::new(19);
    let words = input::receiver_words(&mut random, 5000);
    for size in [3, 1024, 8192, 32_768] {
        let sheet = input::sheet(&mut random, &words, size);
        each(|subject| compare::summaries(subject, &sheet));
        for (label, source) in summary::LABELS.iter().flat_map(|&label| (0..4).map(move |source| (label, source))) {
            let s = library::summarize(&sheet, label, source).unwrap();
            let numbers = [s.ready, s.test, s.nodata, s.failure, s.refused, s.other, s.words];
            let range = (s.ready > 0).then_some((s.least.into(), s.greatest.into()));
            let theirs = summary_of(numbers, range, s.sum);
            assert_eq!(C.summarize(&sheet, label, source), Ok(theirs));
            assert!(size < 32_768 || (s.ready > 5 && s.other > 1000 && s.refused > 20), "{s:?}");
        }
    }
}

/// The longest listing, and a buffer that is one byte short of it.
#[test]
fn longest_listing() {
    let body = Body::MlsAzimuth { status: 3, inhibit: false, clearance: false, count: -32768 };
    let word = model::encode(&Record { source: 0, body }).unwrap();
    let full = sheet::field_bytes(&sheet::Content::Word(word)).repeat(4681);
    let mut text = vec![7; c::TEXT_MAX - 1];
    assert_eq!(c::list(&full, &mut text), Err(13));
    assert!(text.iter().all(|&byte| byte == 7));
    let mut text = vec![7; c::TEXT_MAX];
    assert_eq!(c::list(&full, &mut text), Ok(c::TEXT_MAX));
}

/// Both decoders on all 2^32 words; some minutes.
#[test]
#[ignore]
fn every_word() {
    each(|subject| (0..=u32::MAX).try_for_each(|word| compare::word(subject, word)));
}

/// The same in pages.
#[test]
#[ignore]
fn every_word_in_pages() {
    each(|subject| {
        (0..1 << 16).try_for_each(|upper: u32| {
            let words: Vec<u32> = (0..1 << 16).map(|lower| upper << 16 | lower).collect();
            compare::page(subject, &words, &[99; 1 << 16], &[99; 1 << 16])
        })
    });
}
