//! Document 01's own lines ("Lines to check against"), the slips it names, the lines of the requests, and points settled in the
//! readings.

use model::explain::{typed_figure, typed_word, REASONS};
use model::reading::{self, Reading, Value};
use model::reassembly::{step, Answer};
use model::sheet::{self, Content};
use model::word::{self, FAILURE, NODATA, READY, TEST};
use model::{agrees, code, decode, encode, explain, explain_text, list, note, print_text, write, Body, Record};
use model::{decode_page, generate, summarize, summary_text, Page};

fn value(word: u32) -> Value {
    reading::reading(&decode(word).unwrap()).unwrap().value
}

fn count(coded: Result<u32, u8>) -> Result<i64, u8> {
    coded.map(|word| word::count_of(&decode(word).unwrap()).unwrap())
}

#[test]
fn starred_words() {
    let azimuth = Body::VorAzimuth { status: READY, marker: 0, count: 2048 };
    assert_eq!(decode(0xE800_0049), Ok(Record { source: 0, body: azimuth }));
    assert_eq!(value(0xE800_0049), Value::Degrees(90.0));
    assert_eq!(value(0xFC00_0049), Value::Degrees(-45.0));
    assert_eq!(value(0x6400_00DE), Value::Depth(0.1));
    assert_eq!(word::count_of(&decode(0x7FFF_00DE).unwrap()), Some(-1));
    assert_eq!(print_text(0o173, -1).unwrap(), "-0.000098");
    assert_eq!(value(0x04C8_0038), Value::Frequency(11_320));
    assert_eq!(value(0x841C_0078), Value::Frequency(509_070));
    let manual = Body::SelectedAzimuth { status: READY, manual: true, degrees: 359 };
    assert_eq!(decode(0xEB3C_00D6), Ok(Record { source: 0, body: manual }));
    assert_eq!(decode(0xEB44_00D6), Err(6));
    assert_eq!(value(0x6940_0036), Value::Setting(40));
    assert_eq!(decode(0xE140_0036), Err(7));
    assert_eq!(decode(0xE800_0048), Err(1));
}

#[test]
fn figures() {
    for (label, millionths, coded) in [
        (0o173, 399_951, true),
        (0o173, -400_048, true),
        (0o173, 399_952, false),
        (0o173, -400_049, false),
        (0o174, 799_902, true),
        (0o174, 799_903, false),
    ] {
        let answer = code(label, 0, millionths);
        assert_eq!(answer.is_ok(), coded, "{label:03o} {millionths}");
        assert!(answer.is_ok() || answer == Err(8));
    }
    assert_eq!(count(code(0o222, 0, 179_980_000)), Ok(-4096));
    assert_eq!(count(code(0o222, 0, 180_000_000)), Ok(-4096));
    assert_eq!(count(code(0o222, 0, 315_000_000)), Ok(-1024));
    assert_eq!(code(0o222, 0, 360_000_000), Err(8));
    assert_eq!(count(code(0o222, 0, 359_990_000)), Ok(0));
    assert_eq!(count(code(0o222, 0, -180_000_000)), Ok(-4096));
    assert_eq!(code(0o222, 0, -180_000_001), Err(8));
}

/// Request 3: "The figure 2399963378 is coded and 2399963379 refused; -2400036621 is coded and -2400036622 refused." Document 01's
/// ties are none with this step.
#[test]
fn mls_figures() {
    for label in [0o151, 0o152] {
        for (millionths, answer) in [
            (36_600, Ok(0)),
            (-36_600, Ok(0)),
            (109_800, Ok(1)),
            (-109_800, Ok(-1)),
            (1_200_000_000, Ok(16_384)),
            (2_399_963_378, Ok(32_767)),
            (2_399_963_379, Err(8)),
            (-2_400_036_621, Ok(-32_768)),
            (-2_400_036_622, Err(8)),
        ] {
            assert_eq!(count(code(label, 0, millionths)), answer, "{label:03o} {millionths}");
        }
    }
    assert_eq!(value(0x6000_2096), Value::Millivolts(75.0 / 1024.0));
    assert_eq!(value(code(0o152, 1, -2_400_000_000).unwrap()), Value::Millivolts(-2400.0));
}

#[test]
fn figure_refusals_in_order() {
    assert_eq!(code(0o153, 4, i64::MAX), Err(2));
    assert_eq!(code(0o173, 4, i64::MAX), Err(4));
    assert_eq!(code(0o173, 3, i64::MAX), Err(8));
    assert_eq!(code(0o152, 3, i64::MIN), Err(8));
}

#[test]
fn printing_ties() {
    assert_eq!(print_text(0o222, 8).unwrap(), "0.351562");
    assert_eq!(print_text(0o222, 24).unwrap(), "1.054688");
    assert_eq!(print_text(0o222, -8).unwrap(), "-0.351562");
    assert_eq!(print_text(0o222, 4095).unwrap(), "179.956055");
    for (label, count, text) in [
        (0o151, 8, "0.585938"),
        (0o152, -8, "-0.585938"),
        (0o151, 24, "1.757812"),
        (0o152, -24, "-1.757812"),
        (0o151, 1, "0.073242"),
        (0o152, 16_384, "1200.000000"),
        (0o151, 32_767, "2399.926758"),
        (0o152, -32_768, "-2400.000000"),
    ] {
        assert_eq!(print_text(label, count).unwrap(), text);
    }
    assert_eq!(print_text(0o153, 0), None);
    assert_eq!(print_text(0o173, 4096), None);
}

#[test]
fn agreement() {
    assert!(agrees(0x6400_00DE, 100_000));
    assert!(!agrees(0x6400_00DE, 1_000_000));
    // Agreement is about the count alone: a nodata word keeps its count.
    let body = Body::IlsCourse { status: NODATA, inhibit: true, count: 1024 };
    assert!(agrees(encode(&Record { source: 2, body }).unwrap(), 100_000));
    assert!(!agrees(0x04C8_0038, 0));
    assert!(!agrees(0xE800_0048, 90_000_000));
}

/// The reasons of request 1, each by a figure of its own; the word says 0.1, and typed was 1.0.
#[test]
fn explanations() {
    let course = 0x6400_00DE;
    for (reason, millionths) in [
        (1, 100_000),
        (2, 1_000_000),
        (3, 10_000_000),
        (4, 100_000_000),
        (5, 10_000),
        (6, 1000),
        (7, 100),
        (8, -100_000),
        (9, 0),
        (9, 200_000),
        (9, i64::MAX),
        (9, i64::MIN),
        // Around 0.1 the figures from 99952 to 100048 agree: ten does not divide the first of these.
        (9, 1_000_001),
        (2, 1_000_480),
        (9, 1_000_490),
        (9, 999_510),
        (2, 999_520),
    ] {
        assert_eq!(explain(course, millionths), Ok(reason), "{millionths}");
    }
    // Of several true reasons the first is told: zero agrees, and so do its tenth, ten times it, and its other sign.
    let zero = code(0o173, 0, 0).unwrap();
    assert!((1..=8).all(|reason| model::explain::holds(reason, zero, 0)));
    assert_eq!(explain(zero, 0), Ok(1));
    // -180 degrees typed as 180 is the same azimuth.
    let south = code(0o222, 0, -180_000_000).unwrap();
    assert_eq!(explain(south, 180_000_000), Ok(1));
    assert_eq!(explain(south, 1_800_000_000), Ok(2));
    assert_eq!(explain(south, -1_800_000_000), Ok(2));
    // Beside an azimuth of -0.351562 degrees 0.35964 has two true reasons: 359.64 is nearest to its count, and so is -0.35964.
    let west = code(0o222, 0, -351_562).unwrap();
    assert!((1..=8).filter(|&reason| model::explain::holds(reason, west, 359_640)).eq([7, 8]));
    assert_eq!(explain(west, 359_640), Ok(7));
}

/// "the word's own number first, then 2 for a word that isn't one of the five measured ones, then 8 when it has no reading".
#[test]
fn explanations_refused() {
    assert_eq!(explain(0xE800_0048, 90_000_000), Err(1));
    assert_eq!(explain(0xEB44_00D6, 0), Err(6));
    assert_eq!(explain(0x04C8_0038, 113_200_000), Err(2));
    let word = |body| encode(&Record { source: 1, body }).unwrap();
    // A frequency without a reading is 2 all the same.
    assert_eq!(explain(word(Body::VorFrequency { status: NODATA, frequency: 11_320 }), 0), Err(2));
    assert_eq!(explain(word(Body::Part2 { content: 0 }), 0), Err(2));
    for (status, answer) in [(FAILURE, Err(8)), (NODATA, Err(8)), (TEST, Ok(1)), (READY, Ok(1))] {
        assert_eq!(explain(word(Body::IlsCourse { status, inhibit: true, count: 1024 }), 100_000), answer);
    }
}

fn explained(input: &str) -> String {
    String::from_utf8(explain_text(input.as_bytes())).unwrap()
}

#[test]
fn explained_lines() {
    let input = "640000DE 1.0\n640000DE 0.1\nE8000048 90\nno word\n";
    let text = "640000DE 1.000000: a tenth agrees; the word says 0.100000\n\
                640000DE 0.100000: agrees\n\
                E8000048 90.000000: refused 1\n\
                line 4: no word and figure\n\
                lines 4 agree 1 disagree 1 refused 1 unread 1\n";
    assert_eq!(explained(input), text);
    assert_eq!(explained(&input[..input.len() - 1]), text);
    assert_eq!(explained(&input.replace('\n', "\r\n")), text);
    assert_eq!(explained(&input.replace(' ', " \t ").replace("no \t word", "no word")), text);
    assert_eq!(explained(&input.replace("DE", "de").replace('.', ",")), text);
    assert_eq!(explained(""), "lines 0 agree 0 disagree 0 refused 0 unread 0\n");
    // Lines that pass are not counted, but have a place.
    assert_eq!(
        explained("# typed in June\n\n\r\n#\r\n \n\r\r\n"),
        "line 5: no word and figure\nline 6: no word and figure\nlines 2 agree 0 disagree 0 refused 0 unread 2\n"
    );
    for (reason, typed) in ["0.1", "1", "10", "100", "0.01", "0.001", "0.0001", "-.1", "-0"].into_iter().enumerate() {
        let (name, says) = (REASONS[reason], if reason == 0 { "" } else { "; the word says 0.100000" });
        let text = explained(&format!("640000DE {typed}"));
        assert!(text.lines().next().unwrap().ends_with(&format!(": {name}{says}")), "{text}");
    }
}

#[test]
fn typed_figures() {
    for (text, millionths) in [
        ("1", 1_000_000),
        ("5.", 5_000_000),
        (".5", 500_000),
        ("+,5", 500_000),
        ("-0", 0),
        ("-0.000001", -1),
        ("000000000000000000000000000000000000000000000001.5", 1_500_000),
        ("9223372036854.775807", i64::MAX),
        ("-9223372036854,775808", i64::MIN),
    ] {
        assert_eq!(typed_figure(text.as_bytes()), Some(millionths), "{text}");
    }
    let too_long = "9".repeat(190);
    for text in [
        "",
        ".",
        "+",
        "-.",
        "1.0000000",
        "1.2.3",
        "1,2.3",
        "--1",
        "+-1",
        "1-",
        "1e3",
        "0x1",
        "9223372036854.775808",
        "-9223372036854.775809",
        "18446744073709.551616",
        &too_long,
        "１",
    ] {
        assert_eq!(typed_figure(text.as_bytes()), None, "{text}");
    }
    for text in ["640000D", "640000DE0", "640000DG", "+40000DE", "0x640000", "64 000DE"] {
        assert_eq!(typed_word(text.as_bytes()), None, "{text}");
    }
    assert_eq!(typed_word(b"fC000049"), Some(0xFC00_0049));
}

/// A line of 200 bytes is read, one of 201 is not; a carriage return at its end is not part of it, and a comment has any length.
#[test]
fn long_lines() {
    let line = |length: usize| format!("640000DE {}1", " ".repeat(length - 10));
    let answer = |text: &str| explained(text).lines().next().unwrap().to_string();
    let read = "640000DE 1.000000: a tenth agrees; the word says 0.100000";
    assert_eq!(answer(&line(200)), read);
    assert_eq!(answer(&(line(200) + "\r\n")), read);
    assert_eq!(answer(&line(201)), "line 1: no word and figure");
    assert_eq!(answer(&(line(201) + "\r\n")), "line 1: no word and figure");
    assert_eq!(answer(&("#".repeat(3000) + "\n640000DE 1")), read);
    assert_eq!(answer(&("x".repeat(1 << 20) + "\n640000DE 1")), "line 1: no word and figure");
}

#[test]
fn listing() {
    let bytes = [
        0x10, 0, 4, 0xE8, 0, 0, 0x49, 0x10, 0, 4, 0x64, 0, 0, 0xDE, 0x11, 0, 9, 0x7B, 0, 0, 0, 0, 0, 0x0F, 0x42, 0x40,
        0x10, 0, 4, 0xE8, 0, 0, 0x48,
    ];
    let text = "222 0 ready 90.000000\n173 0 ready 0.100000\nfigure differs\nrefused 1\nwords 3 refused 1\n";
    assert_eq!(list(&bytes), text);
    assert_eq!(list(&[]), "words 0 refused 0\n");
    assert_eq!(list(&[0x20, 0, 1, 0x10]), "sheet refused 9 at 3\n");
}

/// Words one after the other, each in a field.
fn sheet_of(words: &[u32]) -> Vec<u8> {
    words.iter().flat_map(|&word| sheet::field_bytes(&Content::Word(word))).collect()
}

/// Request 2's numbers by hand: a course word of each status, ready ones in groups, and words that are others or refused.
#[test]
fn summaries() {
    let course = |source, status, count| {
        encode(&Record { source, body: Body::IlsCourse { status, inhibit: count < 0, count } }).unwrap()
    };
    let inside = sheet_of(&[course(2, READY, -4096), course(2, TEST, 4095), 0xE800_0049]);
    let deeper = [sheet_of(&[course(2, READY, 5)]), sheet::field_bytes(&Content::Group(&inside))].concat();
    let top = [course(2, READY, 7), course(2, NODATA, 4095), course(2, FAILURE, -4096), course(1, READY, 4000)];
    let sheet = [
        sheet_of(&top),
        sheet::field_bytes(&Content::Figure(0o173, 1)),
        sheet::field_bytes(&Content::Group(&deeper)),
        sheet_of(&[course(2, READY, 7), course(2, READY, 4094) ^ 1 << 31]),
    ]
    .concat();
    let summary = summarize(&sheet, 0o173, 2).unwrap();
    assert_eq!([summary.ready, summary.test, summary.nodata, summary.failure], [4, 1, 1, 1]);
    assert_eq!([summary.refused, summary.other, summary.words], [1, 2, 10]);
    assert_eq!((summary.least, summary.greatest, summary.sum), (Some(-4096), Some(7), -4077));
    assert_eq!(summary.mean, Some((-4077, 4)));
    let text = "173 source 2: ready 4 test 1 nodata 1 failure 1\n\
                least -4096 -0.400000 greatest 7 0.000684\n\
                sum -4077 mean -4077/4\n\
                words 10 refused 1 other 2\n";
    assert_eq!(summary_text(0o173, 2, &summary), text);
    // "With no ready word there is no least, greatest or mean."
    let none = summarize(&sheet, 0o174, 2).unwrap();
    assert_eq!((none.ready, none.least, none.greatest, none.sum, none.mean), (0, None, None, 0, None));
    assert_eq!((none.refused, none.other, none.words), (1, 9, 10));
    let text = "174 source 2: ready 0 test 0 nodata 0 failure 0\n\
                least - greatest -\n\
                sum 0 mean -\n\
                words 10 refused 1 other 9\n";
    assert_eq!(summary_text(0o174, 2, &none), text);
    // The mean is not reduced, and a sum of 0 is one.
    let zeros = sheet_of(&[course(0, READY, 3), course(0, READY, -3)]);
    assert_eq!(summarize(&zeros, 0o173, 0).unwrap().mean, Some((0, 2)));
    // The largest sums that there are: 4681 words.
    for (least, sum) in [(true, -4681 * 32768), (false, 4681 * 32767)] {
        let summary = summarize(&generate::fullest_sheet(0o152, 3, least), 0o152, 3).unwrap();
        assert_eq!((summary.words, summary.sum, summary.mean), (4681, sum, Some((sum, 4681))));
    }
}

/// "Refusals: 2 for the label, 4 for the source, then the sheet's own."
#[test]
fn summaries_refused() {
    let cut = [0x20, 0, 1, 0x10];
    for label in (0..=255).filter(|label| ![0o173, 0o174, 0o151, 0o152].contains(label)) {
        assert_eq!(summarize(&cut, label, 4), Err((2, None)), "{label:03o}");
    }
    for label in [0o173, 0o174, 0o151, 0o152] {
        assert_eq!(summarize(&cut, label, 4), Err((4, None)));
        assert_eq!(summarize(&cut, label, 255), Err((4, None)));
        assert_eq!(summarize(&cut, label, 3), Err((9, Some(3))));
        assert_eq!(summarize(&vec![0; 32_769], label, 0), Err((15, Some(0))));
        assert_eq!(summarize(&[], label, 0).unwrap().words, 0);
    }
}

#[test]
fn named_slips() {
    // The label with bit 1 highest.
    assert_eq!(word::label_of(0x49), 0o222);
    // Bits 30 and 31 of the parts are no status, and parts have no reading.
    for (part, body) in [
        (0, Body::Part1 { number: 1, content: 2 }),
        (1, Body::Part2 { content: 3 }),
        (2, Body::Part3 { content: 4 }),
        (3, Body::Part4 { parity: true, content: 5 }),
    ] {
        let word = encode(&Record { source: 1, body }).unwrap();
        assert_eq!(word >> 29 & 3, part);
        assert_eq!(reading::reading(&decode(word).unwrap()), None);
    }
    // A nodata word keeps its data and writes back.
    let body = Body::VorFrequency { status: NODATA, frequency: 11_795 };
    let word = encode(&Record { source: 3, body }).unwrap();
    assert_eq!(decode(word), Ok(Record { source: 3, body }));
    // Test is bit 31 alone, nodata is bit 30 alone.
    for (status, bits) in [(FAILURE, 0), (NODATA, 1), (TEST, 2), (READY, 3)] {
        let body = Body::GreatestGlide { status, tenths: 0 };
        assert_eq!(encode(&Record { source: 0, body }).unwrap() >> 29 & 3, bits);
    }
}

#[test]
fn writing_refuses_4_before_6() {
    let body = Body::VorAzimuth { status: READY, marker: 4, count: 5000 };
    assert_eq!(encode(&Record { source: 0, body }), Err(4));
    let body = Body::VorAzimuth { status: READY, marker: 3, count: 5000 };
    assert_eq!(encode(&Record { source: 0, body }), Err(6));
    assert_eq!(encode(&Record { source: 4, body }), Err(4));
    let body = Body::MlsFrequency { status: FAILURE, frequency: 503_100 };
    assert_eq!(encode(&Record { source: 0, body }), Err(4));
    let body = Body::MlsFrequency { status: READY, frequency: 502_000 };
    assert_eq!(encode(&Record { source: 0, body }), Err(6));
}

#[test]
fn order_of_word_refusals() {
    // Digit 10 and status 11 together: 5 comes before 4.
    assert_eq!(decode(with_odd_ones(0x38 | 3 << 29 | 10 << 14)), Err(5));
    assert_eq!(decode(with_odd_ones(0x38 | 3 << 29)), Err(4));
    // MLS tens code 2 is no code, code 3 with units 0 is 5030, no legal value.
    assert_eq!(decode(with_odd_ones(0x78 | 2 << 26)), Err(4));
    assert_eq!(decode(with_odd_ones(0x78 | 3 << 26)), Err(6));
    // A bad digit and a zero bit together: 3 comes first.
    assert_eq!(decode(with_odd_ones(0x38 | 10 << 14 | 1 << 10)), Err(3));
}

/// Request 6: the document's words as one page; "elements past the last word are untouched".
#[test]
fn pages() {
    let course = |status| encode(&Record { source: 1, body: Body::IlsCourse { status, inhibit: true, count: -7 } });
    let mut words = vec![0xE800_0049, 0xE800_0048, 0xFC00_0049, 0x6400_00DE, 0x7FFF_00DE, 0x04C8_0038, 0x841C_0078];
    words.extend([0xEB3C_00D6, 0xEB44_00D6, 0x6940_0036, 0xE140_0036, 0]);
    words.extend([FAILURE, NODATA, TEST, READY].map(|status| course(status).unwrap()));
    let page = decode_page(&words, &[99; 18], &[-99; 17]);
    assert_eq!(page.answer, Ok(()));
    assert_eq!(page.refusals, [0, 1, 0, 0, 0, 0, 0, 0, 6, 0, 7, 1, 0, 0, 0, 0, 99, 99]);
    assert_eq!(page.counts, [2048, 0, -1024, 1024, -1, 0, 0, 0, 0, 0, 0, 0, -7, -7, -7, -7, -99]);
    let empty = Page { answer: Ok(()), refusals: vec![99], counts: vec![] };
    assert_eq!(decode_page(&[], &[99], &[]), empty);
}

/// "Refusals: 13 when either lent list is shorter than the words, and then nothing is written."
#[test]
fn pages_refused() {
    let words = [0xE800_0049, 0x6400_00DE];
    for (refusals_room, counts_room) in [(1, 2), (2, 1), (0, 9), (9, 0), (1, 1), (0, 0)] {
        let (refusals, counts) = (vec![99; refusals_room], vec![-99; counts_room]);
        assert_eq!(decode_page(&words, &refusals, &counts), Page { answer: Err(13), refusals, counts });
    }
    // "A refused word is an answer in the list and no refusal of the call."
    let refused = Page { answer: Ok(()), refusals: vec![1], counts: vec![0] };
    assert_eq!(decode_page(&[0xE800_0048], &[99], &[-99]), refused);
}

fn with_odd_ones(word: u32) -> u32 {
    model::generate::with_parity(word)
}

/// The word of source 0 with the digits of a printed frequency and these bits 30 and 31, the first lowest: 0 ready, 1 nodata, 2 test.
fn frequency_word(label: u8, status: u32, printed: &str) -> u32 {
    let digits: Vec<u32> = printed.chars().rev().filter_map(|sign| sign.to_digit(10)).collect();
    let placed = digits[0] << 14 | digits[1] << 18 | digits[2] << 22 | digits[3] << 26;
    with_odd_ones(u32::from(label.reverse_bits()) | placed | status << 29)
}

/// The refusals of a printed frequency under ready, nodata and test, 0 where it is accepted: its word has the same as its record.
fn told(label: u8, printed: &str) -> [u8; 3] {
    let frequency = printed.replace('.', "").parse().unwrap();
    [(READY, 0), (NODATA, 1), (TEST, 2)].map(|(status, bits)| {
        let body = match label {
            0o034 => Body::VorFrequency { status, frequency },
            0o033 => Body::IlsFrequency { status, category: 0, frequency },
            _ => Body::MlsFrequency { status, frequency },
        };
        let (word, record) = (frequency_word(label, bits, printed), Record { source: 0, body });
        assert_eq!(encode(&record), decode(word).map(|_| word), "{record:?}");
        assert!(decode(word).is_ok_and(|decoded| decoded == record) || decode(word) == Err(6), "{record:?}");
        decode(word).err().unwrap_or(0)
    })
}

/// Request 5: "Recognition gave us VOR 178.33 and nobody noticed, as any digits pass." "Under nodata any decimal digits stay legal";
/// 036 has its rule under every status.
#[test]
fn frequencies_off_the_raster() {
    let (legal, refused) = ([0; 3], [6, 0, 6]);
    for (printed, vor, ils) in [
        ("178.33", refused, refused),
        ("100.00", refused, refused),
        ("107.95", refused, refused),
        ("108.00", legal, refused),
        ("108.05", legal, refused),
        ("108.09", refused, refused),
        ("108.10", refused, legal),
        ("108.11", refused, refused),
        ("108.15", refused, legal),
        ("108.20", legal, refused),
        ("110.35", refused, legal),
        ("110.45", legal, refused),
        ("111.95", refused, legal),
        ("112.00", legal, refused),
        ("112.05", legal, refused),
        ("112.10", legal, refused),
        ("113.20", legal, refused),
        ("113.24", refused, refused),
        ("117.95", legal, refused),
        ("118.00", refused, refused),
        ("179.99", refused, refused),
    ] {
        assert_eq!(told(0o034, printed), vor, "VOR {printed}");
        assert_eq!(told(0o033, printed), ils, "ILS {printed}");
    }
    for (printed, answers) in [("5031.00", legal), ("5031.30", legal), ("5031.05", [6; 3]), ("5031.10", [6; 3])] {
        assert_eq!(told(0o036, printed), answers, "MLS {printed}");
    }
    assert_eq!([decode(0x1E0C_C038), decode(0xDE0C_C038)], [Err(6); 2]);
    let body = Body::VorFrequency { status: NODATA, frequency: 17_833 };
    assert_eq!(decode(0xBE0C_C038), Ok(Record { source: 0, body }));
}

/// "Refusals: 6, at its old place, for words and for records."
#[test]
fn raster_refused_after_5_and_4() {
    for label in [0o034, 0o033] {
        let word = frequency_word(label, 0, "178.33");
        assert_eq!(decode(word), Err(6));
        assert_eq!(decode(word ^ 1 << 31), Err(1));
        assert_eq!(decode(with_odd_ones(word | 1 << 12)), Err(3));
        assert_eq!(decode(with_odd_ones(word | 15 << 14)), Err(5));
        assert_eq!(decode(with_odd_ones(word | 15 << 14 | 3 << 29)), Err(5));
        assert_eq!(decode(with_odd_ones(word | 3 << 29)), Err(4));
        // No channel has this status, either.
        assert_eq!(decode(frequency_word(label, 3, "112.00")), Err(4));
        assert_eq!(decode(frequency_word(label, 3, "108.10")), Err(4));
    }
    for frequency in [17_833, 10_000, 9_999, 0] {
        let vor = |source, status| encode(&Record { source, body: Body::VorFrequency { status, frequency } });
        let ils =
            |status, category| encode(&Record { source: 3, body: Body::IlsFrequency { status, category, frequency } });
        assert_eq!([vor(0, FAILURE), vor(0, 4), vor(4, READY), vor(4, NODATA)], [Err(4); 4]);
        assert_eq!([ils(FAILURE, 1), ils(READY, 4), ils(NODATA, 4), ils(TEST, 255)], [Err(4); 4]);
        assert_eq!([vor(0, READY), vor(3, TEST), ils(READY, 0), ils(TEST, 3)], [Err(6); 4]);
        let digits = frequency >= 10_000;
        assert!([vor(3, NODATA), ils(NODATA, 3)].iter().all(|word| word.is_ok() == digits));
    }
}

/// "One of the forty", and 160 of VOR: none is both, and together they are every 50 kHz from 108.00 to 117.95.
#[test]
fn channels() {
    let (vor, ils) = (&*word::VOR_CHANNELS, &*word::ILS_CHANNELS);
    assert_eq!((vor.len(), vor.first(), vor.last()), (160, Some(&10_800), Some(&11_795)));
    assert_eq!((ils.len(), ils.first(), ils.last()), (40, Some(&10_810), Some(&11_195)));
    assert!(ils.iter().all(|channel| !vor.contains(channel)));
    let mut both = [&vor[..], ils].concat();
    both.sort_unstable();
    assert!(both.into_iter().eq((10_800..=11_795).step_by(5)));
}

/// "Accepted of 034 33280, of 033 129280, the others as before": four times the words of source 0, and sixteen times those that are of
/// no category as well.
#[test]
fn accepted_frequencies() {
    for (label, times, accepted) in [(0o034, 4, 33_280), (0o033, 16, 129_280), (0o036, 4, 2_400)] {
        let words = generate::words_of_every_digit(label).filter(|&word| decode(word).is_ok());
        assert_eq!(times * words.count(), accepted, "{label:03o}");
    }
}

/// "Whoever decodes, writes, lists or explains must follow."
#[test]
fn raster_everywhere() {
    let (off, without_data) = (frequency_word(0o034, 0, "178.33"), frequency_word(0o034, 1, "178.33"));
    let (vor, ils) = (frequency_word(0o034, 0, "112.00"), frequency_word(0o033, 2, "108.10"));
    assert_eq!((value(vor), value(ils)), (Value::Frequency(11_200), Value::Frequency(10_810)));
    assert_eq!([off, without_data, vor, ils].map(|word| explain(word, 0)), [Err(6), Err(2), Err(2), Err(2)]);
    let sheet = sheet_of(&[off, without_data, vor, ils, frequency_word(0o033, 2, "108.20")]);
    let text = "refused 6\n034 0 nodata -\n034 0 ready 112.00\n033 0 test 108.10\nrefused 6\nwords 5 refused 2\n";
    assert_eq!(list(&sheet), text);
    let summary = summarize(&sheet, 0o173, 0).unwrap();
    assert_eq!([summary.refused, summary.other, summary.words], [2, 3, 5]);
    assert_eq!(reading::chart_point(off, 0), Err(6));
    assert_eq!(reading::chart_point(code(0o173, 0, 0).unwrap(), off), Err(6));
    // At the joiner a word of another label is 2, whatever else is wrong with it.
    assert_eq!(step(None, off), (None, Answer::Refused(2)));
}

#[test]
fn chart_points() {
    let word = |source, body| encode(&Record { source, body }).unwrap();
    let course = |source, status| word(source, Body::IlsCourse { status, inhibit: false, count: 1024 });
    let glide = |source, status| word(source, Body::IlsGlide { status, inhibit: false, count: -512 });
    assert_eq!(reading::chart_point(course(1, READY), glide(1, TEST)), Ok((0.1, -0.1)));
    assert_eq!(reading::chart_point(glide(1, READY), course(1, READY)), Err(2));
    assert_eq!(reading::chart_point(course(1, NODATA), glide(2, READY)), Err(4));
    assert_eq!(reading::chart_point(course(2, READY), glide(2, FAILURE)), Err(8));
    assert_eq!(reading::chart_point(0xE800_0048, 0xEB44_00D6), Err(1));
    assert_eq!(reading::chart_point(0xE800_0049, 0xEB44_00D6), Err(6));
    let test = reading::reading(&decode(glide(0, TEST)).unwrap());
    assert_eq!(test, Some(Reading { value: Value::Depth(-0.1), test: true }));
}

#[test]
fn parts_out_of_sequence() {
    let word = |source, body| encode(&Record { source, body }).unwrap();
    let one = word(1, Body::Part1 { number: 0x12, content: 0x34 });
    let two = word(1, Body::Part2 { content: 0x5678 });
    let three = word(1, Body::Part3 { content: 0x9ABC });
    let four = word(1, Body::Part4 { parity: true, content: 0xDEF0 });
    assert_eq!(step(None, two), (None, Answer::Refused(14)));
    let (held, answer) = step(None, one);
    assert_eq!(answer, Answer::Taken(1));
    // A wrong word of the next part, its bits 31 and 30 exchanged, is 4 and changes nothing.
    assert_eq!(step(held.clone(), two ^ 3 << 29), (held.clone(), Answer::Refused(4)));
    assert_eq!(step(held.clone(), 0x6400_00DE), (held.clone(), Answer::Refused(2)));
    assert_eq!(step(held.clone(), three), (None, Answer::Refused(14)));
    let other = word(2, Body::Part2 { content: 0 });
    assert_eq!(step(held.clone(), other), (None, Answer::Refused(14)));
    let (held, _) = step(held, two);
    let (held, _) = step(held, three);
    assert_eq!(step(held, four), (None, Answer::Whole(0xDEF0_9ABC_5678_3412, true)));
}

#[test]
fn notes_and_writing() {
    let mut buffer = [0xAA; 12];
    assert_eq!(write(&mut buffer, 2, &Content::Note(b"ab")), Ok(7));
    assert_eq!(buffer, [0xAA, 0xAA, 0x12, 0, 2, b'a', b'b', 0xAA, 0xAA, 0xAA, 0xAA, 0xAA]);
    assert_eq!(write(&mut buffer, 6, &Content::Word(0)), Err((13, None)));
    assert_eq!(write(&mut buffer, usize::MAX, &Content::Word(0)), Err((15, None)));
    assert_eq!(write(&mut buffer, 0, &Content::Group(&[0x20, 0, 1, 0x20])), Err((9, Some(3))));
    let deep = [0x20, 0, 6, 0x20, 0, 3, 0x20, 0, 0];
    assert_eq!(write(&mut [0; 20], 0, &Content::Group(&deep)), Err((12, Some(6))));
    assert_eq!(write(&mut [0; 20], 0, &Content::Group(&deep[..0])), Ok(3));
    let sheet = [0x20, 0, 4, 0x12, 0, 1, b'x', 0x12, 0, 0];
    assert_eq!(note(&sheet, 3), Ok(&b"x"[..]));
    assert_eq!(note(&sheet, 7), Ok(&b""[..]));
    for place in [0, 1, 6, 10, usize::MAX] {
        assert_eq!(note(&sheet, place), Err((10, place)));
    }
    assert_eq!(note(&sheet[..9], 3), Err((9, 7)));
    assert_eq!(sheet::check(&vec![0; 32_769]), Err((15, 0)));
    let mut large = vec![0; 40_000];
    assert_eq!(write(&mut large, 32_761, &Content::Word(1)), Ok(32_768));
    assert_eq!(write(&mut large, 32_762, &Content::Word(1)), Err((15, None)));
    assert_eq!(write(&mut large, 0, &Content::Note(&vec![1; 70_000])), Err((15, None)));
}

#[test]
fn lines_of_fields() {
    let sheet = [
        &[0x10, 0, 4, 0xE8, 0, 0, 0x49][..],
        &[0x11, 0, 9, 0x7B, 0, 0, 0, 0, 0, 0x0F, 0x42, 0x40],
        &[0x12, 0, 5, b'h', b'e', b'l', b'l', b'o'],
        &[0x20, 0, 14, 0x12, 0, 4, b'a', b'\\', 10, 255, 0x10, 0, 4, 0xE8, 0, 0, 0x48],
    ]
    .concat();
    let lines = "0 1 10 4 E8000049\n7 1 11 9 173 1.000000\n19 1 12 5 hello\n27 1 20 14\n30 2 12 4 a\\x5C\\x0A\\xFF\n37 2 10 4 E8000048\n";
    assert_eq!(model::list_fields(&sheet), lines);
    assert_eq!(model::list_fields(&sheet[..sheet.len() - 1]), "sheet refused 9 at 27\n");
}
