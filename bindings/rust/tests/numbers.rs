//! The library's functions as C calls them, on numbers that the crate's types cannot hold: beside the model where it has an
//! answer, else for what the header says of any numbers.

#[path = "../src/ffi.rs"]
#[allow(dead_code)]
mod ffi;

// Links the library.
use lampcygnet as _;
use model::generate::{self, Random};
use model::reassembly::{self, Answer, Partial};
use model::sheet::{self, FIGURE, GROUP, NOTE, WORD};
use model::word::LABELS;
use model::{Body, Content, Record};
use std::fs;
use std::path::PathBuf;
use std::ptr;

/// A byte, small ones far more often than chance.
fn byte(random: &mut Random) -> u8 {
    match random.below(4) {
        0 => random.draw() as u8,
        _ => random.below(6) as u8,
    }
}

/// A number, small ones and those near 2^64 more often than chance.
fn size(random: &mut Random, most: usize) -> usize {
    match random.below(8) {
        0 => random.draw() as usize >> random.below(64),
        1 => usize::MAX - random.below(8) as usize,
        _ => random.below(most as u64 + 5) as usize,
    }
}

// ---- words

/// Any numbers as a record; those of a legal one half the time, with one of them changed.
fn any_numbers(random: &mut Random) -> ffi::Record {
    let mut numbers = ffi::Record {
        refusal: random.draw() as u8,
        kind: random.below(18) as u8,
        source: byte(random),
        status: byte(random),
        marker: byte(random),
        category: byte(random),
        inhibit: byte(random),
        clearance: byte(random),
        manual: byte(random),
        parity_good: byte(random),
        word_number: random.draw() as u8,
        count: random.draw() as i16 >> random.below(16),
        value: random.draw() as u32 >> random.below(32),
    };
    if random.flag() {
        // The function takes any numbers and writes to no memory.
        numbers = unsafe { ffi::lampcygnet_decode(generate::legal_word(random)) };
        match random.below(9) {
            0 => numbers.status = byte(random),
            1 => numbers.marker = byte(random),
            2 => numbers.category = byte(random),
            3 => (numbers.inhibit, numbers.clearance) = (byte(random), byte(random)),
            4 => (numbers.manual, numbers.parity_good) = (byte(random), byte(random)),
            5 => numbers.value ^= 1 << random.below(32),
            6 => numbers.value = generate::any_frequency(random) as u32,
            _ => numbers.source = byte(random),
        }
    }
    numbers
}

/// The model's answer to any numbers: 2 for no kind, 4 for a code outside its list, 6 for a flag above 1, else that of the
/// record.
fn encode_numbers(n: &ffi::Record) -> Result<u32, u8> {
    let flag = |number: u8| number == 1;
    let status = || n.status.checked_sub(1).filter(|status| *status < 4).ok_or(4);
    let marker = || match n.marker {
        4 => Ok(3),
        3 => Err(4),
        other => Ok(other),
    };
    let (count, value) = (i64::from(n.count), i64::from(n.value));
    let body = match n.kind {
        1 => Body::VorAzimuth {
            status: status()?,
            marker: marker()?,
            count,
        },
        2 => Body::VorFrequency {
            status: status()?,
            frequency: value,
        },
        3 => Body::IlsCourse {
            status: status()?,
            inhibit: flag(n.inhibit),
            count,
        },
        4 => Body::IlsGlide {
            status: status()?,
            inhibit: flag(n.inhibit),
            count,
        },
        5 => Body::IlsFrequency {
            status: status()?,
            category: n.category,
            frequency: value,
        },
        6 => Body::MlsFrequency {
            status: status()?,
            frequency: value,
        },
        7 | 8 => {
            let (status, inhibit, clearance) = (status()?, flag(n.inhibit), flag(n.clearance));
            match n.kind {
                7 => Body::MlsAzimuth {
                    status,
                    inhibit,
                    clearance,
                    count,
                },
                _ => Body::MlsGlide {
                    status,
                    inhibit,
                    clearance,
                    count,
                },
            }
        }
        9 => Body::SelectedAzimuth {
            status: status()?,
            manual: flag(n.manual),
            degrees: value,
        },
        10 => Body::GreatestGlide {
            status: status()?,
            tenths: value,
        },
        11 => Body::SelectedGlide {
            status: status()?,
            manual: flag(n.manual),
            tenths: value,
        },
        12 => Body::Part1 {
            number: n.word_number.into(),
            content: value,
        },
        13 => Body::Part2 { content: value },
        14 => Body::Part3 { content: value },
        15 => Body::Part4 {
            parity: flag(n.parity_good),
            content: value,
        },
        _ => return Err(2),
    };
    let flags: &[u8] = match n.kind {
        3 | 4 => &[n.inhibit],
        7 | 8 => &[n.inhibit, n.clearance],
        9 | 11 => &[n.manual],
        15 => &[n.parity_good],
        _ => &[],
    };
    match model::encode(&Record { source: n.source, body }) {
        Err(4) => Err(4),
        _ if flags.iter().any(|flag| 1 < *flag) => Err(6),
        answer => answer,
    }
}

#[test]
fn records_of_any_numbers() {
    let mut random = Random::from_environment("records of numbers", 21);
    for _ in 0..1_000_000 {
        let numbers = any_numbers(&mut random);
        // The function takes any numbers and writes to no memory.
        let answer = unsafe { ffi::lampcygnet_encode(numbers) };
        match encode_numbers(&numbers) {
            Ok(word) => assert_eq!((answer.refusal, answer.word), (0, word), "{numbers:?}"),
            Err(refusal) => assert_eq!((answer.refusal, answer.word), (refusal, 0), "{numbers:?}"),
        }
    }
}

/// Beside a refusal every field is 0.
#[test]
fn refused_words_have_no_numbers() {
    let mut random = Random::from_environment("refused words", 22);
    for _ in 0..500_000 {
        let word = generate::any_word(&mut random);
        // The functions take any numbers and write to no memory.
        let (record, reading) = unsafe { (ffi::lampcygnet_decode(word), ffi::lampcygnet_reading_of(word)) };
        if let Err(refusal) = model::decode(word) {
            assert_eq!(
                record,
                ffi::Record {
                    refusal,
                    ..ffi::Record::default()
                }
            );
            let numbers = (
                reading.refusal,
                reading.shown,
                reading.unit,
                reading.manual,
                reading.whole,
            );
            assert_eq!((numbers, reading.value.to_bits()), ((refusal, 0, 0, 0, 0), 0));
        }
    }
}

/// The list with other numbers around it: what is written outside would show.
fn between<T: Copy>(list: &[T], around: T) -> Vec<T> {
    [&[around; MARGIN][..], list, &[around; MARGIN]].concat()
}

/// A page is written to its two lists and nowhere else.
#[test]
fn pages_between_other_numbers() {
    let mut random = Random::from_environment("pages between others", 33);
    for _ in 0..20_000 {
        let (words, refusals, counts) = generate::any_page(&mut random);
        let (byte, number) = (random.draw() as u8, random.draw() as i16);
        let (mut refusals_between, mut counts_between) = (between(&refusals, byte), between(&counts, number));
        // Pointers and lengths are those of the words, and of the two lists inside longer ones, which are borrowed alone.
        let answer = unsafe {
            ffi::lampcygnet_decode_page(
                words.as_ptr(),
                words.len(),
                refusals_between[MARGIN..].as_mut_ptr(),
                refusals.len(),
                counts_between[MARGIN..].as_mut_ptr(),
                counts.len(),
            )
        };
        let page = model::decode_page(&words, &refusals, &counts);
        assert_eq!(answer, page.answer.err().unwrap_or(0));
        assert_eq!(refusals_between, between(&page.refusals, byte), "{words:08X?}");
        assert_eq!(counts_between, between(&page.counts, number), "{words:08X?}");
    }
}

/// A page of no words at a null pointer is one; a list of none at a null pointer has no room for a word.
#[test]
fn no_words_at_null() {
    let (words, refusals, counts) = (ptr::null(), ptr::null_mut(), ptr::null_mut());
    let (word, mut refusal, mut count) = (0x640000DE, 99, 99);
    // Each length beside a null pointer is 0, and beside a number 1.
    unsafe {
        assert_eq!(ffi::lampcygnet_decode_page(words, 0, refusals, 0, counts, 0), 0);
        assert_eq!(ffi::lampcygnet_decode_page(words, 0, &mut refusal, 1, &mut count, 1), 0);
        assert_eq!(ffi::lampcygnet_decode_page(&word, 1, refusals, 0, &mut count, 1), 13);
        assert_eq!(ffi::lampcygnet_decode_page(&word, 1, &mut refusal, 1, counts, 0), 13);
        assert_eq!((refusal, count), (99, 99));
        assert_eq!(ffi::lampcygnet_decode_page(&word, 1, &mut refusal, 1, &mut count, 1), 0);
        assert_eq!((refusal, count), (0, 1024));
    }
}

/// Labels and sources above a byte, and counts of 64 bits.
#[test]
fn figures_of_any_numbers() {
    let mut random = Random::from_environment("figures of numbers", 23);
    for _ in 0..500_000 {
        let (label, source, millionths) = generate::any_figure(&mut random);
        let wide = |random: &mut Random, number: u8| {
            u32::from(number)
                + if random.once_in(4) {
                    (random.draw() as u32 >> random.below(24)) << 8
                } else {
                    0
                }
        };
        let (label, source) = (wide(&mut random, label), wide(&mut random, source));
        let known = u8::try_from(label)
            .ok()
            .filter(|label| model::figure::quantity_of(*label).is_some());
        let count = if random.flag() {
            random.within(-70_000, 70_000)
        } else {
            random.draw() as i64
        };
        // The functions take any numbers and write to no memory.
        let (coded, printed) = unsafe {
            (
                ffi::lampcygnet_code_figure(label, source, millionths),
                ffi::lampcygnet_print_count(label, count),
            )
        };
        let model = match (known, u8::try_from(source)) {
            (None, _) => Err(2),
            (Some(_), Err(_)) => Err(4),
            (Some(label), Ok(source)) => model::code(label, source, millionths),
        };
        let expected = model.map_or_else(|refusal| (refusal, 0), |word| (0, word));
        assert_eq!(
            (coded.refusal, coded.word),
            expected,
            "code {label:o} {source} {millionths}"
        );
        let model = known
            .ok_or(2)
            .and_then(|label| model::print_millionths(label, count).ok_or(6));
        let expected = model.map_or_else(|refusal| (refusal, 0), |millionths| (0, millionths));
        assert_eq!(
            (printed.refusal, printed.millionths),
            expected,
            "print {label:o} {count}"
        );
    }
}

/// Beside a refusal the reason is 0, and beside none it is 1 to 9.
#[test]
fn explained_numbers() {
    let mut random = Random::from_environment("explained numbers", 31);
    for _ in 0..100_000 {
        let (word, millionths) = generate::any_explained(&mut random);
        // The function takes any numbers and writes to no memory.
        let told = unsafe { ffi::lampcygnet_explain(word, millionths) };
        let expected = model::explain(word, millionths).map_or_else(|refusal| (refusal, 0), |reason| (0, reason));
        assert_eq!((told.refusal, told.reason), expected, "explain {word:08X} {millionths}");
    }
}

/// Reassembly from any numbers as what is held.
#[test]
fn parts_from_any_state() {
    let mut random = Random::from_environment("parts from any state", 24);
    for _ in 0..500_000 {
        let held = ffi::Partial {
            parts: byte(&mut random),
            source: byte(&mut random),
            bits: random.draw(),
        };
        let word = generate::part_words(&mut random, 1)[0];
        let contents = |parts: u8, bits: u64| (0..parts).map(|k| (bits >> (16 * k)) as u16).collect();
        let state = |held: ffi::Partial| {
            let known = (1..=3).contains(&held.parts);
            known.then(|| Partial {
                source: held.source,
                contents: contents(held.parts, held.bits),
            })
        };
        // The function takes any numbers and writes to no memory.
        let step = unsafe { ffi::lampcygnet_reassemble(held, word) };
        let answer = match (step.refusal, step.complete) {
            (0, 0) => Answer::Taken(step.next.parts.into()),
            (0, _) => Answer::Whole(step.bits, step.parity_good == 1),
            (refusal, _) => Answer::Refused(refusal),
        };
        assert_eq!(
            (state(step.next), answer),
            reassembly::step(state(held), word),
            "{held:?} {word:08X}"
        );
        if step.complete == 0 {
            assert_eq!((step.parity_good, step.bits), (0, 0));
        }
    }
}

// ---- sheets

/// The sheet with other bytes around it: what is read outside would show.
struct Surrounded {
    bytes: Vec<u8>,
    length: usize,
}

const MARGIN: usize = 32;

impl Surrounded {
    fn new(sheet: &[u8], around: &[u8]) -> Surrounded {
        let margin: Vec<u8> = around.iter().copied().cycle().take(MARGIN).collect();
        Surrounded {
            bytes: [&margin, sheet, &margin].concat(),
            length: sheet.len(),
        }
    }

    fn sheet(&self) -> &[u8] {
        &self.bytes[MARGIN..MARGIN + self.length]
    }

    fn step(&self, walk: ffi::Walk) -> ffi::Walked {
        let sheet = self.sheet();
        // Pointer and length are those of a slice, which is only read.
        unsafe { ffi::lampcygnet_next_field(sheet.as_ptr(), sheet.len(), walk) }
    }
}

fn any_walk(random: &mut Random, length: usize) -> ffi::Walk {
    ffi::Walk {
        refusal: match random.below(8) {
            0 => random.draw() as u8,
            1 => random.below(17) as u8,
            _ => 0,
        },
        place: size(random, length),
        end1: size(random, length),
        end2: size(random, length),
        end3: size(random, length),
    }
}

const NO_FIELD: ffi::Field = ffi::Field {
    refusal: 0,
    tag: 0,
    depth: 0,
    place: 0,
    length: 0,
};

/// A step that gives no field: the walk's own refusal, that of bytes which are no field, or the end.
fn stops(walk: ffi::Walk, step: ffi::Walked) {
    let (refusal, place) = (step.field.refusal, step.field.place);
    match walk.refusal {
        9..=12 | 15 => assert_eq!((refusal, place), (walk.refusal, walk.place)),
        _ if refusal == 0 => assert_eq!(place, 0),
        _ => assert!((9..=12).contains(&refusal) && place == walk.place, "{step:?}"),
    }
    let field = ffi::Field {
        refusal,
        place,
        ..NO_FIELD
    };
    assert_eq!((step.field, step.next.place), (field, walk.place));
}

/// From any numbers each field lies in the sheet, the walk goes forward and stops, and then gives the same again.
fn walk_on(sheets: &[Surrounded; 2], mut walk: ffi::Walk) {
    let length = sheets[0].length;
    for _ in 0..=length / 3 {
        let step = sheets[0].step(walk);
        assert_eq!(step, sheets[1].step(walk), "bytes outside the sheet count");
        let field = step.field;
        if field.tag == 0 {
            stops(walk, step);
            assert_eq!(sheets[0].step(step.next), step, "the same again");
            return;
        }
        assert!([WORD, FIGURE, NOTE, GROUP].contains(&field.tag) && field.refusal == 0);
        assert!((1..=4).contains(&field.depth));
        assert!(field.place <= length && field.length <= length && field.place + 3 + field.length <= length);
        assert!(field.place == walk.place && walk.place < step.next.place && step.next.place <= length);
        walk = step.next;
    }
    panic!("more fields than a sheet of {length} bytes has");
}

#[test]
fn walks_from_any_state() {
    let mut random = Random::from_environment("walks from any state", 25);
    for _ in 0..20_000 {
        let mut sheet = generate::any_sheet(&mut random);
        sheet.truncate(600);
        let around: [&[u8]; 2] = [&[0x20, 0x00, 0x00], &[0xFF]];
        let sheets = around.map(|around| Surrounded::new(&sheet, around));
        for _ in 0..8 {
            let walk = any_walk(&mut random, sheet.len());
            walk_on(&sheets, walk);
        }
    }
}

/// A walk over one sheet goes on over another: stepped from wherever it stood.
#[test]
fn walks_on_over_another_sheet() {
    let mut random = Random::from_environment("walks over another sheet", 26);
    for _ in 0..20_000 {
        let [first, second] = [0; 2].map(|_| {
            let length = random.below(200) as usize;
            generate::legal_sheet(&mut random, length)
        });
        // Pointer and length are those of a slice, which is only read.
        let mut walk = unsafe { ffi::lampcygnet_walk_from_start(first.as_ptr(), first.len()) };
        let [one, other] = [&[0x11u8][..], &[0x00]].map(|around| Surrounded::new(&second, around));
        let sheets = [one, other];
        for _ in 0..random.below(6) {
            walk = Surrounded::new(&first, &[0]).step(walk).next;
            walk_on(&sheets, walk);
        }
    }
}

/// The refusal of a sheet is told by its check, its walk and its notes, in every field that the header names.
#[test]
fn refused_sheets() {
    let mut random = Random::from_environment("refused sheets", 27);
    let mut seen = 0;
    while seen < 20_000 {
        let bytes = generate::any_sheet(&mut random);
        let Err((refusal, offset)) = sheet::check(&bytes) else {
            continue;
        };
        seen += 1;
        let (pointer, length) = (bytes.as_ptr(), bytes.len());
        let place = size(&mut random, length);
        // Pointer and length are those of a slice, which is only read.
        let (checked, walk, note) = unsafe {
            (
                ffi::lampcygnet_check_sheet(pointer, length),
                ffi::lampcygnet_walk_from_start(pointer, length),
                ffi::lampcygnet_find_note(pointer, length, place),
            )
        };
        assert_eq!((checked.refusal, checked.offset), (refusal, offset));
        assert_eq!((note.refusal, note.start, note.length), (refusal, offset, 0));
        assert_eq!(
            walk,
            ffi::Walk {
                refusal,
                place: offset,
                end1: 0,
                end2: 0,
                end3: 0
            }
        );
        let step = Surrounded::new(&bytes, &[0]).step(walk);
        let field = ffi::Field {
            refusal,
            place: offset,
            ..NO_FIELD
        };
        assert_eq!(step, ffi::Walked { field, next: walk });
    }
}

fn summarize(sheet: &[u8], label: u32, source: u32) -> ffi::Summary {
    // Pointer and length are those of a slice, which is only read.
    unsafe { ffi::lampcygnet_summarize(sheet.as_ptr(), sheet.len(), label, source) }
}

/// The model's answer as C has it: what is not there is 0.
fn summary_numbers(answer: Result<model::Summary, model::summary::Refusal>) -> ffi::Summary {
    let count = |count: Option<i64>| count.unwrap_or(0).try_into().unwrap();
    match answer {
        Ok(summary) => ffi::Summary {
            refusal: 0,
            offset: 0,
            ready: summary.ready as u64,
            test: summary.test as u64,
            nodata: summary.nodata as u64,
            failure: summary.failure as u64,
            refused: summary.refused as u64,
            other: summary.other as u64,
            words: summary.words as u64,
            least: count(summary.least),
            greatest: count(summary.greatest),
            sum: summary.sum,
        },
        Err((refusal, offset)) => ffi::Summary {
            refusal,
            offset: offset.unwrap_or(0),
            ..ffi::Summary::default()
        },
    }
}

/// Labels and sources above a byte too; beside a refusal every other number is 0 but for the sheet's offset. What stands around the
/// sheet does not count.
#[test]
fn summaries_of_any_numbers() {
    let mut random = Random::from_environment("summaries of numbers", 32);
    for _ in 0..40_000 {
        let (sheet, label, source) = generate::any_summarized(&mut random);
        let wide = |random: &mut Random, number: u8| {
            let more = random.draw() as u32 >> random.below(24) << 8;
            u32::from(number) | if random.once_in(8) { more } else { 0 }
        };
        let (wide_label, wide_source) = (wide(&mut random, label), wide(&mut random, source));
        let model = match (u8::try_from(wide_label), u8::try_from(wide_source)) {
            (Err(_), _) => Err((2, None)),
            (Ok(label), Err(_)) => model::summarize(&sheet, label, 4),
            (Ok(label), Ok(source)) => model::summarize(&sheet, label, source),
        };
        let expected = summary_numbers(model);
        for around in [&[0x10u8, 0, 4, 0x64, 0, 0, 0xDE][..], &[0xFF]] {
            let surrounded = Surrounded::new(&sheet, around);
            let theirs = summarize(surrounded.sheet(), wide_label, wide_source);
            assert_eq!(theirs, expected, "{wide_label:o} {wide_source}");
        }
    }
}

/// The example flight, worked out by hand: of source 1 two ready course words, with the counts 126 and 128, and one under failure, a
/// ready glide word and one with no data; of source 2 a ready word of each MLS deviation; and 15 other words, two of them refused.
#[test]
fn summary_of_the_example() {
    let path = PathBuf::from(env!("CARGO_MANIFEST_DIR")).join("../../examples/flight.sheet");
    let flight = fs::read(path).unwrap();
    let all = ffi::Summary {
        refused: 2,
        words: 22,
        ..ffi::Summary::default()
    };
    let course = ffi::Summary {
        ready: 2,
        failure: 1,
        other: 17,
        least: 126,
        greatest: 128,
        sum: 254,
        ..all
    };
    assert_eq!(summarize(&flight, 0o173, 1), course);
    let glide = ffi::Summary {
        ready: 1,
        nodata: 1,
        other: 18,
        least: -108,
        greatest: -108,
        sum: -108,
        ..all
    };
    assert_eq!(summarize(&flight, 0o174, 1), glide);
    let one = |count: i16| ffi::Summary {
        ready: 1,
        other: 19,
        least: count,
        greatest: count,
        sum: count.into(),
        ..all
    };
    assert_eq!(summarize(&flight, 0o151, 2), one(171)); // 12.524414 mV
    assert_eq!(summarize(&flight, 0o152, 2), one(-112)); // -8.203125 mV
    let none = ffi::Summary { other: 20, ..all };
    for (label, source) in [(0o173, 0), (0o173, 2), (0o174, 3), (0o151, 1), (0o152, 0)] {
        assert_eq!(summarize(&flight, label, source), none);
    }
    let text = "173 source 1: ready 2 test 0 nodata 0 failure 1\n\
                least 126 0.012305 greatest 128 0.012500\n\
                sum 254 mean 254/2\n\
                words 22 refused 2 other 17\n";
    let summary = lampcygnet::sheet::summarize(&flight, 0o173, 1).unwrap();
    assert_eq!(summary.to_string(), text);
}

/// Words at every depth count, figures and notes do not; and the ends of the counts.
#[test]
fn summary_of_groups() {
    let course = |status, count| {
        let body = Body::IlsCourse {
            status,
            inhibit: true,
            count,
        };
        sheet::field_bytes(&Content::Word(model::encode(&Record { source: 3, body }).unwrap()))
    };
    let group = |inside: &[Vec<u8>]| sheet::field_bytes(&Content::Group(&inside.concat()));
    let [failure, nodata, test, ready] = [0, 1, 2, 3];
    let deepest = group(&[course(ready, -4096), course(test, 1)]);
    let deeper = group(&[deepest, course(ready, 4095), group(&[])]);
    let deep = group(&[course(nodata, 2), deeper, course(ready, -4096)]);
    let word_in_a_note = sheet::field_bytes(&Content::Note(&course(ready, 4)));
    let figure = sheet::field_bytes(&Content::Figure(0o173, 4));
    let bytes = [word_in_a_note, deep, figure, course(failure, 3), course(ready, 0)].concat();
    let expected = ffi::Summary {
        ready: 4,
        test: 1,
        nodata: 1,
        failure: 1,
        words: 7,
        least: -4096,
        greatest: 4095,
        sum: -4097,
        ..ffi::Summary::default()
    };
    assert_eq!(summarize(&bytes, 0o173, 3), expected);
    let other = ffi::Summary {
        other: 7,
        words: 7,
        ..ffi::Summary::default()
    };
    for (label, source) in [(0o173, 0), (0o173, 2), (0o174, 3), (0o151, 3), (0o152, 3)] {
        assert_eq!(summarize(&bytes, label, source), other);
    }
}

/// 2 is told before 4, and 4 before the sheet's own refusal, which has its offset.
#[test]
fn summaries_refused_in_order() {
    let told = |sheet: &[u8], label, source, refusal, offset| {
        let expected = ffi::Summary {
            refusal,
            offset,
            ..ffi::Summary::default()
        };
        assert_eq!(summarize(sheet, label, source), expected, "{label:o} {source}");
    };
    let cut = [0x10, 0, 4, 0x64, 0, 0, 0xDE, 0x12, 0, 1];
    for (sheet, refusal, offset) in [(&cut[..], 9, 7), (&cut[..7], 0, 0), (&[0; 32_769], 15, 0)] {
        for label in [0, 0o222, 0o34, 0o153, 0o172, 0o175, 0o150, 0o140, 256 + 0o173, u32::MAX] {
            told(sheet, label, 4, 2, 0);
            told(sheet, label, 0, 2, 0);
        }
        for label in [0o173, 0o174, 0o151, 0o152] {
            for source in [4, 5, 255, 256, 257, u32::MAX] {
                told(sheet, label, source, 4, 0);
            }
            if refusal != 0 {
                told(sheet, label, 3, refusal, offset);
            }
        }
    }
}

/// No bytes at a null pointer are the empty sheet, content, text and run; a buffer of none has no room.
#[test]
fn no_bytes_at_null() {
    let (bytes, out) = (ptr::null::<u8>(), ptr::null_mut::<u8>());
    // Each length beside a null pointer is 0.
    unsafe {
        assert_eq!(ffi::lampcygnet_check_sheet(bytes, 0).refusal, 0);
        let walk = ffi::lampcygnet_walk_from_start(bytes, 0);
        assert_eq!(
            ffi::lampcygnet_next_field(bytes, 0, walk),
            ffi::Walked {
                field: NO_FIELD,
                next: walk
            }
        );
        assert_eq!(ffi::lampcygnet_find_note(bytes, 0, 0).refusal, 10);
        assert_eq!(ffi::lampcygnet_summarize(bytes, 0, 0o173, 0), ffi::Summary::default());
        assert_eq!(ffi::lampcygnet_word_in(bytes, 0).refusal, 11);
        assert_eq!(ffi::lampcygnet_figure_in(bytes, 0).refusal, 11);
        assert_eq!(ffi::lampcygnet_write_word(out, 0, 0, 0).refusal, 13);
        assert_eq!(ffi::lampcygnet_list_sheet(bytes, 0, out, 0).refusal, 13);
        let mut buffer = [0; 6];
        let (start, room) = (buffer.as_mut_ptr(), buffer.len());
        assert_eq!(ffi::lampcygnet_write_note(start, room, 0, bytes, 0).offset, 3);
        assert_eq!(ffi::lampcygnet_write_group(start, room, 3, bytes, 0).offset, 6);
        assert_eq!(buffer, [0x12, 0, 0, 0x20, 0, 0]);
    }
}

/// A content of any length holds a word at 4 bytes and a figure at 9, else nothing, refused 11.
#[test]
fn contents_of_any_length() {
    let mut random = Random::from_environment("contents", 28);
    for _ in 0..200_000 {
        let length = random.below(14) as usize;
        let bytes = random.bytes(length);
        // Pointer and length are those of a slice, which is only read.
        let (word, figure) = unsafe {
            (
                ffi::lampcygnet_word_in(bytes.as_ptr(), length),
                ffi::lampcygnet_figure_in(bytes.as_ptr(), length),
            )
        };
        let four = <[u8; 4]>::try_from(&bytes[..]).map_or((11, 0), |four| (0, u32::from_be_bytes(four)));
        assert_eq!((word.refusal, word.word), four);
        let nine = <[u8; 9]>::try_from(&bytes[..]).map_or((11, 0, 0), |nine| {
            (
                0,
                nine[0],
                nine[1..]
                    .iter()
                    .fold(0, |number: i64, &byte| number << 8 | i64::from(byte)),
            )
        });
        assert_eq!((figure.refusal, figure.label, figure.millionths), nine);
    }
}

/// The kinds that the header numbers from 1 stand in the order of the table.
#[test]
fn kinds_in_the_order_of_the_table() {
    let mut random = Random::from_environment("kinds", 29);
    for (index, (label, _)) in LABELS.iter().enumerate() {
        let word = model::encode(&generate::legal_record_of(&mut random, *label)).unwrap();
        // The function takes any numbers and writes to no memory.
        let record = unsafe { ffi::lampcygnet_decode(word) };
        assert_eq!((record.refusal, usize::from(record.kind)), (0, index + 1));
    }
}
