//! Times the library beside plain C and Rust and prints a table: nanoseconds for a word, a figure, an explanation or a sheet's
//! byte, each the best of several runs in which all take turns, and the library's time divided by C's. Words are timed singly
//! and in pages.

use bench::{c, input, library, rust};
use lampcygnet::sheet::{self, Sheet};
use std::hint::black_box;
use std::time::Instant;

/// How often each is timed, and over how many words, figures, explanations or bytes each time.
const RUNS: usize = 15;
const ITEMS: usize = 1_000_000;

/// The lengths of runs and of pages that are timed.
const LENGTHS: [usize; 4] = [1_000, 10_000, 100_000, 1_000_000];

/// The label and source for which a sheet is summed up.
const CHOICE: (u8, u8) = (0o173, 1);

type Figure = (u8, u8, i64);
type Explained = (u32, i64);

/// Who is timed. Each function gives a number made of its answers.
struct Contestant {
    name: &'static str,
    decode: fn(&[u32]) -> u64,
    code: fn(&[Figure]) -> u64,
    explain: fn(&[Explained]) -> u64,
    check: fn(&[u8]) -> u64,
    list: fn(&[u8], &mut Texts) -> u64,
    summarize: fn(&[u8]) -> u64,
}

/// Where a listing is written: a buffer that takes any, or a vector that grows.
struct Texts {
    fixed: Vec<u8>,
    grown: Vec<u8>,
}

const CONTESTANTS: [Contestant; 4] = [
    Contestant {
        name: "library",
        decode: |words| decode_all(words, |word| library::decode(word).map(|record| record.source)),
        code: |figures| code_all(figures, library::code),
        explain: |explained| explain_all(explained, library::explain),
        check: |sheet| checked(library::check(sheet)),
        list: |sheet, texts| listed(library::list(sheet, &mut texts.fixed)),
        summarize: |sheet| {
            summed_up(library::summarize(sheet, CHOICE.0, CHOICE.1), |s| {
                let numbers = [s.ready, s.test, s.nodata, s.failure, s.refused, s.other, s.words];
                (numbers, i64::from(s.least), i64::from(s.greatest), s.sum)
            })
        },
    },
    Contestant {
        name: "C",
        decode: |words| decode_all(words, |word| c::decode(word).map(|record| record.source)),
        code: |figures| code_all(figures, c::code),
        explain: |explained| explain_all(explained, c::explain),
        check: |sheet| checked(c::check(sheet)),
        list: |sheet, texts| listed(c::list(sheet, &mut texts.fixed)),
        summarize: |sheet| {
            summed_up(c::summarize(sheet, CHOICE.0, CHOICE.1), |s| {
                let [failure, nodata, test, ready] = s.by_status;
                let numbers = [ready, test, nodata, failure, s.refused, s.other, s.words].map(u64::from);
                (numbers, i64::from(s.least), i64::from(s.greatest), s.sum)
            })
        },
    },
    Contestant {
        name: "Rust",
        decode: |words| {
            // An opaque call for each word, as the others have.
            let decode = black_box(rust::decode as fn(u32) -> Result<rust::Record, u8>);
            decode_all(words, |word| decode(word).map(|record| record.source))
        },
        code: |figures| code_all(figures, black_box(rust::code as fn(u8, u8, i64) -> Result<u32, u8>)),
        explain: |explained| explain_all(explained, black_box(rust::explain as fn(u32, i64) -> Result<u8, u8>)),
        check: |sheet| checked(rust::check(sheet)),
        list: |sheet, texts| {
            texts.grown.clear();
            rust::list(sheet, &mut texts.grown);
            texts.grown.len() as u64
        },
        summarize: |sheet| {
            summed_up(rust::summarize(sheet, CHOICE.0, CHOICE.1), |s| {
                let numbers = [s.ready, s.test, s.nodata, s.failure, s.refused, s.other, s.words].map(u64::from);
                let (least, greatest) = s.range.unwrap_or_default();
                (numbers, i64::from(least), i64::from(greatest), s.sum)
            })
        },
    },
    Contestant {
        name: "crate",
        decode: |words| {
            decode_all(words, |word| match lampcygnet::decode(word) {
                Ok(record) => Ok(record.source),
                Err(refusal) => Err(refusal.number()),
            })
        },
        code: |figures| {
            code_all(figures, |label, source, millionths| {
                lampcygnet::code_figure(label, source, millionths).map_err(|refusal| refusal.number())
            })
        },
        explain: |explained| {
            explain_all(explained, |word, millionths| match lampcygnet::explain(word, millionths) {
                Ok(reason) => Ok(reason.number()),
                Err(refusal) => Err(refusal.number()),
            })
        },
        check: |sheet| checked(Sheet::new(sheet).map(|_| ()).map_err(|r| (r.refusal.number(), r.offset))),
        list: |sheet, texts| listed(sheet::list_into(sheet, &mut texts.fixed).map_err(|refusal| refusal.number())),
        summarize: |sheet| {
            let summary = sheet::summarize(sheet, CHOICE.0, CHOICE.1);
            summed_up(summary.map_err(|r| (r.refusal.number(), r.offset)), |s| {
                let numbers = [s.ready, s.test, s.nodata, s.failure, s.refused, s.other, s.words];
                let (least, greatest) = s.range.map_or((0, 0), |range| range.counts());
                (numbers, i64::from(least), i64::from(greatest), s.sum)
            })
        },
    },
];

type DecodePage = fn(&[u32], &mut [u8], &mut [i16]) -> Result<(), u8>;

/// Who is timed over pages. The function fills two lists, or gives 13.
struct Pager {
    name: &'static str,
    decode_page: DecodePage,
}

const PAGERS: [Pager; 5] = [
    Pager { name: "library", decode_page: library::decode_page },
    Pager { name: "C", decode_page: c::decode_page },
    Pager { name: "Rust", decode_page: rust::decode_page },
    Pager {
        name: "crate",
        decode_page: |words, refusals, counts| {
            lampcygnet::decode_page(words, refusals, counts).map_err(|refusal| refusal.number())
        },
    },
    Pager { name: "single calls", decode_page: library::decode_singly },
];

/// The number of an answer: that of a refusal, or the source of the record.
#[inline(always)]
fn decode_all(words: &[u32], decode: impl Fn(u32) -> Result<u8, u8>) -> u64 {
    words.iter().map(|&word| decode(word).map_or_else(|refusal| 16 * u64::from(refusal), u64::from)).sum()
}

#[inline(always)]
fn code_all(figures: &[Figure], code: impl Fn(u8, u8, i64) -> Result<u32, u8>) -> u64 {
    figures.iter().map(|&(label, source, m)| code(label, source, m).map_or_else(u64::from, u64::from)).sum()
}

/// The number of an answer: that of a refusal, or of the reason.
#[inline(always)]
fn explain_all(explained: &[Explained], explain: impl Fn(u32, i64) -> Result<u8, u8>) -> u64 {
    explained.iter().map(|&(word, m)| explain(word, m).map_or_else(|refusal| 16 * u64::from(refusal), u64::from)).sum()
}

fn checked(answer: Result<(), (u8, usize)>) -> u64 {
    answer.map_or_else(|(refusal, offset)| (u64::from(refusal) << 32) + offset as u64, |()| 0)
}

fn listed(answer: Result<usize, u8>) -> u64 {
    answer.map_or_else(u64::from, |length| length as u64)
}

/// The numbers of a summary in the header's order, what is not there as 0.
type Numbers = ([u64; 7], i64, i64, i64);

#[inline(always)]
fn summed_up<T>(answer: Result<T, (u8, usize)>, numbers: impl Fn(T) -> Numbers) -> u64 {
    match answer.map(numbers) {
        Ok((numbers, least, greatest, sum)) => {
            let all = numbers.into_iter().chain([least, greatest, sum].map(|number| number as u64));
            all.fold(0, |answer: u64, number| answer.wrapping_mul(0x100_0000_01B3) ^ number)
        }
        Err((refusal, offset)) => (u64::from(refusal) << 32) + offset as u64,
    }
}

/// The least time of each who is named for one item, in nanoseconds, over inputs that have so many items together. Each input is
/// seen once in a run, so that a short one is no more foreseen than a long one.
fn least_times<const N: usize>(
    names: [&str; N],
    items: usize,
    inputs: usize,
    mut work: impl FnMut(usize, usize) -> u64,
) -> [f64; N] {
    let mut least = [f64::INFINITY; N];
    let expected: Vec<u64> = (0..inputs).map(|input| work(0, input)).collect();
    for _ in 0..RUNS {
        for (who, least) in least.iter_mut().enumerate() {
            let start = Instant::now();
            let right = (0..inputs).all(|input| black_box(work(who, input)) == expected[input]);
            let time = start.elapsed().as_secs_f64();
            assert!(right, "{} answers otherwise", names[who]);
            *least = least.min(time * 1e9 / items as f64);
        }
    }
    least
}

/// The same of the contestants.
fn times(items: usize, inputs: usize, mut work: impl FnMut(&Contestant, usize) -> u64) -> [f64; CONTESTANTS.len()] {
    let names = CONTESTANTS.map(|contestant| contestant.name);
    least_times(names, items, inputs, |who, input| work(&CONTESTANTS[who], input))
}

fn table(title: &str, names: &[&str], ratios: &[&str]) {
    println!("\n{title}\n");
    println!("| Input | {} |", [names, ratios].concat().join(" | "));
    println!("|---|{}", "---:|".repeat(names.len() + ratios.len()));
}

fn line(name: &str, times: &[f64], ratios: &[f64]) {
    let times = times.iter().map(|&time| if time < 1.0 { format!("{time:.3}") } else { format!("{time:.2}") });
    let ratios = ratios.iter().map(|ratio| format!("{ratio:.2}"));
    println!("| {name} | {} |", times.chain(ratios).collect::<Vec<String>>().join(" | "));
}

fn heading(title: &str) {
    table(title, &CONTESTANTS.map(|contestant| contestant.name), &["library / C"]);
}

fn row(name: &str, times: [f64; CONTESTANTS.len()]) {
    line(name, &times, &[times[0] / times[1]]);
}

/// Rows for calls that are made over runs of 1,000 to 1,000,000 words, figures or explanations.
fn rows_by_length<T>(name: &str, items: &[T], work: fn(&Contestant, &[T]) -> u64) {
    for length in LENGTHS {
        let runs: Vec<&[T]> = items.chunks_exact(length).collect();
        let times = times(runs.len() * length, runs.len(), |who, run| work(who, black_box(runs[run])));
        row(&format!("{length} {name}"), times);
    }
}

/// The lists of all pages of so many words, one after the other.
fn lists_of_pages(pager: &Pager, words: &[u32], length: usize) -> (Vec<u8>, Vec<i16>) {
    let (mut refusals, mut counts) = (vec![u8::MAX; words.len()], vec![i16::MAX; words.len()]);
    let lists = refusals.chunks_exact_mut(length).zip(counts.chunks_exact_mut(length));
    for (page, (refusals, counts)) in words.chunks_exact(length).zip(lists) {
        assert_eq!((pager.decode_page)(page, refusals, counts), Ok(()), "{}", pager.name);
    }
    (refusals, counts)
}

/// Rows for pages of 1,000 to 1,000,000 words. All lists are compared before they are timed; then only their last elements are.
fn rows_by_page(name: &str, words: &[u32]) {
    for length in LENGTHS {
        let lists = PAGERS.map(|pager| lists_of_pages(&pager, words, length));
        assert!(lists.iter().all(|filled| *filled == lists[0]), "the pages differ");
        let pages: Vec<&[u32]> = words.chunks_exact(length).collect();
        let (mut refusals, mut counts) = (vec![0; length], vec![0; length]);
        let names = PAGERS.map(|pager| pager.name);
        let times = least_times(names, pages.len() * length, pages.len(), |who, page| {
            let answer = (PAGERS[who].decode_page)(black_box(pages[page]), &mut refusals, &mut counts);
            black_box((&mut refusals, &mut counts));
            let last = u64::from(refusals[length - 1]) << 16 | u64::from(counts[length - 1] as u16);
            answer.map_or_else(|refusal| u64::from(refusal) << 32, |()| last)
        });
        let [library, c, .., single] = times;
        line(&format!("{length} {name}"), &times, &[library / c, single / library]);
    }
}

/// Rows for sheets of 1 to 32 KiB.
fn rows_by_size(sheets: &[Vec<Vec<u8>>], mut work: impl FnMut(&Contestant, &[u8]) -> u64) {
    for sheets in sheets {
        let size = sheets[0].len();
        let times = times(sheets.len() * size, sheets.len(), |who, sheet| work(who, black_box(&sheets[sheet])));
        row(&format!("{} KiB", size / 1024), times);
    }
}

/// How many words, refused words and figures a sheet has. All contestants list it alike.
fn described(sheet: &[u8], texts: &mut Texts) -> String {
    let listings = CONTESTANTS.map(|contestant| {
        let length = (contestant.list)(sheet, texts) as usize;
        let text = if contestant.name == "Rust" { &texts.grown } else { &texts.fixed };
        String::from_utf8_lossy(&text[..length]).into_owned()
    });
    assert!(listings.iter().all(|listing| *listing == listings[0]), "the listings differ");
    let figures = listings[0].lines().filter(|line| line.starts_with("figure")).count();
    format!("{}, figures {figures}", listings[0].lines().last().unwrap_or_default())
}

fn main() {
    let mut random = input::Random::new(2024);
    let mut texts = Texts { fixed: vec![0; library::TEXT_MAX], grown: Vec::new() };
    let any = input::any_words(&mut random, ITEMS);
    let received = input::receiver_words(&mut random, ITEMS);
    let figures = input::figures(&mut random, ITEMS);
    let sheets: Vec<Vec<Vec<u8>>> = [1, 2, 4, 8, 16, 32]
        .iter()
        .map(|kib| (0..ITEMS / 1024 / kib).map(|_| input::sheet(&mut random, &received, kib * 1024)).collect())
        .collect();
    let explained = input::explanations(&mut random, ITEMS);
    let chosen = input::deviation_words(&mut random, u32::from(CHOICE.0.reverse_bits()), u32::from(CHOICE.1), ITEMS);
    let flights: Vec<Vec<u8>> = (0..ITEMS / 1024 / 32).map(|_| input::sheet(&mut random, &chosen, 32 * 1024)).collect();

    heading("A word to its record, ns a word:");
    rows_by_length("words of any bits", &any, |who, words| (who.decode)(words));
    rows_by_length("words of a receiver", &received, |who, words| (who.decode)(words));
    table("A page of words, ns a word:", &PAGERS.map(|pager| pager.name), &["library / C", "single / library"]);
    rows_by_page("words of any bits", &any);
    rows_by_page("words of a receiver", &received);
    heading("A figure to its word, ns a figure:");
    rows_by_length("figures", &figures, |who, figures| (who.code)(figures));
    heading("Why a figure and a word disagree, ns an explanation:");
    rows_by_length("explanations", &explained, |who, explained| (who.explain)(explained));
    heading("The check of a sheet, ns a byte:");
    rows_by_size(&sheets, |who, sheet| (who.check)(sheet));
    let full = sheets.last().map(|sheets| described(&sheets[0], &mut texts)).unwrap_or_default();
    heading(&format!("The listing of a sheet, ns a byte (32 KiB have {full}):"));
    rows_by_size(&sheets, |who, sheet| (who.list)(sheet, &mut texts));
    heading(&format!("The summary of a sheet for label {:03o} and source {}, ns a byte:", CHOICE.0, CHOICE.1));
    rows_by_size(&sheets, |who, sheet| (who.summarize)(sheet));
    let size = flights.iter().map(Vec::len).sum();
    let times = times(size, flights.len(), |who, flight| (who.summarize)(black_box(&flights[flight])));
    row("32 KiB, all words of them", times);
}
