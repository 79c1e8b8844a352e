//! The model over the test vectors, which stand beside the programs that run them.

use model::reassembly;
use model::word;
use model::Answer;
use std::fs;
use std::path::PathBuf;

fn data(name: &str) -> PathBuf {
    PathBuf::from(env!("CARGO_MANIFEST_DIR")).join("../../crates").join(name)
}

fn lines(name: &str, least: usize) -> Vec<Vec<String>> {
    let text = fs::read_to_string(data(name)).unwrap();
    let lines: Vec<Vec<String>> =
        text.lines().map(|line| line.split_whitespace().map(str::to_string).collect()).collect();
    assert!(lines.len() >= least, "{name} has {} lines", lines.len());
    lines
}

fn hex(text: &str) -> u32 {
    u32::from_str_radix(text, 16).unwrap()
}

#[test]
fn words() {
    let words = lines("test_words/data/words.txt", 900);
    for line in words.into_iter().chain(lines("test_words/data/raster.txt", 900)) {
        let word = hex(&line[0]);
        let (refusal, count) = match model::decode(word) {
            Ok(record) => (0, word::count_of(&record).unwrap_or(0)),
            Err(number) => (number, 0),
        };
        assert_eq!([refusal.to_string(), count.to_string()], line[1..], "{}", line[0]);
    }
}

/// Each file as one page, its words at the start of longer lists.
#[test]
fn pages() {
    for name in ["test_words/data/words.txt", "test_words/data/raster.txt"] {
        let lines = lines(name, 900);
        let words: Vec<u32> = lines.iter().map(|line| hex(&line[0])).collect();
        let page = model::decode_page(&words, &vec![99; words.len() + 3], &vec![-99; words.len() + 5]);
        assert_eq!(page.answer, Ok(()));
        for (index, line) in lines.iter().enumerate() {
            let answer = [page.refusals[index].to_string(), page.counts[index].to_string()];
            assert_eq!(answer, line[1..], "{}", line[0]);
        }
        assert_eq!((&page.refusals[words.len()..], &page.counts[words.len()..]), (&[99; 3][..], &[-99; 5][..]));
    }
}

#[test]
fn figures() {
    let figures = lines("test_figures/data/figures.txt", 1100);
    for line in figures.into_iter().chain(lines("test_figures/data/mls.txt", 182)) {
        let label = u8::from_str_radix(&line[0], 8).unwrap();
        let answer = match model::code(label, line[1].parse().unwrap(), line[2].parse().unwrap()) {
            Ok(word) => format!("{word:08X}"),
            Err(number) => format!("refused {number}"),
        };
        assert_eq!(answer, line[3..].join(" "), "{line:?}");
    }
}

#[test]
fn explanations() {
    const NAMES: [&str; 9] =
        ["agrees", "tenth", "hundredth", "thousandth", "ten", "hundred", "thousand", "sign", "none"];
    let mut told = [0; 9];
    for line in lines("test_explain/data/explain.txt", 800) {
        let answer = match model::explain(hex(&line[0]), line[1].parse().unwrap()) {
            Ok(reason) => {
                told[usize::from(reason) - 1] += 1;
                NAMES[usize::from(reason) - 1].to_string()
            }
            Err(number) => format!("refused {number}"),
        };
        assert_eq!(answer, line[2..].join(" "), "{line:?}");
    }
    assert!(told.iter().all(|&times| times > 0), "{told:?}");
}

/// The bytes of a sheet in hexadecimal digits; `-` is the empty one.
fn sheet_bytes(text: &str) -> Vec<u8> {
    let digits = text.trim_start_matches('-').as_bytes().chunks(2);
    digits.map(|pair| u8::from_str_radix(std::str::from_utf8(pair).unwrap(), 16).unwrap()).collect()
}

#[test]
fn summaries() {
    let shown = |number: Option<i64>| number.map_or("-".to_string(), |number| number.to_string());
    for line in lines("test_summary/data/summary.txt", 112) {
        let (label, source) = (u8::from_str_radix(&line[1], 8).unwrap(), line[2].parse().unwrap());
        let answer = match model::summarize(&sheet_bytes(&line[0]), label, source) {
            Ok(s) => format!(
                "ready={} test={} nodata={} failure={} refused={} others={} words={} least={} greatest={} sum={} mean={}",
                s.ready,
                s.test,
                s.nodata,
                s.failure,
                s.refused,
                s.other,
                s.words,
                shown(s.least),
                shown(s.greatest),
                s.sum,
                s.mean.map_or("-".to_string(), |(sum, number)| format!("{sum}/{number}"))
            ),
            Err((number, None)) => format!("refused {number}"),
            Err((number, Some(offset))) => format!("refused {number} {offset}"),
        };
        assert_eq!(answer, line[3..].join(" "), "{:.400} {:?}", line[0], &line[1..]);
    }
}

#[test]
fn joins() {
    let mut state = None;
    for line in lines("test_reassembly/data/joins.txt", 200) {
        let (next, answer) = reassembly::step(state, hex(&line[0]));
        let text = match answer {
            Answer::Taken(number) => format!("begun C {number}"),
            Answer::Whole(bits, true) => format!("joined C {bits} True"),
            Answer::Whole(bits, false) => format!("joined C {bits} False"),
            Answer::Refused(number) => format!("refused {number}"),
        };
        assert_eq!(text, line[1..].join(" "), "{}", line[0]);
        state = next;
    }
}

#[test]
fn sheets() {
    let mut names: Vec<PathBuf> =
        fs::read_dir(data("test_sheets/data/sheets")).unwrap().map(|entry| entry.unwrap().path()).collect();
    names.retain(|name| name.extension().is_some_and(|extension| extension == "bin"));
    names.sort();
    assert!(names.len() >= 82, "{} sheets", names.len());
    for name in names {
        let expected = fs::read_to_string(name.with_extension("txt")).unwrap();
        assert_eq!(model::list(&fs::read(&name).unwrap()), expected, "{}", name.display());
    }
}
