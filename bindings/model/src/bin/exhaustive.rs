//! All 2^32 words: how many get each answer, against the known table, and the subject against the model on each.
//! `exhaustive [THREADS]`, 2 threads unless said.

use model::compare::{self, Model, Subject};
use model::word::{self, LABELS};
use std::process::ExitCode;
use std::thread;

/// Words accepted (place 0) and refused by number.
const ANSWERS: [u64; 8] = [10_944_864, 2_147_483_648, 2_021_654_528, 107_438_080, 4_660_448, 2_377_728, 403_904, 4_096];

/// Accepted words by label, in the order of the table.
const ACCEPTED: [u64; 15] = [
    524_288, 33_280, 262_144, 262_144, 129_280, 2_400, 4_194_304, 4_194_304, 11_520, 4_096, 16_384, 262_144, 262_144,
    262_144, 524_288,
];

/// What is compared with the model. This is the one line to change when other code is to be tested on every word.
fn subject() -> Option<&'static dyn Subject> {
    let model_alone: Option<&'static Model> = None;
    model_alone.map(|subject| subject as &dyn Subject)
}

#[derive(Default)]
struct Totals {
    answers: [u64; 8],
    accepted: [u64; 15],
}

/// The totals of the words from `first` up to but not including `end`.
fn totals(first: u64, end: u64, subject: Option<&dyn Subject>) -> Result<Totals, String> {
    let mut totals = Totals::default();
    for number in first..end {
        let word = number as u32;
        if let Some(subject) = subject {
            compare::word(subject, word)?;
        }
        match word::decode(word) {
            Err(refusal) => totals.answers[usize::from(refusal)] += 1,
            Ok(record) => {
                totals.answers[0] += 1;
                let label = word::label_of(word);
                totals.accepted[LABELS.iter().position(|row| row.0 == label).unwrap()] += 1;
                if word::encode(&record) != Ok(word) {
                    return Err(format!("{word:08X} is not given back by its record"));
                }
            }
        }
    }
    Ok(totals)
}

fn run(threads: u64) -> Result<Totals, String> {
    let bounds: Vec<u64> = (0..=threads).map(|k| (1 << 32) * k / threads).collect();
    let parts: Vec<Result<Totals, String>> = thread::scope(|scope| {
        let runs: Vec<_> = bounds
            .windows(2)
            .map(|pair| (pair[0], pair[1]))
            .map(|(first, end)| scope.spawn(move || totals(first, end, subject())))
            .collect();
        runs.into_iter().map(|run| run.join().expect("no panic")).collect()
    });
    let mut sum = Totals::default();
    for part in parts {
        let part = part?;
        sum.answers.iter_mut().zip(part.answers).for_each(|(total, more)| *total += more);
        sum.accepted.iter_mut().zip(part.accepted).for_each(|(total, more)| *total += more);
    }
    Ok(sum)
}

fn main() -> ExitCode {
    let threads = std::env::args().nth(1).and_then(|text| text.parse().ok()).unwrap_or(2).max(1);
    let sum = match run(threads) {
        Ok(sum) => sum,
        Err(difference) => {
            println!("{difference}");
            return ExitCode::FAILURE;
        }
    };
    println!("accepted {}", sum.answers[0]);
    for (number, total) in sum.answers.iter().enumerate().skip(1) {
        println!("refused {number} {total}");
    }
    for (row, total) in LABELS.iter().zip(sum.accepted) {
        println!("label {:03o} {total}", row.0);
    }
    if sum.answers == ANSWERS && sum.accepted == ACCEPTED {
        println!("all words as in the table");
        ExitCode::SUCCESS
    } else {
        println!("NOT as in the table");
        ExitCode::FAILURE
    }
}
