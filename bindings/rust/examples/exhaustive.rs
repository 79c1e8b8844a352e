//! All 2^32 words through the library and the model: both must answer the same, and so must the library's pages of these
//! words. Prints how many get each answer, and how many are accepted of each label.

#[path = "../tests/library/mod.rs"]
mod library;

use library::{page_beside_singles, single_answer, Library};
use model::compare;
use model::word::{self, LABELS};
use std::process::ExitCode;
use std::thread;

/// How many words are accepted (place 0) and refused by number, and how many are accepted of each label.
#[derive(Default)]
struct Totals {
    answers: [u64; 8],
    accepted: [u64; 15],
}

impl Totals {
    /// Counts a word, and gives its answer.
    fn add(&mut self, word: u32) -> (u8, i16) {
        let (refusal, count) = single_answer(word);
        self.answers[usize::from(refusal)] += 1;
        if refusal == 0 {
            let label = word::label_of(word);
            self.accepted[LABELS.iter().position(|row| row.0 == label).unwrap()] += 1;
        }
        (refusal, count)
    }
}

/// How many words a page has.
const PAGE: u64 = 4096;

fn totals(first: u64, end: u64) -> Result<Totals, String> {
    let mut totals = Totals::default();
    for start in (first..end).step_by(PAGE as usize) {
        let numbers = start..end.min(start + PAGE);
        let words: Vec<u32> = numbers.map(|number| number as u32).collect();
        let answers = words
            .iter()
            .map(|&word| compare::word(&Library, word).map(|()| totals.add(word)));
        page_beside_singles(&words, answers.collect::<Result<_, String>>()?)?;
    }
    Ok(totals)
}

fn main() -> ExitCode {
    let threads = thread::available_parallelism().map_or(1, usize::from) as u64;
    let parts: Vec<Result<Totals, String>> = thread::scope(|scope| {
        let runs: Vec<_> = (0..threads)
            .map(|k| scope.spawn(move || totals((k << 32) / threads, ((k + 1) << 32) / threads)))
            .collect();
        runs.into_iter().map(|run| run.join().unwrap()).collect()
    });
    let mut whole = Totals::default();
    for part in parts {
        match part {
            Ok(part) => {
                whole
                    .answers
                    .iter_mut()
                    .zip(part.answers)
                    .for_each(|(sum, n)| *sum += n);
                whole
                    .accepted
                    .iter_mut()
                    .zip(part.accepted)
                    .for_each(|(sum, n)| *sum += n);
            }
            Err(difference) => {
                println!("{difference}");
                return ExitCode::FAILURE;
            }
        }
    }
    println!("accepted {}", whole.answers[0]);
    for (number, count) in whole.answers.iter().enumerate().skip(1) {
        println!("refused {number}: {count}");
    }
    for ((label, _), count) in LABELS.iter().zip(whole.accepted) {
        println!("accepted of {label:03o}: {count}");
    }
    ExitCode::SUCCESS
}
