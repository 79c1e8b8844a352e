//! A program beside the model's `explain_text`, for tests/programs: `explain_compare PROGRAM [ROUNDS]` runs it on many inputs, each
//! given in pieces through a pipe, and tells the first whose answers differ.

use model::compare::{self, Subject};
use model::generate::{self, Random};
use std::io::{Read, Write};
use std::process::{Command, ExitCode, Stdio};
use std::thread;

struct Program(String);

impl Subject for Program {
    /// What the program writes to both its outputs: nothing may be said on standard error.
    fn explain_text(&self, input: &[u8]) -> Vec<u8> {
        let mut command = Command::new(&self.0);
        command.stdin(Stdio::piped()).stdout(Stdio::piped()).stderr(Stdio::piped());
        let mut program = command.spawn().unwrap_or_else(|error| panic!("{}: {error}", self.0));
        let (mut stdin, mut stderr) = (program.stdin.take().unwrap(), program.stderr.take().unwrap());
        let (mut text, mut said) = (Vec::new(), Vec::new());
        thread::scope(|scope| {
            scope.spawn(move || {
                let mut random = Random::new(input.len() as u64);
                let mut rest = input;
                while !rest.is_empty() {
                    let size = 1 + random.below(rest.len() as u64) as usize;
                    // A program that ends before its input does is seen by its answers.
                    if stdin.write_all(&rest[..size]).is_err() {
                        return;
                    }
                    rest = &rest[size..];
                }
            });
            scope.spawn(|| stderr.read_to_end(&mut said).unwrap());
            program.stdout.take().unwrap().read_to_end(&mut text).unwrap();
        });
        program.wait().unwrap();
        text.extend(said);
        text
    }
}

/// Inputs of no line, of a few, of many, and one that is far longer than any buffer.
fn run(program: &Program, random: &mut Random, rounds: u64) -> compare::Outcome {
    compare::explained_text(program, b"")?;
    for round in 0..rounds {
        let size = match round % 16 {
            0 => random.below(20_000),
            1 => random.below(140_000),
            _ => random.below(400),
        };
        compare::explained_text(program, &generate::typed_text(random, size as usize))?;
    }
    compare::explained_text(program, &generate::typed_text(random, 1 << 20))
}

fn main() -> ExitCode {
    let mut arguments = std::env::args().skip(1);
    let program = Program(arguments.next().expect("a program"));
    let rounds = arguments.next().map_or(500, |text| text.parse().expect("a number of rounds"));
    match run(&program, &mut Random::from_environment("typed texts", 30), rounds) {
        Ok(()) => ExitCode::SUCCESS,
        Err(difference) => {
            println!("{difference}");
            ExitCode::FAILURE
        }
    }
}
