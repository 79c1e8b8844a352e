//! The labels by the model, with `--all` those of all bytes, for tests/programs.

fn main() {
    let all = std::env::args().nth(1).is_some_and(|argument| argument == "--all");
    print!("{}", if all { model::labels::byte_table() } else { model::labels::label_table() });
}
