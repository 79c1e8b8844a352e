//! Fast baselines for the benchmarks, idiomatic Rust and plain C behind a thin binding, and the library behind such a binding.
//!
//! `cargo run --release` times them, `cargo test` compares the baselines with the model, and `cargo test --release --
//! --ignored` compares both decoders with it on all 2^32 words, one by one and in pages.

pub mod c;
pub mod input;
pub mod library;
pub mod rust;
