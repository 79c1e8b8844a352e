//! An independent model of document 01 and of the requests that are built: written from their sentences alone, with exact whole
//! numbers and no thought of speed. Tests compare the library with it. Each function quotes the sentence it follows.
//!
//! `cargo test` runs the vectors, the document's own lines and the model's own properties; the variable `SEED` (decimal)
//! changes the random inputs. `cargo run --release --bin exhaustive` counts the answers of all 2^32 words.
//! Other code is compared with the model through [`compare::Subject`].

pub mod compare;
pub mod explain;
pub mod fields;
pub mod figure;
pub mod generate;
pub mod labels;
pub mod listing;
pub mod page;
pub mod reading;
pub mod reassembly;
pub mod sheet;
pub mod summary;
pub mod word;

pub use explain::{explain, explain_text};
pub use fields::list_fields;
pub use figure::{agrees, code, print_millionths, print_text};
pub use listing::list;
pub use page::{decode_page, Page};
pub use reassembly::{Answer, Partial};
pub use sheet::{check, note, write, Content, Field};
pub use summary::{summarize, summary_text, Summary};
pub use word::{decode, encode, Body, Record};
