//! Words of the GOST 18977 / ARINC 429 bus from VOR, ILS and MLS receivers: a word to its record and its reading, a page of
//! words to their refusals and counts, a record to its word, a printed figure to its word, and the MLS auxiliary data put
//! together from their parts. The archive's sheets of words, figures and notes are in [`sheet`].
//!
//! The work is done by a static library in which every function is proved to meet its contract for every input; this crate
//! gives its numbers Rust's types. Build the library first: `make library` at the root of the repository.
//!
//! ```
//! use lampcygnet::{agrees, decode, explain, Refusal};
//!
//! let record = decode(0x640000DE)?;
//! assert_eq!(record.to_string(), "173 0 ready 0.100000");
//! assert!(!agrees(0x640000DE, 1_000_000)); // the figure beside it says 1.0
//! assert_eq!(explain(0x640000DE, 1_000_000)?.to_string(), "a tenth agrees");
//! # Ok::<(), Refusal>(())
//! ```

mod explain;
mod ffi;
mod figure;
mod group;
mod page;
mod reading;
mod record;
mod refusal;
pub mod sheet;

pub use explain::{explain, Reason};
pub use figure::{agrees, code_figure, print_count};
pub use group::{Group, Reassembler};
pub use page::{decode_page, decode_to_vecs};
pub use reading::{chart_point, reading, ChartPoint, Reading, Shown};
pub use record::{decode, Body, Category, Marker, Record, Status};
pub use refusal::Refusal;
