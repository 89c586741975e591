//! An independent second reading of the clock rules: document 01, sentence by sentence, requests 1 to 5 and 7 of document 02,
//! and the operator's command with its two calls over an older and a newer table, in plain Rust.
//!
//! Words in quotation marks in the comments are document 01's or a request's. Every public call checks the tables it uses.

// Ranges are written as document 01 writes them.
#![allow(clippy::manual_range_contains)]

mod double;
mod kernel;
mod layout;
mod message;
mod partitions;
mod print;
mod program;
mod raw;
mod refusal;
mod segments;
mod stamp;
mod succession;
mod text;
mod time;

pub mod command;
pub mod generate;
pub mod host;
pub mod packet;
pub mod quotient;
pub mod random;
pub mod script;
pub mod tally;

pub use double::{back, forward, DoubleSegment};
pub use kernel::{read_kernel, Kernel};
pub use layout::Layout;
pub use message::read_message;
pub use partitions::Partitions;
pub use print::{print_count, print_stamp};
pub use program::{stamp_program, table_a};
pub use raw::{microseconds, RawCounter};
pub use refusal::Refusal;
pub use segments::{steps_back, Segments};
pub use stamp::read_stamp;
pub use succession::{horizon, succeeds, Hypothesis, RefusedTable, Succession, Table};
pub use text::read_text;
pub use time::{count_at, time_of};
