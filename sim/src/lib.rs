//! A MELPS 7700 simulator written apart: a second reading of the papers.
//!
//! The functions mirror the C interface (include/m7700.h) on slices, with the
//! same packing of the result. "01" in a comment is 01-scope.md, "02"
//! 02-change-requests.md, "manual" the MELPS 7700 Software Manual.

pub mod alu;
pub mod answer;
mod build;
mod check;
pub mod codes;
mod explain;
pub mod generate;
mod list;
pub mod listing;
mod locate;
mod machine;
pub mod marks;
pub mod numbers;
mod print;
mod rules;
pub mod state;
pub mod vectors;

pub use build::build_marks;
pub use check::{check, verdict};
pub use explain::{explain, LINE_BYTES};
pub use list::{read_list, write_list};
pub use locate::{locate, IN_GAP, IN_INSTRUCTION, NO_START};
pub use machine::{run, run_within, step};
pub use print::{print, ROW_BYTES};
