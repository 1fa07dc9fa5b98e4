//! The proved library beside the simulator: the same cases to both, the
//! answers and every byte of every lent buffer compared.

pub mod build;
pub mod check;
pub mod explain;
pub mod faults;
pub mod guard;
pub mod library;
pub mod lists;
pub mod locate;
pub mod machine;
mod packed;
pub mod paged;
pub mod print;
pub mod runs;
pub mod steps;
pub mod tally;

use std::fmt::Write;

/// Bytes in hexadecimal.
pub fn hex(bytes: &[u8]) -> String {
    let mut text = String::with_capacity(2 * bytes.len());
    for byte in bytes {
        let _ = write!(text, "{byte:02X}");
    }
    text
}
