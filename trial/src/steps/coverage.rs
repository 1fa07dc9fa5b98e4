//! Which instructions were completed, and how often.

use crate::machine::{carried, Code, Instruction};
use crate::tally::Tally;
use sim7700::codes::{entry_of, Word};
use sim7700::generate::RunCase;
use sim7700::state::Registers;
use std::collections::HashMap;

/// Completed steps by code, m and x.
#[derive(Default)]
pub struct Coverage {
    counts: HashMap<(Code, bool, bool), u64>,
}

impl Coverage {
    /// Counts a step that was completed.
    pub fn note(&mut self, case: &RunCase) {
        let registers = Registers::read(&case.state);
        if let Some(done) = Instruction::of(&case.image, case.base, &registers) {
            let code = (done.page, done.code);
            let widths = (registers.m(), registers.x_flag());
            *self.counts.entry((code, widths.0, widths.1)).or_default() += 1;
        }
    }

    /// Prints the least count of a code that can be completed; the tally lacks
    /// that code if it is under `least`.
    pub fn report(&self, least: u64, tally: &mut Tally) {
        let count = |key| self.counts.get(&key).copied().unwrap_or(0);
        let widths = [(false, false), (false, true), (true, false), (true, true)];
        let keys = carried()
            .iter()
            .filter(|code| completes(**code))
            .flat_map(|&code| widths.map(|(m, x)| (code, m, x)));
        let seldom = keys.min_by_key(|&key| count(key));
        let (code, m, x) = seldom.expect("some codes are carried");
        let fewest = count((code, m, x));
        println!("steps: each carried code at each pair of widths {fewest} times or more");
        if fewest < least {
            let word = entry_of(code.0, code.1).word;
            let place = format!("{:02X} of page {}", code.1, code.0);
            tally.lack(format!("{word:?} by {place}, m {m}, x {x}"));
        }
    }
}

/// STP and WIT always stop.
fn completes((page, code): Code) -> bool {
    !matches!(entry_of(page, code).word, Word::STP | Word::WIT)
}
