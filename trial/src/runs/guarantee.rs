//! Demand 3 on what was seen: over an accepted image every step begins at a
//! marked start with m and x as marked, its whole instruction within the image
//! and its code carried, and a run ends with 0 or a stop from 22 to 27.

use crate::machine::Instruction;
use sim7700::generate::RunCase;
use sim7700::marks::{self, is_start};
use sim7700::numbers::{DECIMAL, HALT};
use sim7700::state::Registers;

/// What is amiss where a step begins, if anything is.
pub fn at_begin(marks: &[u8], case: &RunCase) -> Result<(), String> {
    let registers = Registers::read(&case.state);
    let (pc, m, x) = (registers.pc, registers.m(), registers.x_flag());
    let Some(instruction) = Instruction::of(&case.image, case.base, &registers) else {
        return Err(format!("a step begins outside, at {pc:06X}"));
    };
    let mark = marks[instruction.at];
    let as_marked = (mark & marks::M != 0, mark & marks::X != 0) == (m, x);
    if !is_start(mark) || !as_marked {
        let widths = (m as u8, x as u8);
        return Err(format!(
            "a step begins at {pc:06X}, marked {mark:02X}, with m and x {widths:?}"
        ));
    }
    let whole = instruction.at + instruction.length <= case.image.len();
    if !instruction.entry.carried || !whole {
        return Err(format!(
            "the instruction at {pc:06X} is not carried or not whole"
        ));
    }
    Ok(())
}

/// What is amiss with a run's end, if anything is.
pub fn at_end(end: u8) -> Result<(), String> {
    match end {
        0 | HALT..=DECIMAL => Ok(()),
        other => Err(format!("a run of an accepted program ends with {other}")),
    }
}
