//! Open calls in a state under trial.

use super::noise::Noise;
use crate::machine::Instruction;
use sim7700::codes::Word;
use sim7700::generate::{Rng, RunCase};
use sim7700::numbers::{bank, MAX_ADDRESS, MAX_CALLS};
use sim7700::state::{depth, set_call, set_depth, Registers, CALL_BYTES, HEAD_BYTES, STATE_BYTES};

const DEPTHS: [usize; 6] = [0, 1, 2, MAX_CALLS - 1, MAX_CALLS, MAX_CALLS];
/// Bytes of an entry that mean something.
const USED: usize = 5;

/// A call of any address and kind.
fn any_call(rng: &mut Rng) -> (u32, u8) {
    let drawn = rng.next_u64();
    (drawn as u32 & MAX_ADDRESS, 1 + (drawn >> 63) as u8)
}

/// Opens other calls than before: none, a few, or as many as there can be. A
/// return finds the call that fits it on top, or one that nearly does.
pub fn reopen(rng: &mut Rng, case: &mut RunCase) {
    let open = *rng.pick(&DEPTHS);
    let mut calls: Vec<(u32, u8)> = (0..open).map(|_| any_call(rng)).collect();
    if let (Some(fits), Some(top)) = (returning(case), calls.last_mut()) {
        let (address, kind) = fits;
        match rng.below(8) {
            0 => *top = (address, 3 - kind),
            1 => *top = (address ^ 1 << rng.below(24), kind),
            // Another one on top of it.
            2 => calls[open / 2] = fits,
            _ => *top = fits,
        }
    }
    set_depth(&mut case.state, open);
    for (index, (address, kind)) in calls.into_iter().enumerate() {
        set_call(&mut case.state, index, address, kind);
    }
}

/// The address and kind that a return at PG and PC pulls, if one stands there.
fn returning(case: &RunCase) -> Option<(u32, u8)> {
    let registers = Registers::read(&case.state);
    let instruction = Instruction::of(&case.image, case.base, &registers)?;
    let pulled = |k: u16| (byte_at(case, registers.s.wrapping_add(k)) as u32) << (8 * (k - 1));
    match instruction.entry.word {
        Word::RTS => {
            let next = (registers.pc + 1) & MAX_ADDRESS;
            Some((bank(next) | pulled(1) | pulled(2), 1))
        }
        Word::RTL => Some((pulled(1) | pulled(2) | pulled(3), 2)),
        _ => None,
    }
}

/// The byte at an address of bank 0; 0 where nothing is mapped.
fn byte_at(case: &RunCase, address: u16) -> u8 {
    let in_image = (address as u32).wrapping_sub(case.base) as usize;
    let ram = case.ram.get(address as usize);
    ram.or(case.image.get(in_image)).copied().unwrap_or(0)
}

/// Puts old bytes where nothing looks: behind the last open call, and into the
/// reserved bytes of each.
pub fn litter(rng: &mut Rng, noise: &Noise, state: &mut [u8]) {
    let open = depth(state);
    let old = noise.any(rng, STATE_BYTES - HEAD_BYTES);
    let entries = state[HEAD_BYTES..].chunks_exact_mut(CALL_BYTES);
    for (index, (entry, old)) in entries.zip(old.chunks_exact(CALL_BYTES)).enumerate() {
        let from = if index < open.min(MAX_CALLS) { USED } else { 0 };
        entry[from..].copy_from_slice(&old[from..]);
    }
}
