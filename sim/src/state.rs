//! The machine's state and its bytes (include/m7700.h).

use crate::alu::{self, Width};
use crate::numbers::{MAX_ADDRESS, MAX_CALLS, STATE};

/// Bytes before the open calls, of one open call, and of a whole state.
pub const HEAD_BYTES: usize = 20;
pub const CALL_BYTES: usize = 8;
pub const STATE_BYTES: usize = bytes_for(MAX_CALLS);

/// The bytes of a state with room for so many open calls.
pub const fn bytes_for(calls: usize) -> usize {
    HEAD_BYTES + CALL_BYTES * calls
}

/// The registers; PG and PC are one 24-bit number.
#[derive(Clone, Copy, PartialEq, Eq, Debug, Default)]
pub struct Registers {
    pub a: u16,
    pub b: u16,
    pub x: u16,
    pub y: u16,
    pub s: u16,
    pub dpr: u16,
    pub ps: u16,
    pub dt: u8,
    pub pc: u32,
}

impl Registers {
    pub fn m(&self) -> bool {
        self.ps & alu::M != 0
    }

    pub fn x_flag(&self) -> bool {
        self.ps & alu::X != 0
    }

    /// The data length.
    pub(crate) fn data(&self) -> Width {
        Width::of(self.m())
    }

    /// The index register length.
    pub(crate) fn index(&self) -> Width {
        Width::of(self.x_flag())
    }

    /// The registers in a state's bytes.
    pub fn read(state: &[u8]) -> Registers {
        let word = |at: usize| u16::from_le_bytes([state[at], state[at + 1]]);
        Registers {
            a: word(0),
            b: word(2),
            x: word(4),
            y: word(6),
            s: word(8),
            pc: (state[16] as u32) << 16 | word(10) as u32,
            dpr: word(12),
            ps: word(14),
            dt: state[17],
        }
    }

    /// Writes the registers into a state's bytes.
    pub fn write(&self, state: &mut [u8]) {
        let words = [
            self.a,
            self.b,
            self.x,
            self.y,
            self.s,
            self.pc as u16,
            self.dpr,
            self.ps,
        ];
        for (place, word) in state.chunks_exact_mut(2).zip(words) {
            place.copy_from_slice(&word.to_le_bytes());
        }
        state[16] = (self.pc >> 16) as u8;
        state[17] = self.dt;
    }
}

/// The number of open calls in a state's bytes.
pub fn depth(state: &[u8]) -> usize {
    u16::from_le_bytes([state[18], state[19]]) as usize
}

/// Sets the number of open calls.
pub fn set_depth(state: &mut [u8], depth: usize) {
    state[18..20].copy_from_slice(&(depth as u16).to_le_bytes());
}

/// Return address and kind of the open call with this index.
pub fn open_call(state: &[u8], index: usize) -> (u32, u8) {
    let at = HEAD_BYTES + CALL_BYTES * index;
    let address = [state[at], state[at + 1], state[at + 2], state[at + 3]];
    (u32::from_le_bytes(address), state[at + 4])
}

/// Writes an open call's entry, its reserved bytes 0.
pub fn set_call(state: &mut [u8], index: usize, address: u32, kind: u8) {
    let at = HEAD_BYTES + CALL_BYTES * index;
    state[at..at + 4].copy_from_slice(&address.to_le_bytes());
    state[at + 4..at + 8].copy_from_slice(&[kind, 0, 0, 0]);
}

/// 12: a buffer of another length, PS bits 11 to 15, or open calls that
/// cannot be.
pub fn accept(state: &[u8]) -> Result<(), u8> {
    accept_within(MAX_CALLS, state)
}

/// 12 in a machine that has room for `limit` open calls.
pub(crate) fn accept_within(limit: usize, state: &[u8]) -> Result<(), u8> {
    if state.len() != bytes_for(limit) || Registers::read(state).ps > 0x7FF {
        return Err(STATE);
    }
    let depth = depth(state);
    let sound = |(address, kind)| address <= MAX_ADDRESS && (kind == 1 || kind == 2);
    if depth > limit || !(0..depth).all(|index| sound(open_call(state, index))) {
        return Err(STATE);
    }
    Ok(())
}
