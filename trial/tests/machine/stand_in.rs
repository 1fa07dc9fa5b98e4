//! The simulator in the library's place, and wrong machines made of it.

use sim7700::codes::Word;
use sim7700::generate::RunCase;
use sim7700::state::{depth, Registers, CALL_BYTES, HEAD_BYTES};
use std::cell::Cell;
use std::slice::{from_raw_parts, from_raw_parts_mut};
use trial7700::machine::Instruction;

/// A step that the simulator has made.
pub struct Made<'a> {
    pub image: &'a mut [u8],
    pub base: u32,
    pub state: &'a mut [u8],
    pub ram: &'a mut [u8],
    pub answer: u64,
    /// State and RAM before the step.
    pub given: Vec<u8>,
    pub given_ram: Vec<u8>,
}

/// What a wrong step makes of a right one.
pub type Twist = fn(&mut Made);

/// A wrong run: it is lent what a run is lent, and answers.
pub type WrongRun = fn(&mut RunCase) -> u64;

thread_local! {
    static TWIST: Cell<Twist> = const { Cell::new(|_| ()) };
    static WRONG_RUN: Cell<WrongRun> = const { Cell::new(run_of_steps) };
}

/// Tries something while `step` is wrong in this way.
pub fn with_step<T>(twist: Twist, tried: impl FnOnce() -> T) -> T {
    let before = TWIST.replace(twist);
    let found = tried();
    TWIST.set(before);
    found
}

/// Tries something while `run` is wrong in this way.
pub fn with_run<T>(wrong: WrongRun, tried: impl FnOnce() -> T) -> T {
    let before = WRONG_RUN.replace(wrong);
    let found = tried();
    WRONG_RUN.set(before);
    found
}

/// In the place of `m7700_check`.
pub unsafe extern "C" fn check(
    image: *const u8,
    image_len: usize,
    marks: *const u8,
    marks_len: usize,
    base: u32,
    reset: u32,
) -> u32 {
    let image = from_raw_parts(image, image_len);
    sim7700::check(image, from_raw_parts(marks, marks_len), base, reset)
}

/// In the place of `m7700_step`.
pub unsafe extern "C" fn step(
    image: *const u8,
    image_len: usize,
    base: u32,
    state: *mut u8,
    state_len: usize,
    ram: *mut u8,
    ram_len: usize,
) -> u64 {
    // The harness lends memory that can be written; a wrong machine may.
    let image = from_raw_parts_mut(image.cast_mut(), image_len);
    let state = from_raw_parts_mut(state, state_len);
    let ram = from_raw_parts_mut(ram, ram_len);
    twisted(image, base, state, ram)
}

fn twisted(image: &mut [u8], base: u32, state: &mut [u8], ram: &mut [u8]) -> u64 {
    let (given, given_ram) = (state.to_vec(), ram.to_vec());
    let answer = sim7700::step(image, base, state, ram);
    let mut made = Made {
        image,
        base,
        state,
        ram,
        answer,
        given,
        given_ram,
    };
    TWIST.get()(&mut made);
    made.answer
}

/// In the place of `m7700_run`.
pub unsafe extern "C" fn run(
    image: *const u8,
    image_len: usize,
    base: u32,
    state: *mut u8,
    state_len: usize,
    ram: *mut u8,
    ram_len: usize,
    steps: u32,
) -> u64 {
    let state = from_raw_parts_mut(state, state_len);
    let ram = from_raw_parts_mut(ram, ram_len);
    let mut lent = RunCase {
        image: from_raw_parts(image, image_len).to_vec(),
        base,
        state: state.to_vec(),
        ram: ram.to_vec(),
        fill: (0, 0),
        steps,
    };
    let answer = WRONG_RUN.get()(&mut lent);
    state.copy_from_slice(&lent.state);
    ram.copy_from_slice(&lent.ram);
    answer
}

/// The steps of `step`, right or wrong, one after another.
pub fn run_of_steps(lent: &mut RunCase) -> u64 {
    let refusal = lent.answer().0 as u8;
    if refusal != 0 {
        return refusal as u64;
    }
    let (mut end, mut done, mut calls) = (0, 0, 0);
    while done < lent.steps as u64 && end == 0 {
        let RunCase {
            image,
            base,
            state,
            ram,
            ..
        } = &mut *lent;
        let answer = twisted(image, *base, state, ram);
        end = answer >> 8 & 0xFF;
        done += (end == 0) as u64;
        calls += answer >> 40;
    }
    end << 8 | done << 16 | calls << 40
}

impl Made<'_> {
    /// The refusal, or else the end.
    pub fn number(&self) -> u8 {
        match self.answer as u8 {
            0 => (self.answer >> 8) as u8,
            refusal => refusal,
        }
    }

    pub fn before(&self) -> Registers {
        Registers::read(&self.given)
    }

    pub fn after(&self) -> Registers {
        Registers::read(self.state)
    }

    /// Changes the registers after the step.
    pub fn put(&mut self, change: impl FnOnce(&mut Registers)) {
        put(self.state, change);
    }

    pub fn instruction(&self) -> Option<Instruction> {
        match self.number() {
            0 | 20.. => Instruction::of(self.image, self.base, &self.before()),
            _ => None,
        }
    }

    fn is(&self, word: Word) -> bool {
        self.instruction().is_some_and(|it| it.entry.word == word)
    }

    /// Whether it is a completed step of this word.
    pub fn does(&self, word: Word) -> bool {
        self.number() == 0 && self.is(word)
    }

    /// Whether it is a step of this word that stops so.
    pub fn stops(&self, word: Word, stop: u8) -> bool {
        self.number() == stop && self.is(word)
    }

    /// The places of the operand in the image; none if it is cut off.
    pub fn operand(&self) -> Option<std::ops::Range<usize>> {
        let it = self.instruction()?;
        let first = it.at + 1 + (it.page > 0) as usize;
        let end = it.at + it.length;
        (it.entry.carried && end <= self.image.len()).then_some(first..end)
    }

    /// Two operand bytes, low first.
    pub fn operand_word(&self) -> Option<u16> {
        let bytes = self.image.get(self.operand()?)?;
        Some(u16::from_le_bytes([*bytes.first()?, *bytes.get(1)?]))
    }

    pub fn open_calls(&self) -> usize {
        depth(&self.given)
    }

    /// Where the entry of the call opened last begins in the given state.
    pub fn last_call(&self) -> Option<usize> {
        let below = self.open_calls().checked_sub(1)?;
        Some(HEAD_BYTES + CALL_BYTES * below)
    }

    /// What a store to an address meets: 0, 23 or 26.
    pub fn store_at(&self, address: u32) -> u8 {
        let in_image = address.wrapping_sub(self.base) as usize;
        match () {
            _ if (address as usize) < self.ram.len() => 0,
            _ if in_image < self.image.len() => 26,
            _ => 23,
        }
    }

    /// Stops instead, with all as given.
    pub fn stop_with(&mut self, stop: u8) {
        self.state.copy_from_slice(&self.given);
        self.ram.copy_from_slice(&self.given_ram);
        self.answer = (stop as u64) << 8;
    }

    /// Makes another step instead, from a changed image and state.
    pub fn instead(&mut self, change: impl FnOnce(&mut [u8], &mut [u8])) {
        let mut image = self.image.to_vec();
        self.state.copy_from_slice(&self.given);
        self.ram.copy_from_slice(&self.given_ram);
        change(&mut image, self.state);
        self.answer = sim7700::step(&image, self.base, self.state, self.ram);
        if self.number() != 0 {
            self.state.copy_from_slice(&self.given);
        }
    }
}

/// Changes the registers of a state.
pub fn put(state: &mut [u8], change: impl FnOnce(&mut Registers)) {
    let mut registers = Registers::read(state);
    change(&mut registers);
    registers.write(state);
}
