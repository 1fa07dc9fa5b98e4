//! A step or a run beside the simulator's: what both are lent, and what is
//! compared.

use crate::faults;
use crate::guard::Guarded;
use crate::hex;
use sim7700::codes::{entry_of, page_of, Entry, PREFIX_42, PREFIX_89};
use sim7700::generate::{RunCase, FORMER_STATE_BYTES};
use sim7700::numbers::MAX_IMAGE;
use sim7700::state::{depth, Registers, HEAD_BYTES};
use std::fmt::{self, Display, Formatter};
use std::sync::OnceLock;

/// Buffers somewhat over 01's limits are lent too, and states that were as long
/// as before R-5.
const IMAGE_CAPACITY: usize = MAX_IMAGE + 16;
const STATE_CAPACITY: usize = FORMER_STATE_BYTES;
const RAM_CAPACITY: usize = 65_536;

/// A function with the shape of `m7700_step`.
pub type StepCall =
    unsafe extern "C" fn(*const u8, usize, u32, *mut u8, usize, *mut u8, usize) -> u64;
/// A function with the shape of `m7700_run`.
pub type RunCall =
    unsafe extern "C" fn(*const u8, usize, u32, *mut u8, usize, *mut u8, usize, u32) -> u64;

#[derive(Clone, Copy)]
pub enum Call {
    Step(StepCall),
    Run(RunCall),
}

/// A packed answer, and state and RAM as they are after it.
#[derive(Clone, PartialEq, Eq, Default)]
pub struct After {
    pub answer: u64,
    pub state: Vec<u8>,
    pub ram: Vec<u8>,
}

impl After {
    /// The refusal, or else the end.
    pub fn number(&self) -> u8 {
        match self.answer as u8 {
            0 => (self.answer >> 8) as u8,
            refusal => refusal,
        }
    }

    pub fn completed(&self) -> u64 {
        self.answer >> 16 & 0xFF_FFFF
    }

    pub fn calls(&self) -> u64 {
        self.answer >> 40
    }

    /// Becomes what the simulator makes of a case.
    fn simulate(&mut self, call: Call, case: &RunCase) {
        self.state.clone_from(&case.state);
        self.ram.clone_from(&case.ram);
        let (image, state, ram) = (&case.image, &mut self.state, &mut self.ram);
        self.answer = match call {
            Call::Step(_) => sim7700::step(image, case.base, state, ram),
            Call::Run(_) => sim7700::run(image, case.base, state, ram, case.steps),
        };
    }
}

/// A step or a run under trial, with the buffers that are lent to it.
pub struct Subject {
    call: Call,
    image: Guarded,
    state: Guarded,
    ram: Guarded,
    expected: After,
}

impl Subject {
    pub fn new(call: Call) -> Subject {
        Subject {
            call,
            image: Guarded::new(IMAGE_CAPACITY),
            state: Guarded::new(STATE_CAPACITY),
            ram: Guarded::new(RAM_CAPACITY),
            expected: After::default(),
        }
    }

    /// What both answer and leave, or what differs.
    pub fn compare(&mut self, case: &RunCase) -> Result<&After, String> {
        self.expected.simulate(self.call, case);
        self.image.fill(&case.image);
        self.state.fill(&case.state);
        self.ram.fill(&case.ram);
        let answer = self.ask(case);
        let expected = &self.expected;
        let mut differences = String::new();
        if answer != expected.answer {
            let (library, simulator) = (Answer(answer), Answer(expected.answer));
            differences += &format!("library {library}, simulator {simulator}\n");
        }
        differences += &self.image.difference("image", &case.image);
        differences += &self.state.difference("state", &expected.state);
        differences += &self.ram.difference("RAM", &expected.ram);
        if differences.is_empty() {
            Ok(expected)
        } else {
            Err(format!("{differences}{}", Shown(case)))
        }
    }

    fn ask(&mut self, case: &RunCase) -> u64 {
        let (image, image_len) = (self.image.pointer(), self.image.length());
        let (state, state_len) = (self.state.pointer(), self.state.length());
        let (ram, ram_len) = (self.ram.pointer(), self.ram.length());
        let (base, steps) = (case.base, case.steps);
        // SAFETY: the pointers are valid for their lengths, and nothing
        // refers to the buffers during the call.
        faults::during(&Shown(case), || unsafe {
            match self.call {
                Call::Step(step) => step(image, image_len, base, state, state_len, ram, ram_len),
                Call::Run(run) => run(
                    image, image_len, base, state, state_len, ram, ram_len, steps,
                ),
            }
        })
    }
}

/// The instruction at PG and PC, if its code lies in the image.
pub struct Instruction {
    /// Its offset in the image.
    pub at: usize,
    pub page: usize,
    pub code: u8,
    pub entry: &'static Entry,
    /// By the code map at the widths in PS.
    pub length: usize,
}

impl Instruction {
    pub fn of(image: &[u8], base: u32, registers: &Registers) -> Option<Instruction> {
        let at = registers.pc.checked_sub(base)? as usize;
        let page = page_of(*image.get(at)?);
        let code = *image.get(at + (page > 0) as usize)?;
        let entry = entry_of(page, code);
        Some(Instruction {
            at,
            page,
            code,
            entry,
            length: entry.length(registers.m(), registers.x_flag()),
        })
    }
}

/// A code with its page.
pub type Code = (usize, u8);

/// The carried codes of all pages.
pub fn carried() -> &'static [Code] {
    static CARRIED: OnceLock<Vec<Code>> = OnceLock::new();
    CARRIED.get_or_init(|| {
        let all = (0..3).flat_map(|page| (0..=255).map(move |code| (page, code)));
        all.filter(|&(page, code)| entry_of(page, code).carried)
            .collect()
    })
}

/// The bytes of a code, its prefix first if it has one.
pub fn code_bytes((page, code): Code) -> Vec<u8> {
    match page {
        0 => vec![code],
        1 => vec![PREFIX_42, code],
        _ => vec![PREFIX_89, code],
    }
}

/// Puts a code into an image, as far as that goes.
pub fn put_code(image: &mut [u8], at: usize, code: Code) {
    for (place, byte) in image[at..].iter_mut().zip(code_bytes(code)) {
        *place = byte;
    }
}

/// A packed answer in words.
struct Answer(u64);

impl Display for Answer {
    fn fmt(&self, f: &mut Formatter) -> fmt::Result {
        let [refusal, end, ..] = self.0.to_le_bytes();
        let (steps, calls) = (self.0 >> 16 & 0xFF_FFFF, self.0 >> 40);
        write!(
            f,
            "refusal {refusal}, end {end}, {steps} steps, {calls} calls"
        )
    }
}

/// A case in full.
pub struct Shown<'a>(pub &'a RunCase);

impl Display for Shown<'_> {
    fn fmt(&self, f: &mut Formatter) -> fmt::Result {
        let RunCase {
            image,
            base,
            state,
            ram,
            steps,
            ..
        } = self.0;
        writeln!(f, "  base {base:06X}, {steps} steps asked")?;
        if state.len() >= HEAD_BYTES {
            let registers = Registers::read(state);
            writeln!(f, "  {registers:X?}, {} open calls", depth(state))?;
            if let Some(Instruction { at, entry, .. }) = Instruction::of(image, *base, &registers) {
                writeln!(f, "  {:?} {:?} at offset {at}", entry.word, entry.mode)?;
            }
        }
        writeln!(f, "  image, {} bytes: {}", image.len(), hex(image))?;
        writeln!(f, "  state, {} bytes: {}", state.len(), hex(state))?;
        write!(f, "  RAM, {} bytes: {}", ram.len(), hex(ram))
    }
}
