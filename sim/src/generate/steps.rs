//! Single steps: one instruction, aimed at an address at an edge.

use super::{crossing_base, refused_run, Rng};
use crate::alu;
use crate::codes::{entry_of, Entry, Mode, Word};
use crate::numbers::{bank, MAX_ADDRESS, MAX_CALLS};
use crate::state::{set_call, set_depth, Registers, STATE_BYTES};

/// Arguments of a run, with the rule that filled RAM before the patches:
/// byte k is fill.0 + fill.1 * k.
#[derive(Clone, PartialEq, Eq, Debug)]
pub struct RunCase {
    pub image: Vec<u8>,
    pub base: u32,
    pub state: Vec<u8>,
    pub ram: Vec<u8>,
    pub fill: (u8, u8),
    pub steps: u32,
}

impl RunCase {
    /// The run's answer, and state and RAM after it.
    pub fn answer(&self) -> (u64, Vec<u8>, Vec<u8>) {
        let (mut state, mut ram) = (self.state.clone(), self.ram.clone());
        let answer = crate::run(&self.image, self.base, &mut state, &mut ram, self.steps);
        (answer, state, ram)
    }
}

/// RAM filled by a rule.
pub(super) fn filled(length: usize, fill: (u8, u8)) -> Vec<u8> {
    (0..length)
        .map(|k| fill.0.wrapping_add(fill.1.wrapping_mul(k as u8)))
        .collect()
}

/// A step by any code at any widths; seldom one that is refused.
pub fn step_case(rng: &mut Rng) -> RunCase {
    if rng.chance(1, 40) {
        let mut case = refused_run(rng);
        case.steps = 1;
        return case;
    }
    let page = *rng.pick(&[0, 0, 0, 1, 1, 2]);
    let mut code = rng.byte();
    if rng.chance(19, 20) {
        while !entry_of(page, code).carried {
            code = code.wrapping_add(1);
        }
    }
    let widths = *rng.pick(&[0, alu::X, alu::M, alu::M | alu::X]);
    aimed_step(rng, page, code, widths)
}

/// The parts of a step while it is aimed.
struct Aim<'a> {
    rng: &'a mut Rng,
    r: Registers,
    operand: Vec<u8>,
    ram_len: usize,
    base: u32,
    image_len: usize,
    /// Which edge to aim at; none for a drawn one.
    edge: Option<usize>,
    /// Bytes to put into RAM or image: stack contents and pointers.
    patches: Vec<(u32, u8)>,
}

/// The edges that a step can be aimed at.
pub const EDGES: usize = 18;

/// A step by one code at the given widths (bits of PS), aimed somewhere.
pub fn aimed_step(rng: &mut Rng, page: usize, code: u8, widths: u16) -> RunCase {
    build(rng, page, code, widths, None)
}

/// The same, its data address or S aimed at an edge under `EDGES`: of RAM,
/// of the image, of a bank, of the address space.
pub fn edge_step(rng: &mut Rng, page: usize, code: u8, widths: u16, edge: usize) -> RunCase {
    build(rng, page, code, widths, Some(edge))
}

fn build(rng: &mut Rng, page: usize, code: u8, widths: u16, edge: Option<usize>) -> RunCase {
    let entry = entry_of(page, code);
    let ps = status(rng, entry, widths);
    // An unassigned code has no length: its code bytes alone.
    let code_bytes = if page == 0 { 1 } else { 2 };
    let length = entry
        .length(ps & alu::M != 0, ps & alu::X != 0)
        .max(code_bytes);
    let (before, behind) = (rng.index(4), *rng.pick(&[0, 0, 1, 2, 5]));
    let image_len = before + length + behind;
    let ram_len = *rng.pick(&[1, 2, 3, 16, 256, 300, 512, 512, 512, 768, 4096]);
    let base = step_base(rng, image_len, ram_len);
    let fill = (rng.byte(), *rng.pick(&[0, 1, 3, 0x55, 0x80]));
    let mut ram = filled(ram_len, fill);
    let mut image: Vec<u8> = (0..image_len).map(|_| rng.byte()).collect();
    let mut aim = Aim {
        r: registers(rng, ps, base + before as u32),
        operand: (0..5).map(|_| rng.edge_byte()).collect(),
        ram_len,
        base,
        image_len,
        edge,
        patches: Vec::new(),
        rng,
    };
    aim.data(entry);
    let state = aim.stack(entry);
    patch(&aim.patches, &mut ram, &mut image, base);
    let prefix: &[u8] = [&[][..], &[0x42], &[0x89]][page];
    let bytes = [prefix, &[code], &aim.operand].concat();
    image[before..before + length].copy_from_slice(&bytes[..length]);
    if edge.is_none() && length > 1 && rng.chance(1, 24) {
        // The instruction, or the code behind a prefix, runs past the image.
        image.truncate(before + 1 + rng.index(length - 1));
    }
    RunCase {
        image,
        base,
        state,
        ram,
        fill,
        steps: 1,
    }
}

pub(super) fn patch(patches: &[(u32, u8)], ram: &mut [u8], image: &mut [u8], base: u32) {
    for &(address, byte) in patches {
        let in_image = address.wrapping_sub(base) as usize;
        if let Some(place) = ram.get_mut(address as usize) {
            *place = byte;
        } else if let Some(place) = image.get_mut(in_image) {
            *place = byte;
        }
    }
}

/// Drawn flags; D seldom where it stops the step.
fn status(rng: &mut Rng, entry: &Entry, widths: u16) -> u16 {
    let ps = widths | rng.word() & 0x7CF;
    let binary = matches!(entry.word, Word::ADC | Word::SBC) && !rng.chance(1, 12);
    if binary {
        ps & !alu::D
    } else {
        ps
    }
}

pub(super) fn state_of(r: &Registers, calls: &[(u32, u8)]) -> Vec<u8> {
    let mut state = vec![0; STATE_BYTES];
    r.write(&mut state);
    set_depth(&mut state, calls.len());
    for (index, &(address, kind)) in calls.iter().enumerate() {
        set_call(&mut state, index, address, kind);
    }
    state
}

/// Right above RAM, at a bank's end or across it, at the end of all, or
/// anywhere.
fn step_base(rng: &mut Rng, image_len: usize, ram_len: usize) -> u32 {
    let end = 0x1_0000 - image_len as u32;
    match rng.below(10) {
        0 | 1 => ram_len as u32,
        2 => end,
        3 => 0xFF_0000 | end,
        4 => 0x1_0000,
        5 => 0xC000,
        6 => 0x12_0000 | end,
        7 | 8 if image_len > 1 => crossing_base(rng, image_len),
        _ => (ram_len as u32 + rng.below(0x8000) as u32) | (rng.below(3) as u32) << 16,
    }
}

fn registers(rng: &mut Rng, ps: u16, pc: u32) -> Registers {
    Registers {
        a: rng.edge_word(),
        b: rng.edge_word(),
        x: rng.edge_word(),
        y: rng.edge_word(),
        s: rng.edge_word(),
        dpr: rng.edge_word(),
        ps,
        dt: *rng.pick(&[0, 0, 0, 1, 0x12, 0xFE, 0xFF]),
        pc: if rng.chance(1, 40) {
            rng.next_u64() as u32 & 0xFF_FFFF
        } else {
            pc
        },
    }
}

impl Aim<'_> {
    fn edges(&self) -> [u32; EDGES] {
        let (ram, base) = (self.ram_len as u32, self.base);
        let end = base + self.image_len as u32;
        [
            0,
            1,
            2,
            ram.saturating_sub(2),
            ram - 1,
            ram,
            base - 1,
            base,
            base + 1,
            end - 2,
            end - 1,
            end,
            0xFFFE,
            0xFFFF,
            0x1_0000,
            0xFF_FFFE,
            0xFF_FFFF,
            0x100_0000,
        ]
    }

    /// The address to aim at: the given edge, or a drawn place or edge.
    fn goal(&mut self) -> u32 {
        let edges = self.edges();
        match self.edge {
            Some(edge) => edges[edge],
            None if self.rng.chance(1, 3) => self.rng.below(self.ram_len as u64) as u32,
            None => *self.rng.pick(&edges),
        }
    }

    /// Where a pointer stands: mostly in RAM, so that it can be aimed.
    fn pointer_place(&mut self) -> u32 {
        match self.rng.below(4) {
            0 => *self.rng.pick(&self.edges()),
            1 => (self.ram_len as u32).saturating_sub(1 + self.rng.below(3) as u32),
            _ => self.rng.below(self.ram_len as u64) as u32,
        }
    }

    fn index(&self, register: u16) -> u32 {
        let width = if self.r.ps & alu::X != 0 {
            0xFF
        } else {
            0xFFFF
        };
        (register & width) as u32
    }

    /// DPR such that DPR + operand + index is the address, if one is.
    fn by_direct(&mut self, address: u32, index: u32) {
        let rest = address
            .wrapping_sub(index)
            .wrapping_sub(self.operand[0] as u32);
        if rest <= 0xFFFF {
            self.r.dpr = rest as u16;
        } else if address <= 0x1_00FE {
            // The index was too large: both small instead.
            self.r.x &= 0xFF00;
            self.r.y &= 0xFF00;
            self.r.dpr = address.min(0xFFFF) as u16;
            self.operand[0] = (address - self.r.dpr as u32) as u8;
        }
    }

    fn by_bank(&mut self, address: u32, index: u32) -> u16 {
        let rest = address.wrapping_sub(index) & 0xFF_FFFF;
        self.r.dt = (rest >> 16) as u8;
        rest as u16
    }

    /// A pointer of 2 or 3 bytes at an address that is mostly in RAM.
    fn pointer(&mut self, place: u32, value: u32, bytes: u32) {
        for k in 0..bytes {
            self.patches.push((place + k, (value >> (8 * k)) as u8));
        }
    }

    fn by_stack(&mut self, address: u32) {
        let rest = address.wrapping_sub(self.operand[0] as u32);
        if rest <= 0xFFFF {
            self.r.s = rest as u16;
        }
    }

    /// An index that is mostly no larger than the address to be reached.
    fn tamed(&mut self, register: u16, goal: u32) -> u16 {
        if self.index(register) <= goal || self.rng.chance(1, 4) {
            return register;
        }
        let small = self.rng.below(goal.min(0xFF) as u64 + 1) as u16;
        // Under x=1 the high byte is of no use and stays.
        let unused = if self.r.ps & alu::X != 0 { 0xFF00 } else { 0 };
        register & unused | small
    }

    /// Aims the data address of a mode.
    fn data(&mut self, entry: &Entry) {
        let goal = self.goal();
        self.r.x = self.tamed(self.r.x, goal);
        self.r.y = self.tamed(self.r.y, goal);
        let (x, y) = (self.index(self.r.x), self.index(self.r.y));
        let place = self.pointer_place();
        match entry.mode {
            Mode::DIR | Mode::DIR_b | Mode::DIR_b_REL => self.by_direct(goal, 0),
            Mode::DIR_X => self.by_direct(goal, x),
            Mode::DIR_Y => self.by_direct(goal, y),
            Mode::I_DIR | Mode::I_DIR_X | Mode::I_DIR_Y => {
                self.by_direct(place, if entry.mode == Mode::I_DIR_X { x } else { 0 });
                let index = if entry.mode == Mode::I_DIR_Y { y } else { 0 };
                let low = self.by_bank(goal, index);
                self.pointer(place, low as u32, 2);
            }
            Mode::L_DIR | Mode::L_DIR_Y => {
                self.by_direct(place, 0);
                let index = if entry.mode == Mode::L_DIR_Y { y } else { 0 };
                self.pointer(place, goal.wrapping_sub(index) & 0xFF_FFFF, 3);
            }
            Mode::ABS | Mode::ABS_b | Mode::ABS_b_REL => {
                let low = self.by_bank(goal, 0);
                self.operand[..2].copy_from_slice(&low.to_le_bytes());
            }
            Mode::ABS_X | Mode::ABS_Y => {
                let low = self.by_bank(goal, if entry.mode == Mode::ABS_X { x } else { y });
                self.operand[..2].copy_from_slice(&low.to_le_bytes());
            }
            Mode::ABL | Mode::ABL_X => {
                let index = if entry.mode == Mode::ABL_X { x } else { 0 };
                let address = goal.wrapping_sub(index) & 0xFF_FFFF;
                self.operand[..3].copy_from_slice(&address.to_le_bytes()[..3]);
            }
            Mode::SR => self.by_stack(goal),
            Mode::I_SR_Y => {
                self.by_stack(place);
                let low = self.by_bank(goal, y);
                self.pointer(place, low as u32, 2);
            }
            _ => {}
        }
    }

    /// Aims S where the stack is used, draws the open calls, and gives the
    /// state's bytes.
    fn stack(&mut self, entry: &Entry) -> Vec<u8> {
        let calls = matches!(entry.word, Word::JSR | Word::RTS | Word::RTL);
        if entry.mode == Mode::STK || calls {
            self.r.s = self.goal() as u16;
            // A drawn S may stand just off the edge, too.
            if self.edge.is_none() {
                self.r.s = self
                    .r
                    .s
                    .wrapping_add(self.rng.below(5) as u16)
                    .wrapping_sub(2);
            }
        }
        if entry.word == Word::PEI {
            let place = self.pointer_place();
            self.by_direct(place, 0);
        }
        let calls = match entry.word {
            Word::RTS => self.returning(1),
            Word::RTL => self.returning(2),
            Word::JSR => self.open_calls(&[0, 1, 2, MAX_CALLS - 2, MAX_CALLS - 1, MAX_CALLS]),
            _ => self.open_calls(&[0, 0, 0, 1]),
        };
        state_of(&self.r, &calls)
    }

    fn open_calls(&mut self, depths: &[usize]) -> Vec<(u32, u8)> {
        let depth = *self.rng.pick(depths);
        (0..depth)
            .map(|_| {
                let address = self.rng.next_u64() as u32 & 0xFF_FFFF;
                (address, *self.rng.pick(&[1, 2]))
            })
            .collect()
    }

    /// Pushed bytes and an open call that fit, or nearly do.
    fn returning(&mut self, kind: u8) -> Vec<(u32, u8)> {
        let low = self.rng.edge_word();
        let bank = match kind {
            1 => bank((self.r.pc + 1) & MAX_ADDRESS),
            _ => (self.rng.edge_byte() as u32) << 16,
        };
        let address = bank | low as u32;
        for k in 0..3u16 {
            let place = self.r.s.wrapping_add(1 + k) as u32;
            self.patches.push((place, (address >> (8 * k)) as u8));
        }
        let mut calls = self.open_calls(&[0, 1, MAX_CALLS - 2, MAX_CALLS - 1]);
        match self.rng.below(10) {
            0 => calls.push((address, 3 - kind)),
            1 => calls.push((address ^ 1 << self.rng.below(24), kind)),
            2 => calls.clear(),
            _ => calls.push((address, kind)),
        }
        calls
    }
}
