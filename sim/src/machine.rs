//! The step and the run (01, "The machine").

use crate::alu::{self, Width};
use crate::codes::{entry_of, page_of, Entry, Mode, Register, Word};
use crate::numbers::*;
use crate::state::{self, Registers};

/// The C interface's `m7700_run`: bits 0-7 refusal; on 0 bits 8-15 end, 16-39
/// steps completed, 40-63 calls.
pub fn run(image: &[u8], base: u32, state: &mut [u8], ram: &mut [u8], steps: u32) -> u64 {
    run_within(MAX_CALLS, image, base, state, ram, steps)
}

/// The same with room for `limit` open calls, so that the limits before and
/// since R-5 can be compared.
pub fn run_within(
    limit: usize,
    image: &[u8],
    base: u32,
    state: &mut [u8],
    ram: &mut [u8],
    steps: u32,
) -> u64 {
    if let Err(number) = accept(limit, image, base, state, ram, steps) {
        return number as u64;
    }
    let mut registers = Registers::read(state);
    let (mut end, mut done, mut calls) = (0, 0u64, 0u64);
    while done < steps as u64 {
        let mut attempt = Step::new(limit, image, base, ram, registers);
        match attempt.prepare(state) {
            Ok(()) => {
                registers = attempt.registers;
                calls += attempt.opens() as u64;
                let (stores, change) = (attempt.stores, attempt.change);
                stores.commit(ram);
                change.commit(state);
                done += 1;
            }
            Err(stop) => {
                end = stop;
                break;
            }
        }
    }
    registers.write(state);
    (end as u64) << 8 | done << 16 | calls << 40
}

/// The C interface's `m7700_step`: a run of one step.
pub fn step(image: &[u8], base: u32, state: &mut [u8], ram: &mut [u8]) -> u64 {
    run(image, base, state, ram, 1)
}

/// 1, 2, 11, 12, 13.
fn accept(
    limit: usize,
    image: &[u8],
    base: u32,
    state: &[u8],
    ram: &[u8],
    steps: u32,
) -> Result<(), u8> {
    image_place(image.len(), base)?;
    if ram.is_empty() || ram.len() > MAX_RAM || ram.len() > base as usize {
        return Err(RAM);
    }
    state::accept_within(limit, state)?;
    if steps > MAX_STEPS {
        return Err(STEPS);
    }
    Ok(())
}

/// The bytes that a step stores, in the order in which they go: at most
/// three, by JSR long.
#[derive(Clone, Copy)]
struct Stores {
    bytes: [(u32, u8); 3],
    count: usize,
}

impl Stores {
    fn add(&mut self, address: u32, value: u8) {
        self.bytes[self.count] = (address, value);
        self.count += 1;
    }

    fn commit(&self, ram: &mut [u8]) {
        for &(address, value) in &self.bytes[..self.count] {
            ram[address as usize] = value;
        }
    }
}

/// What a step does to the open calls.
#[derive(Clone, Copy)]
enum Change {
    None,
    Open { address: u32, kind: u8 },
    Close,
}

impl Change {
    fn commit(self, state: &mut [u8]) {
        let depth = state::depth(state);
        match self {
            Change::None => {}
            Change::Open { address, kind } => {
                state::set_call(state, depth, address, kind);
                state::set_depth(state, depth + 1);
            }
            // Closing leaves the entry's bytes (include/m7700.h).
            Change::Close => state::set_depth(state, depth - 1),
        }
    }
}

/// A fetched instruction: its entry, the address just after it, and its operand
/// bytes.
struct Instruction<'a> {
    entry: &'static Entry,
    next: u32,
    operand: &'a [u8],
}

impl Instruction<'_> {
    fn byte(&self) -> u16 {
        self.operand[0] as u16
    }

    /// Two operand bytes from this one on, low first.
    fn word_from(&self, index: usize) -> u16 {
        u16::from_le_bytes([self.operand[index], self.operand[index + 1]])
    }

    fn word(&self) -> u16 {
        self.word_from(0)
    }

    fn long(&self) -> u32 {
        self.word() as u32 | (self.operand[2] as u32) << 16
    }

    /// The value behind an address of one or two bytes: bit patterns, LDM.
    fn pattern(&self, width: Width) -> u16 {
        let index = match self.entry.mode {
            Mode::ABS | Mode::ABS_X | Mode::ABS_b | Mode::ABS_b_REL => 2,
            _ => 1,
        };
        self.value(index, width)
    }

    fn value(&self, index: usize, width: Width) -> u16 {
        match width {
            Width::Byte => self.operand[index] as u16,
            Width::Word => self.word_from(index),
        }
    }

    /// The bank that JMP and JSR absolute and RTS use.
    fn bank(&self) -> u32 {
        bank(self.next)
    }

    /// A signed offset: the last operand byte, or BRAL's two.
    fn offset(&self) -> i32 {
        match (self.entry.word, self.operand.len()) {
            (Word::BRA, 2) => self.word() as i16 as i32,
            (_, count) => self.operand[count - 1] as i8 as i32,
        }
    }
}

/// A step under way: nothing outside it changes until it is completed.
struct Step<'a> {
    limit: usize,
    image: &'a [u8],
    base: u32,
    ram: &'a [u8],
    registers: Registers,
    stores: Stores,
    change: Change,
}

impl<'a> Step<'a> {
    fn new(
        limit: usize,
        image: &'a [u8],
        base: u32,
        ram: &'a [u8],
        registers: Registers,
    ) -> Step<'a> {
        Step {
            limit,
            image,
            base,
            ram,
            registers,
            stores: Stores {
                bytes: [(0, 0); 3],
                count: 0,
            },
            change: Change::None,
        }
    }

    fn opens(&self) -> bool {
        matches!(self.change, Change::Open { .. })
    }

    /// The whole step in 01's order of stops: 20, 21, 20, 22, 27, then reads
    /// 23 with 24 or 25 behind them, then stores 23 or 26.
    fn prepare(&mut self, state: &[u8]) -> Result<(), u8> {
        let instruction = self.fetch()?;
        match instruction.entry.word {
            Word::STP | Word::WIT => return Err(HALT),
            Word::ADC | Word::SBC if self.registers.ps & alu::D != 0 => return Err(DECIMAL),
            _ => {}
        }
        self.execute(&instruction, state)?;
        for &(address, _) in &self.stores.bytes[..self.stores.count] {
            self.storable(address)?;
        }
        Ok(())
    }

    fn image_byte(&self, address: u32) -> Option<u8> {
        let at = address.checked_sub(self.base)?;
        self.image.get(at as usize).copied()
    }

    /// Code bytes (20), carried or not (21), operand bytes (20). PG and PC
    /// then name the instruction behind it (manual 2.5, 2.6).
    ///
    /// An address that wraps past FFFFFF is 000000, where RAM stands and no
    /// image can: bytes past the image's end are outside, wrapped or not.
    fn fetch(&mut self) -> Result<Instruction<'a>, u8> {
        let at = self.registers.pc;
        let offset = at.checked_sub(self.base).ok_or(OUTSIDE)? as usize;
        let bytes = self.image.get(offset..).ok_or(OUTSIDE)?;
        let &first = bytes.first().ok_or(OUTSIDE)?;
        let page = page_of(first);
        let (code, code_bytes) = match page {
            0 => (first, 1),
            _ => (*bytes.get(1).ok_or(OUTSIDE)?, 2),
        };
        let entry = entry_of(page, code);
        if !entry.carried {
            return Err(UNCARRIED);
        }
        let length = entry.length(self.registers.m(), self.registers.x_flag());
        let operand = bytes.get(code_bytes..length).ok_or(OUTSIDE)?;
        let next = (at + length as u32) & MAX_ADDRESS;
        self.registers.pc = next;
        Ok(Instruction {
            entry,
            next,
            operand,
        })
    }

    /// A data or stack byte.
    fn read(&self, address: u32) -> Result<u8, u8> {
        match self.ram.get(address as usize) {
            Some(&byte) => Ok(byte),
            None => self.image_byte(address).ok_or(UNMAPPED),
        }
    }

    /// A word, its high byte at the next address; that does not wrap.
    fn read_word(&self, address: u32) -> Result<u16, u8> {
        Ok(u16::from_le_bytes([
            self.read(address)?,
            self.read(address + 1)?,
        ]))
    }

    fn read_data(&self, address: u32, width: Width) -> Result<u16, u8> {
        match width {
            Width::Byte => Ok(self.read(address)? as u16),
            Width::Word => self.read_word(address),
        }
    }

    fn storable(&self, address: u32) -> Result<(), u8> {
        if (address as usize) < self.ram.len() {
            Ok(())
        } else if self.image_byte(address).is_some() {
            Err(IMAGE_STORE)
        } else {
            Err(UNMAPPED)
        }
    }

    fn store(&mut self, address: u32, width: Width, value: u16) {
        let [low, high] = value.to_le_bytes();
        self.stores.add(address, low);
        if width == Width::Word {
            self.stores.add(address + 1, high);
        }
    }

    fn push(&mut self, byte: u8) {
        self.stores.add(self.registers.s as u32, byte);
        self.registers.s = self.registers.s.wrapping_sub(1);
    }

    /// Pushes the high byte first, if there is one.
    fn push_data(&mut self, width: Width, value: u16) {
        let [low, high] = value.to_le_bytes();
        if width == Width::Word {
            self.push(high);
        }
        self.push(low);
    }

    fn pull(&mut self) -> Result<u8, u8> {
        self.registers.s = self.registers.s.wrapping_add(1);
        self.read(self.registers.s as u32)
    }

    fn pull_data(&mut self, width: Width) -> Result<u16, u8> {
        let low = self.pull()?;
        match width {
            Width::Byte => Ok(low as u16),
            Width::Word => Ok(u16::from_le_bytes([low, self.pull()?])),
        }
    }

    /// Under x=1 only the low byte of an index enters an address.
    fn indexed(&self, index: u16) -> u32 {
        (index & self.registers.index().mask()) as u32
    }

    /// A data address by its mode (manual 3.2); it may lie above FFFFFF,
    /// where nothing is mapped.
    fn address(&self, i: &Instruction) -> Result<u32, u8> {
        let r = &self.registers;
        let (x, y) = (self.indexed(r.x), self.indexed(r.y));
        let bank = (r.dt as u32) << 16;
        let direct = r.dpr as u32 + i.byte() as u32;
        let stack = r.s as u32 + i.byte() as u32;
        Ok(match i.entry.mode {
            Mode::DIR | Mode::DIR_b | Mode::DIR_b_REL => direct,
            Mode::DIR_X => direct + x,
            Mode::DIR_Y => direct + y,
            Mode::I_DIR => bank + self.read_word(direct)? as u32,
            Mode::I_DIR_X => bank + self.read_word(direct + x)? as u32,
            Mode::I_DIR_Y => bank + self.read_word(direct)? as u32 + y,
            Mode::L_DIR => self.read_long(direct)?,
            Mode::L_DIR_Y => self.read_long(direct)? + y,
            Mode::ABS | Mode::ABS_b | Mode::ABS_b_REL => bank + i.word() as u32,
            Mode::ABS_X => bank + i.word() as u32 + x,
            Mode::ABS_Y => bank + i.word() as u32 + y,
            Mode::ABL => i.long(),
            Mode::ABL_X => i.long() + x,
            Mode::SR => stack,
            Mode::I_SR_Y => bank + self.read_word(stack)? as u32 + y,
            mode => unreachable!("no data address in mode {mode:?}"),
        })
    }

    fn read_long(&self, address: u32) -> Result<u32, u8> {
        let low = self.read_word(address)? as u32;
        Ok(low | (self.read(address + 2)? as u32) << 16)
    }

    /// An instruction's datum: immediate, or from memory.
    fn datum(&self, i: &Instruction, width: Width) -> Result<u16, u8> {
        match i.entry.mode {
            Mode::IMM => Ok(i.value(0, width)),
            _ => self.read_data(self.address(i)?, width),
        }
    }

    fn accumulator(&mut self, i: &Instruction) -> &mut u16 {
        match i.entry.register {
            Register::B => &mut self.registers.b,
            _ => &mut self.registers.a,
        }
    }

    /// Puts a result into the accumulator; flags are the caller's.
    fn put_accumulator(&mut self, i: &Instruction, value: u16) {
        let width = self.registers.data();
        let place = self.accumulator(i);
        *place = width.replace(*place, value);
    }

    fn load_accumulator(&mut self, i: &Instruction, value: u16) {
        self.put_accumulator(i, value);
        self.sign_zero(self.registers.data(), value);
    }

    fn sign_zero(&mut self, width: Width, result: u16) {
        self.registers.ps = alu::sign_zero(self.registers.ps, width, result);
    }

    fn load_a(&mut self, value: u16) {
        let width = self.registers.data();
        self.registers.a = width.replace(self.registers.a, value);
        self.sign_zero(width, value);
    }

    fn load_b(&mut self, value: u16) {
        let width = self.registers.data();
        self.registers.b = width.replace(self.registers.b, value);
        self.sign_zero(width, value);
    }

    fn load_x(&mut self, value: u16) {
        let width = self.registers.index();
        self.registers.x = width.replace(self.registers.x, value);
        self.sign_zero(width, value);
    }

    fn load_y(&mut self, value: u16) {
        let width = self.registers.index();
        self.registers.y = width.replace(self.registers.y, value);
        self.sign_zero(width, value);
    }

    /// A transfer into X: under x=1 its upper byte becomes 00 (02, R-3).
    fn transfer_x(&mut self, value: u16) {
        self.load_x(value);
        self.registers.x &= self.registers.index().mask();
    }

    /// A transfer into Y, alike.
    fn transfer_y(&mut self, value: u16) {
        self.load_y(value);
        self.registers.y &= self.registers.index().mask();
    }

    /// An operation of the accumulator with a datum that leaves a result.
    fn combine(&mut self, i: &Instruction, with: fn(u16, u16) -> u16) -> Result<(), u8> {
        let datum = self.datum(i, self.registers.data())?;
        let result = with(*self.accumulator(i), datum);
        self.load_accumulator(i, result);
        Ok(())
    }

    /// ADC and SBC.
    fn arithmetic(&mut self, i: &Instruction, with: Arithmetic) -> Result<(), u8> {
        let width = self.registers.data();
        let datum = self.datum(i, width)?;
        let left = *self.accumulator(i);
        let (result, ps) = with(self.registers.ps, width, left, datum);
        self.registers.ps = ps;
        self.put_accumulator(i, result);
        Ok(())
    }

    fn compare(&mut self, i: &Instruction, width: Width, left: u16) -> Result<(), u8> {
        let datum = self.datum(i, width)?;
        self.registers.ps = alu::compare(self.registers.ps, width, left, datum);
        Ok(())
    }

    /// Reads, changes and writes back the accumulator or memory.
    fn modify(&mut self, i: &Instruction, with: Modify) -> Result<(), u8> {
        let (width, ps) = (self.registers.data(), self.registers.ps);
        if i.entry.mode == Mode::ACC {
            let (result, ps) = with(ps, width, *self.accumulator(i));
            self.put_accumulator(i, result);
            self.registers.ps = ps;
        } else {
            let address = self.address(i)?;
            let (result, ps) = with(ps, width, self.read_data(address, width)?);
            self.store(address, width, result);
            self.registers.ps = ps;
        }
        Ok(())
    }

    /// SEB and CLB: no flag is affected.
    fn bits(&mut self, i: &Instruction, with: fn(u16, u16) -> u16) -> Result<(), u8> {
        let width = self.registers.data();
        let address = self.address(i)?;
        let result = with(self.read_data(address, width)?, i.pattern(width));
        self.store(address, width, result);
        Ok(())
    }

    fn store_register(&mut self, i: &Instruction, width: Width, value: u16) -> Result<(), u8> {
        let address = self.address(i)?;
        self.store(address, width, value);
        Ok(())
    }

    /// From the address behind the branch, PG and PC as one number.
    fn branch(&mut self, i: &Instruction, taken: bool) {
        if taken {
            let next = self.registers.pc;
            self.registers.pc = next.wrapping_add_signed(i.offset()) & MAX_ADDRESS;
        }
    }

    /// BBS and BBC: all specified bits alike, 1 or 0.
    fn bit_branch(&mut self, i: &Instruction, wanted_ones: bool) -> Result<(), u8> {
        let width = self.registers.data();
        let datum = self.datum(i, width)?;
        let tested = if wanted_ones { !datum } else { datum };
        self.branch(i, tested & i.pattern(width) == 0);
        Ok(())
    }

    /// JSR: 25 goes before the pushes, which are stores.
    fn call(&mut self, i: &Instruction, state: &[u8]) -> Result<(), u8> {
        if state::depth(state) == self.limit {
            return Err(DEEP);
        }
        let address = self.registers.pc;
        let (kind, target) = match i.entry.mode {
            Mode::ABL => (2, i.long()),
            _ => (1, i.bank() | i.word() as u32),
        };
        if kind == 2 {
            self.push((address >> 16) as u8);
        }
        self.push_data(Width::Word, address as u16);
        self.change = Change::Open { address, kind };
        self.registers.pc = target;
        Ok(())
    }

    /// RTS and RTL: the pulled bytes are read first (23), then 24.
    fn return_by(&mut self, i: &Instruction, kind: u8, state: &[u8]) -> Result<(), u8> {
        let low = self.pull_data(Width::Word)? as u32;
        let high = match kind {
            1 => i.bank(),
            _ => (self.pull()? as u32) << 16,
        };
        let depth = state::depth(state);
        if depth == 0 || state::open_call(state, depth - 1) != (high | low, kind) {
            return Err(ASTRAY);
        }
        self.change = Change::Close;
        self.registers.pc = high | low;
        Ok(())
    }

    /// A flag of the status register.
    fn flag(&self, mask: u16) -> bool {
        self.registers.ps & mask != 0
    }

    /// Sets or clears flags.
    fn put_flags(&mut self, mask: u16, on: bool) {
        self.registers.ps = alu::put(self.registers.ps, mask, on);
    }

    fn execute(&mut self, i: &Instruction, state: &[u8]) -> Result<(), u8> {
        let r = self.registers;
        let (data, index) = (r.data(), r.index());
        match i.entry.word {
            Word::ADC => self.arithmetic(i, alu::add)?,
            Word::AND => self.combine(i, |a, b| a & b)?,
            Word::ASL => self.modify(i, |ps, w, v| alu::shift_left(ps, w, v, 0))?,
            Word::BBC => self.bit_branch(i, false)?,
            Word::BBS => self.bit_branch(i, true)?,
            Word::BCC => self.branch(i, !self.flag(alu::C)),
            Word::BCS => self.branch(i, self.flag(alu::C)),
            Word::BEQ => self.branch(i, self.flag(alu::Z)),
            Word::BMI => self.branch(i, self.flag(alu::N)),
            Word::BNE => self.branch(i, !self.flag(alu::Z)),
            Word::BPL => self.branch(i, !self.flag(alu::N)),
            Word::BRA => self.branch(i, true),
            Word::BVC => self.branch(i, !self.flag(alu::V)),
            Word::BVS => self.branch(i, self.flag(alu::V)),
            Word::CLB => self.bits(i, |v, pattern| v & !pattern)?,
            Word::CLC => self.put_flags(alu::C, false),
            Word::CLI => self.put_flags(alu::I, false),
            Word::CLM => self.put_flags(alu::M, false),
            Word::CLP => self.put_flags(i.byte(), false),
            Word::CLV => self.put_flags(alu::V, false),
            Word::CMP => {
                let left = *self.accumulator(i);
                self.compare(i, data, left)?;
            }
            Word::CPX => self.compare(i, index, r.x)?,
            Word::CPY => self.compare(i, index, r.y)?,
            Word::DEC => self.modify(i, |ps, w, v| counted(ps, w, v.wrapping_sub(1)))?,
            Word::DEX => self.load_x(r.x.wrapping_sub(1)),
            Word::DEY => self.load_y(r.y.wrapping_sub(1)),
            Word::EOR => self.combine(i, |a, b| a ^ b)?,
            Word::INC => self.modify(i, |ps, w, v| counted(ps, w, v.wrapping_add(1)))?,
            Word::INX => self.load_x(r.x.wrapping_add(1)),
            Word::INY => self.load_y(r.y.wrapping_add(1)),
            Word::JMP if i.entry.mode == Mode::ABL => self.registers.pc = i.long(),
            Word::JMP => self.registers.pc = i.bank() | i.word() as u32,
            Word::JSR => self.call(i, state)?,
            Word::LDA => self.combine(i, |_, b| b)?,
            Word::LDM => self.store_register(i, data, i.pattern(data))?,
            Word::LDT => self.registers.dt = i.byte() as u8,
            Word::LDX => {
                let datum = self.datum(i, index)?;
                self.load_x(datum);
            }
            Word::LDY => {
                let datum = self.datum(i, index)?;
                self.load_y(datum);
            }
            Word::LSR => self.modify(i, |ps, w, v| alu::shift_right(ps, w, v, 0))?,
            Word::NOP => {}
            Word::ORA => self.combine(i, |a, b| a | b)?,
            Word::PEA => self.push_data(Width::Word, i.word()),
            Word::PEI => {
                let datum = self.read_word(r.dpr as u32 + i.byte() as u32)?;
                self.push_data(Width::Word, datum);
            }
            Word::PER => self.push_data(Width::Word, (r.pc as u16).wrapping_add(i.word())),
            Word::PHA => self.push_data(data, r.a),
            Word::PHB => self.push_data(data, r.b),
            Word::PHD => self.push_data(Width::Word, r.dpr),
            Word::PHG => self.push((r.pc >> 16) as u8),
            Word::PHP => self.push_data(Width::Word, r.ps),
            Word::PHT => self.push(r.dt),
            Word::PHX => self.push_data(index, r.x),
            Word::PHY => self.push_data(index, r.y),
            Word::PLA => {
                let datum = self.pull_data(data)?;
                self.load_a(datum);
            }
            Word::PLB => {
                let datum = self.pull_data(data)?;
                self.load_b(datum);
            }
            Word::PLD => self.registers.dpr = self.pull_data(Width::Word)?,
            Word::PLT => {
                self.registers.dt = self.pull()?;
                self.sign_zero(Width::Byte, self.registers.dt as u16);
            }
            Word::PLX => {
                let datum = self.pull_data(index)?;
                self.load_x(datum);
            }
            Word::PLY => {
                let datum = self.pull_data(index)?;
                self.load_y(datum);
            }
            Word::RLA => self.put_accumulator(i, alu::rotate_left(data, r.a, i.value(0, data))),
            Word::ROL => self.modify(i, |ps, w, v| alu::shift_left(ps, w, v, ps & alu::C))?,
            Word::ROR => self.modify(i, |ps, w, v| alu::shift_right(ps, w, v, ps & alu::C))?,
            Word::RTL => self.return_by(i, 2, state)?,
            Word::RTS => self.return_by(i, 1, state)?,
            Word::SBC => self.arithmetic(i, alu::subtract)?,
            Word::SEB => self.bits(i, |v, pattern| v | pattern)?,
            Word::SEC => self.put_flags(alu::C, true),
            Word::SEI => self.put_flags(alu::I, true),
            Word::SEM => self.put_flags(alu::M, true),
            Word::SEP => self.put_flags(i.byte(), true),
            Word::STA => {
                let value = *self.accumulator(i);
                self.store_register(i, data, value)?;
            }
            Word::STX => self.store_register(i, index, r.x)?,
            Word::STY => self.store_register(i, index, r.y)?,
            Word::TAD => self.registers.dpr = r.a,
            Word::TAS => self.registers.s = r.a,
            Word::TAX => self.transfer_x(r.a),
            Word::TAY => self.transfer_y(r.a),
            Word::TBD => self.registers.dpr = r.b,
            Word::TBS => self.registers.s = r.b,
            Word::TBX => self.transfer_x(r.b),
            Word::TBY => self.transfer_y(r.b),
            Word::TDA => self.load_a(r.dpr),
            Word::TDB => self.load_b(r.dpr),
            Word::TSA => self.load_a(r.s),
            Word::TSB => self.load_b(r.s),
            Word::TSX => self.transfer_x(r.s),
            Word::TXA => self.load_a(r.x),
            Word::TXB => self.load_b(r.x),
            Word::TXS => self.registers.s = r.x,
            Word::TXY => self.transfer_y(r.x),
            Word::TYA => self.load_a(r.y),
            Word::TYB => self.load_b(r.y),
            Word::TYX => self.transfer_x(r.y),
            Word::XAB => {
                self.registers.b = data.replace(r.b, r.a);
                self.load_a(r.b);
            }
            word => unreachable!("{word:?} is stopped before it is executed"),
        }
        Ok(())
    }
}

type Arithmetic = fn(u16, Width, u16, u16) -> (u16, u16);
type Modify = fn(u16, Width, u16) -> (u16, u16);

/// INC and DEC: the counted value with N and Z.
fn counted(ps: u16, width: Width, result: u16) -> (u16, u16) {
    (result, alu::sign_zero(ps, width, result))
}
