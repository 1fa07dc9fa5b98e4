//! Accepted programs: routines with calls of both kinds, branches near and
//! far, jumps, width changes and every other carried code.

use super::{one_bank_base, sound_base, CheckCase, Rng};
use crate::codes::{entry_of, Entry, Mode, Word};
use crate::marks::{self, KIND_RTL, KIND_RTS, START};
use crate::numbers::bank;
use std::sync::OnceLock;

/// How a program is drawn.
#[derive(Clone, Copy)]
struct Plan {
    routines: usize,
    /// Items of each routine.
    items: usize,
    /// Addresses within RAM, a balanced stack, calls that come back.
    gentle: bool,
    /// Bytes of RAM that a gentle program may use.
    ram: usize,
}

/// A program with the RAM that it was drawn for.
pub struct Program {
    pub case: CheckCase,
    pub ram: usize,
}

struct Routine {
    kind: u8,
    enter: u8,
    leave: u8,
}

#[derive(Clone, Copy)]
enum Form {
    Near,
    Far,
    Absolute,
    Long,
}

#[derive(Clone, Copy)]
enum To {
    Routine(usize),
    /// A start with the same mark as the instruction's own.
    Alike,
    /// The instruction behind.
    Next,
}

struct Fixup {
    at: usize,
    after: usize,
    form: Form,
    to: To,
    /// The next address will do as a target too.
    goes_on: bool,
}

impl Fixup {
    /// Whether the form can name a target at this offset.
    fn reaches(&self, target: usize, base: u32) -> bool {
        let distance = target as i64 - self.after as i64;
        let bank_of = |at: usize| bank(base + at as u32);
        match self.form {
            Form::Near => (-128..128).contains(&distance),
            Form::Far => (-0x8000..0x8000).contains(&distance),
            Form::Absolute => bank_of(target) == bank_of(self.after),
            Form::Long => true,
        }
    }
}

/// A code with its page.
pub(super) type Code = (usize, u8);

/// The carried codes that only go on to the next address at the same widths,
/// and those of them that a gentle program uses.
pub(super) fn straight_codes() -> &'static (Vec<Code>, Vec<Code>) {
    static CODES: OnceLock<(Vec<Code>, Vec<Code>)> = OnceLock::new();
    CODES.get_or_init(|| {
        let all = (0..3).flat_map(|page| (0..=255).map(move |code| (page, code)));
        let straight: Vec<Code> = all.filter(|&(p, c)| is_straight(entry_of(p, c))).collect();
        let gentle = straight.iter().filter(|&&(p, c)| is_gentle(entry_of(p, c)));
        let gentle = gentle.copied().collect();
        (straight, gentle)
    })
}

fn is_straight(entry: &Entry) -> bool {
    use Word::*;
    let elsewhere = matches!(
        entry.word,
        BRA | JMP | JSR | RTS | RTL | STP | WIT | SEM | CLM | SEP | CLP
    );
    let branch = matches!(entry.mode, Mode::REL | Mode::DIR_b_REL | Mode::ABS_b_REL);
    entry.carried && !elsewhere && !branch
}

/// Neither moves S, DPR or DT nor makes indexes or pointers large.
fn is_gentle(entry: &Entry) -> bool {
    use Word::*;
    let moves = matches!(
        entry.word,
        TAS | TBS | TXS | TAD | TBD | LDT | TAX | TAY | TBX | TBY | TSX
    );
    let index = matches!(entry.word, LDX | LDY) && entry.mode != Mode::IMM;
    let pointer = matches!(
        entry.mode,
        Mode::I_DIR | Mode::I_DIR_X | Mode::I_DIR_Y | Mode::L_DIR | Mode::L_DIR_Y | Mode::I_SR_Y
    );
    !moves && !index && !pointer && !matches!(entry.mode, Mode::STK | Mode::SR)
}

/// A push and the pull that undoes it.
const PAIRS: [(Code, Code); 6] = [
    ((0, 0x48), (0, 0x68)),
    ((1, 0x48), (1, 0x68)),
    ((0, 0xDA), (0, 0xFA)),
    ((0, 0x5A), (0, 0x7A)),
    ((0, 0x0B), (0, 0x2B)),
    ((0, 0x8B), (0, 0xAB)),
];

const CONDITIONAL: [u8; 12] = [
    0x90, 0xB0, 0xD0, 0xF0, 0x10, 0x30, 0x50, 0x70, 0x24, 0x2C, 0x34, 0x3C,
];

struct Builder<'a> {
    rng: &'a mut Rng,
    plan: Plan,
    image: Vec<u8>,
    marks: Vec<u8>,
    starts: Vec<usize>,
    fixups: Vec<Fixup>,
    routines: Vec<Routine>,
    entries: Vec<usize>,
    /// Widths in force, and kind and return widths of the routine.
    widths: u8,
    returns: u8,
}

impl<'a> Builder<'a> {
    fn new(rng: &'a mut Rng, plan: Plan, routines: Vec<Routine>) -> Builder<'a> {
        Builder {
            rng,
            plan,
            image: Vec::new(),
            marks: Vec::new(),
            starts: Vec::new(),
            fixups: Vec::new(),
            routines,
            entries: Vec::new(),
            widths: 0,
            returns: 0,
        }
    }

    /// Emits one instruction and returns its offset.
    fn emit(&mut self, bytes: &[u8]) -> usize {
        let at = self.image.len();
        self.starts.push(at);
        self.image.extend_from_slice(bytes);
        self.marks.push(START | self.widths | self.returns);
        self.marks.resize(self.image.len(), 0);
        at
    }

    fn length_here(&self, entry: &Entry) -> usize {
        entry.length(self.widths & marks::M != 0, self.widths & marks::X != 0)
    }

    /// An instruction with drawn operand bytes.
    fn code(&mut self, (page, code): Code) -> usize {
        let entry = entry_of(page, code);
        let mut bytes = [0; 6];
        let mut used = 0;
        if page > 0 {
            bytes[0] = [0, 0x42, 0x89][page];
            used = 1;
        }
        bytes[used] = code;
        used += 1;
        let length = self.length_here(entry);
        for place in &mut bytes[used..length] {
            *place = self.rng.edge_byte();
        }
        if self.plan.gentle {
            self.soften(entry, &mut bytes[used..length]);
        }
        self.emit(&bytes[..length])
    }

    /// Turns operands into addresses in RAM and small index values.
    fn soften(&mut self, entry: &Entry, operand: &mut [u8]) {
        let address = self.rng.below(self.plan.ram as u64 / 2) as u16;
        let [low, high] = address.to_le_bytes();
        match entry.mode {
            Mode::ABS | Mode::ABS_X | Mode::ABS_Y | Mode::ABS_b | Mode::ABS_b_REL => {
                operand[..2].copy_from_slice(&[low, high]);
            }
            Mode::ABL | Mode::ABL_X => operand.copy_from_slice(&[low, high, 0]),
            Mode::IMM if matches!(entry.word, Word::LDX | Word::LDY) => {
                operand[0] &= 0x3F;
                operand[1..].fill(0);
            }
            _ => {}
        }
    }

    /// Brings the widths to these, by one or two instructions if needed.
    fn bring(&mut self, wanted: u8) {
        let bits = |w: u8| {
            (if w & marks::M != 0 { 0x20 } else { 0 }) | (if w & marks::X != 0 { 0x10 } else { 0 })
        };
        let (set, clear) = (wanted & !self.widths, self.widths & !wanted);
        if set == marks::M && self.rng.chance(1, 2) {
            self.emit(&[0xF8]);
        } else if set != 0 {
            self.emit(&[0xE2, bits(set)]);
        }
        self.widths |= set;
        if clear == marks::M && self.rng.chance(1, 2) {
            self.emit(&[0xD8]);
        } else if clear != 0 {
            self.emit(&[0xC2, bits(clear)]);
        }
        self.widths = wanted;
    }

    fn any_widths(&mut self) -> u8 {
        *self.rng.pick(&[0, marks::M, marks::X, marks::M | marks::X])
    }

    fn fix(&mut self, at: usize, form: Form, to: To, goes_on: bool) {
        let after = self.image.len();
        self.fixups.push(Fixup {
            at,
            after,
            form,
            to,
            goes_on,
        });
    }

    fn conditional(&mut self) {
        let code = *self.rng.pick(&CONDITIONAL);
        let at = self.code((0, code));
        self.fix(at, Form::Near, To::Alike, true);
    }

    /// BRA or JMP; what follows may stand at other widths.
    fn jump(&mut self) {
        let form = *self
            .rng
            .pick(&[Form::Near, Form::Far, Form::Absolute, Form::Long]);
        let bytes: &[u8] = match form {
            Form::Near => &[0x80, 0],
            Form::Far => &[0x82, 0, 0],
            Form::Absolute => &[0x4C, 0, 0],
            Form::Long => &[0x5C, 0, 0, 0],
        };
        let at = self.emit(bytes);
        // A gentle program goes on behind its jumps.
        let on = self.plan.gentle || self.rng.chance(1, 2);
        self.fix(at, form, To::Alike, on);
        if !on && self.rng.chance(1, 2) {
            self.widths = self.any_widths();
        }
    }

    fn call(&mut self, current: usize) {
        let first = if self.plan.gentle { current + 1 } else { 1 };
        if first >= self.routines.len() {
            return;
        }
        let callee = first + self.rng.index(self.routines.len() - first);
        self.bring(self.routines[callee].enter);
        let long = self.routines[callee].kind == KIND_RTL;
        let (bytes, form): (&[u8], Form) = if long {
            (&[0x22, 0, 0, 0], Form::Long)
        } else {
            (&[0x20, 0, 0], Form::Absolute)
        };
        let at = self.emit(bytes);
        self.fix(at, form, To::Routine(callee), false);
        self.widths = self.routines[callee].leave;
    }

    fn item(&mut self, current: usize) {
        match self.rng.below(16) {
            0 => {
                let wanted = self.any_widths();
                self.bring(wanted);
            }
            1 | 2 => self.conditional(),
            3 => self.jump(),
            4 | 5 => self.call(current),
            6 => {
                let (push, pull) = *self.rng.pick(&PAIRS);
                self.code(push);
                self.code(pull);
            }
            7 if !self.plan.gentle => {
                let imm = self.rng.byte();
                let bits = (if imm & 0x20 != 0 { marks::M } else { 0 })
                    | (if imm & 0x10 != 0 { marks::X } else { 0 });
                if imm & 1 != 0 {
                    self.emit(&[0xE2, imm]);
                    self.widths |= bits;
                } else {
                    self.emit(&[0xC2, imm]);
                    self.widths &= !bits;
                }
            }
            _ => {
                let (straight, gentle) = straight_codes();
                let from = if self.plan.gentle { gentle } else { straight };
                let code = *self.rng.pick(from);
                self.code(code);
            }
        }
    }

    fn routine(&mut self, current: usize) {
        let Routine { kind, enter, leave } = self.routines[current];
        self.widths = enter;
        self.returns = kind | if kind == 0 { 0 } else { leave << 4 };
        self.entries.push(self.image.len());
        for _ in 0..self.plan.items {
            self.item(current);
        }
        match kind {
            KIND_RTS | KIND_RTL => {
                self.bring(leave);
                self.emit(&[if kind == KIND_RTS { 0x60 } else { 0x6B }]);
            }
            _ => {
                let stop = *self.rng.pick(&[0xDB, 0xCB]);
                self.emit(&[stop]);
            }
        }
        // Bytes between routines that no instruction covers.
        if self.rng.chance(1, 3) {
            for _ in 0..self.rng.below(4) {
                let byte = self.rng.byte();
                self.image.push(byte);
                self.marks.push(0);
            }
        }
    }

    /// A routine that returns at once, at the widths in force.
    fn returning(&mut self, long: bool) {
        let (kind, code) = if long {
            (KIND_RTL, 0x6B)
        } else {
            (KIND_RTS, 0x60)
        };
        self.returns = kind | self.widths << 4;
        self.entries.push(self.image.len());
        self.emit(&[code]);
    }

    /// The program at a drawn base, its targets written; the reset is the
    /// start at this offset.
    fn finish(mut self, lowest: u32, reset: usize) -> CheckCase {
        let base = self.base(lowest);
        for fixup in std::mem::take(&mut self.fixups) {
            self.resolve(&fixup, base);
        }
        CheckCase {
            image: self.image,
            marks: self.marks,
            base,
            reset: base + reset as u32,
        }
    }

    /// A base at which each absolute target can be reached: often across a
    /// bank's end, if there is such a one.
    fn base(&mut self, lowest: u32) -> u32 {
        let length = self.image.len();
        for _ in 0..4 {
            let base = sound_base(self.rng, length, lowest);
            if self.fixups.iter().all(|fixup| self.has_target(fixup, base)) {
                return base;
            }
        }
        one_bank_base(self.rng, length, lowest)
    }

    /// Whether a fixup has a target in reach at this base. The next address is
    /// always.
    fn has_target(&self, fixup: &Fixup, base: u32) -> bool {
        match fixup.to {
            To::Routine(index) => fixup.reaches(self.entries[index], base),
            To::Alike => fixup.goes_on || fixup.reaches(fixup.at, base),
            To::Next => true,
        }
    }

    /// Chooses a target and writes it into the operand.
    fn resolve(&mut self, fixup: &Fixup, base: u32) {
        let target = match fixup.to {
            To::Routine(index) => self.entries[index],
            To::Alike => self.alike(fixup, base),
            To::Next => fixup.after,
        };
        let distance = target as i64 - fixup.after as i64;
        let address = base + target as u32;
        match fixup.form {
            Form::Near => self.image[fixup.after - 1] = distance as u8,
            Form::Far => {
                let place = fixup.after - 2;
                self.image[place..place + 2].copy_from_slice(&(distance as u16).to_le_bytes());
            }
            Form::Absolute => {
                let place = fixup.after - 2;
                self.image[place..place + 2].copy_from_slice(&address.to_le_bytes()[..2]);
            }
            Form::Long => {
                let place = fixup.after - 3;
                self.image[place..place + 3].copy_from_slice(&address.to_le_bytes()[..3]);
            }
        }
    }

    /// A start with the mark of the instruction's own, in reach; the next
    /// one where the instruction may go on, else the instruction itself.
    fn alike(&mut self, fixup: &Fixup, base: u32) -> usize {
        for _ in 0..12 {
            let target = *self.rng.pick(&self.starts);
            let reached = fixup.reaches(target, base);
            // Few ways back, so that a gentle program comes to its end.
            let back = self.plan.gentle && target <= fixup.at && self.rng.chance(7, 8);
            if reached && !back && self.marks[target] == self.marks[fixup.at] {
                return target;
            }
        }
        if fixup.goes_on {
            fixup.after
        } else {
            fixup.at
        }
    }
}

fn routines(rng: &mut Rng, count: usize) -> Vec<Routine> {
    let main = Routine {
        kind: 0,
        enter: 0,
        leave: 0,
    };
    let widths = [0, marks::M, marks::X, marks::M | marks::X];
    let others = (1..count).map(|_| Routine {
        kind: *rng.pick(&[KIND_RTS, KIND_RTL]),
        enter: *rng.pick(&widths),
        leave: *rng.pick(&widths),
    });
    let others: Vec<Routine> = others.collect();
    std::iter::once(main).chain(others).collect()
}

fn build(rng: &mut Rng, plan: Plan) -> CheckCase {
    let routines = routines(rng, plan.routines);
    let mut builder = Builder::new(rng, plan, routines);
    for _ in 0..*builder.rng.pick(&[0, 0, 1, 5]) {
        builder.image.push(0);
        builder.marks.push(0);
    }
    for current in 0..builder.routines.len() {
        builder.routine(current);
    }
    let lowest = if plan.gentle { plan.ram as u32 } else { 0 };
    let main = builder.entries[0];
    builder.finish(lowest, main)
}

/// An accepted program, mostly small; seldom one with branches out of the
/// reach of 8 bits.
pub fn accepted(rng: &mut Rng) -> CheckCase {
    let items = match rng.below(50) {
        0 => 50 + rng.index(100),
        _ => 1 + rng.index(8),
    };
    let plan = Plan {
        routines: 1 + rng.index(4),
        items,
        gentle: false,
        ram: 0,
    };
    build(rng, plan)
}

/// An accepted program that runs for a while in the RAM it names.
pub fn gentle(rng: &mut Rng) -> Program {
    let ram = *rng.pick(&[512, 512, 768, 1024, 4096]);
    let plan = Plan {
        routines: 1 + rng.index(6),
        items: 2 + rng.index(20),
        gentle: true,
        ram,
    };
    let case = build(rng, plan);
    Program { case, ram }
}

/// For each carried code at each pair of widths, an accepted program that
/// has it there: SEP to the widths, the instruction, and what it needs.
pub fn every_code(rng: &mut Rng) -> Vec<CheckCase> {
    let mut cases = Vec::new();
    for page in 0..3 {
        for code in 0..=255 {
            for widths in [0, marks::M, marks::X, marks::M | marks::X] {
                if entry_of(page, code).carried {
                    cases.push(one_code(rng, (page, code), widths));
                }
            }
        }
    }
    cases
}

/// For each pair of widths an accepted program that comes to every carried
/// code there, one behind another.
pub fn codes_in_a_row(rng: &mut Rng) -> Vec<CheckCase> {
    let widths = [0, marks::M, marks::X, marks::M | marks::X];
    widths.map(|widths| in_a_row(rng, widths)).into()
}

fn in_a_row(rng: &mut Rng, widths: u8) -> CheckCase {
    let mut builder = Builder::new(rng, NO_PLAN, Vec::new());
    builder.bring(widths);
    for (page, code) in (0..3).flat_map(|page| (0..=255).map(move |code| (page, code))) {
        let entry = entry_of(page, code);
        if entry.carried && !ends(entry.word) {
            let long = entry.mode == Mode::ABL;
            place(
                &mut builder,
                (page, code),
                To::Next,
                To::Routine(long as usize),
            );
            builder.bring(widths);
        }
    }
    // BEQ goes to STP and over it to WIT.
    builder.emit(&[0xF0, 0x01]);
    builder.emit(&[0xDB]);
    builder.emit(&[0xCB]);
    for long in [false, true] {
        builder.returning(long);
    }
    builder.finish(0, 0)
}

fn ends(word: Word) -> bool {
    matches!(word, Word::RTS | Word::RTL | Word::STP | Word::WIT)
}

/// For a program that is put together by hand.
const NO_PLAN: Plan = Plan {
    routines: 1,
    items: 0,
    gentle: false,
    ram: 0,
};

fn one_code(rng: &mut Rng, code: Code, widths: u8) -> CheckCase {
    let word = entry_of(code.0, code.1).word;
    let mut builder = Builder::new(rng, NO_PLAN, Vec::new());
    builder.bring(widths);
    if matches!(word, Word::RTS | Word::RTL) {
        // A return stands in a routine of its own, behind the main one.
        builder.emit(&[0xDB]);
        builder.returning(word == Word::RTL);
        return builder.finish(0, 0);
    }
    place(&mut builder, code, To::Alike, To::Routine(0));
    if !ends(word) {
        builder.emit(&[0xDB]);
    }
    if word == Word::JSR {
        builder.returning(entry_of(code.0, code.1).mode == Mode::ABL);
    }
    builder.finish(0, 0)
}

/// An instruction with its targets; the widths are those after it.
fn place(builder: &mut Builder, code: Code, jump: To, call: To) {
    let at = builder.code(code);
    let entry = entry_of(code.0, code.1);
    let form = match (entry.mode, builder.image.len() - at) {
        (Mode::ABS, _) => Form::Absolute,
        (Mode::ABL, _) => Form::Long,
        (Mode::REL, 3) => Form::Far,
        _ => Form::Near,
    };
    let operand = *builder.image.last().unwrap_or(&0);
    let m = if operand & 0x20 != 0 { marks::M } else { 0 };
    let x = if operand & 0x10 != 0 { marks::X } else { 0 };
    match entry.word {
        Word::BRA | Word::JMP => builder.fix(at, form, jump, true),
        Word::JSR => builder.fix(at, form, call, false),
        Word::SEM => builder.widths |= marks::M,
        Word::CLM => builder.widths &= !marks::M,
        Word::SEP => builder.widths |= m | x,
        Word::CLP => builder.widths &= !(m | x),
        _ if matches!(entry.mode, Mode::REL | Mode::DIR_b_REL | Mode::ABS_b_REL) => {
            builder.fix(at, Form::Near, To::Alike, true);
        }
        _ => {}
    }
}
