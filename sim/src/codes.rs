//! The code map: three pages of 256 entries, read from Appendix C's three
//! instruction code tables. Lengths are the "Bytes" column of the
//! instructions' own pages (manual 4.2) with their notes on m and x.

/// Declares the words, each with its letters.
macro_rules! words {
    ($($word:ident)*) => {
        /// A mnemonic, without the L of a long form.
        #[derive(Clone, Copy, PartialEq, Eq, Debug)]
        pub enum Word {
            $($word,)*
            /// No instruction: an unassigned code, or a prefix on the plain
            /// page.
            Unassigned,
        }

        impl Word {
            /// Its letters; dashes stand for no instruction.
            pub fn mnemonic(self) -> &'static str {
                match self {
                    $(Word::$word => stringify!($word),)*
                    Word::Unassigned => "---",
                }
            }
        }
    };
}

words! {
    ADC AND ASL BBC BBS BCC BCS BEQ BMI BNE BPL BRA BRK BVC BVS
    CLB CLC CLI CLM CLP CLV CMP CPX CPY DEC DEX DEY DIV EOR INC
    INX INY JMP JSR LDA LDM LDT LDX LDY LSR MPY MVN MVP NOP ORA
    PEA PEI PER PHA PHB PHD PHG PHP PHT PHX PHY PLA PLB PLD PLP
    PLT PLX PLY PSH PUL RLA ROL ROR RTI RTL RTS SBC SEB SEC SEI
    SEM SEP STA STP STX STY TAD TAS TAX TAY TBD TBS TBX TBY TDA
    TDB TSA TSB TSX TXA TXB TXS TXY TYA TYB TYX WIT XAB
}

/// An addressing mode; the names follow Appendix B's symbols, `I` for a pair
/// of brackets and `L` for a long one.
#[derive(Clone, Copy, PartialEq, Eq, Debug)]
#[rustfmt::skip]
#[allow(non_camel_case_types)]
pub enum Mode {
    IMP, IMM, ACC, DIR, DIR_b, DIR_X, DIR_Y, I_DIR, I_DIR_X, I_DIR_Y,
    L_DIR, L_DIR_Y, ABS, ABS_b, ABS_X, ABS_Y, ABL, ABL_X, I_ABS, L_ABS,
    I_ABS_X, STK, REL, DIR_b_REL, ABS_b_REL, SR, I_SR_Y, BLK,
    /// Of an unassigned code.
    None,
}

/// The accumulator that an instruction's syntax names.
#[derive(Clone, Copy, PartialEq, Eq, Debug)]
pub enum Register {
    A,
    B,
    None,
}

/// One entry of a code page.
#[derive(Clone, Copy, PartialEq, Eq, Debug)]
pub struct Entry {
    pub word: Word,
    pub register: Register,
    pub mode: Mode,
    /// Bytes at (m, x) = 00, 01, 10, 11, a prefix counted; 0 if unassigned.
    pub lengths: [u8; 4],
    pub carried: bool,
}

impl Entry {
    /// The length at the given widths (1 for 8 bits).
    pub fn length(&self, m: bool, x: bool) -> usize {
        self.lengths[(m as usize) << 1 | x as usize] as usize
    }
}

pub type Page = [[Entry; 16]; 16];

/// The first bytes that lead to the second and third page (Appendix C, notes
/// 1 and 2).
pub const PREFIX_42: u8 = 0x42;
pub const PREFIX_89: u8 = 0x89;

use Mode::*;
use Word::*;

const NO: Entry = Entry {
    word: Unassigned,
    register: Register::None,
    mode: Mode::None,
    lengths: [0; 4],
    carried: false,
};

/// What an instruction's length grows by when it handles 16 bits.
enum Grows {
    Never,
    WithM,
    WithX,
}

/// Bytes of an instruction at m = 1 and x = 1, its prefix not counted.
const fn narrow_bytes(word: Word, mode: Mode) -> u8 {
    match (word, mode) {
        (BRK | PEI | PSH | PUL, _) => 2,
        (PEA | PER, _) => 3,
        (LDM, DIR | DIR_X) => 3,
        (LDM, _) => 4,
        (_, Mode::None) => 0,
        (_, IMP | ACC | STK) => 1,
        (_, IMM | REL | DIR | DIR_X | DIR_Y | I_DIR | I_DIR_X | I_DIR_Y) => 2,
        (_, L_DIR | L_DIR_Y | SR | I_SR_Y) => 2,
        (_, DIR_b | ABS | ABS_X | ABS_Y | I_ABS | L_ABS | I_ABS_X | BLK) => 3,
        (_, ABS_b | ABL | ABL_X | DIR_b_REL) => 4,
        (_, ABS_b_REL) => 5,
    }
}

/// The notes on lengths: immediates by m or x, bit patterns and LDM by m.
const fn growth(word: Word, mode: Mode) -> Grows {
    match (word, mode) {
        (CLP | SEP | LDT, _) => Grows::Never,
        (LDX | LDY | CPX | CPY, IMM) => Grows::WithX,
        (_, IMM | DIR_b | ABS_b | DIR_b_REL | ABS_b_REL) | (LDM, _) => Grows::WithM,
        _ => Grows::Never,
    }
}

/// 01, "Not carried".
const fn is_carried(word: Word, mode: Mode) -> bool {
    !matches!(word, BRK | RTI | PLP | PSH | PUL | MVN | MVP | MPY | DIV)
        && !matches!(mode, I_ABS | L_ABS | I_ABS_X)
}

const fn entry(word: Word, register: Register, mode: Mode, narrow: u8) -> Entry {
    let (m, x) = match growth(word, mode) {
        Grows::Never => (0, 0),
        Grows::WithM => (1, 0),
        Grows::WithX => (0, 1),
    };
    Entry {
        word,
        register,
        mode,
        lengths: [narrow + m + x, narrow + m, narrow + x, narrow],
        carried: is_carried(word, mode),
    }
}

/// Without an accumulator in its syntax.
const fn o(word: Word, mode: Mode) -> Entry {
    entry(word, Register::None, mode, narrow_bytes(word, mode))
}

/// With accumulator A in its syntax.
const fn a(word: Word, mode: Mode) -> Entry {
    entry(word, Register::A, mode, narrow_bytes(word, mode))
}

/// With accumulator B, behind 42.
const fn b(word: Word, mode: Mode) -> Entry {
    entry(word, Register::B, mode, narrow_bytes(word, mode) + 1)
}

/// Behind a prefix, without an accumulator in its syntax.
const fn p(word: Word, mode: Mode) -> Entry {
    entry(word, Register::None, mode, narrow_bytes(word, mode) + 1)
}

/// BRAL, with a 16-bit offset: the one mode of one word with two lengths.
const BRAL: Entry = entry(BRA, Register::None, REL, 3);

/// The code map: plain, behind 42, behind 89.
pub static PAGES: [Page; 3] = [PLAIN, BEHIND_42, BEHIND_89];

/// The entry of a code on a page.
pub fn entry_of(page: usize, code: u8) -> &'static Entry {
    &PAGES[page][(code >> 4) as usize][(code & 15) as usize]
}

/// The page that a first code byte leads to: 0 if it is a code itself.
pub fn page_of(first: u8) -> usize {
    match first {
        PREFIX_42 => 1,
        PREFIX_89 => 2,
        _ => 0,
    }
}

// Appendix C, instruction code table 1.
#[rustfmt::skip]
const PLAIN: Page = [
    [o(BRK,IMP), a(ORA,I_DIR_X), NO, a(ORA,SR), o(SEB,DIR_b), a(ORA,DIR), o(ASL,DIR), a(ORA,L_DIR),
     o(PHP,STK), a(ORA,IMM), a(ASL,ACC), o(PHD,STK), o(SEB,ABS_b), a(ORA,ABS), o(ASL,ABS), a(ORA,ABL)],
    [o(BPL,REL), a(ORA,I_DIR_Y), a(ORA,I_DIR), a(ORA,I_SR_Y), o(CLB,DIR_b), a(ORA,DIR_X), o(ASL,DIR_X), a(ORA,L_DIR_Y),
     o(CLC,IMP), a(ORA,ABS_Y), a(DEC,ACC), o(TAS,IMP), o(CLB,ABS_b), a(ORA,ABS_X), o(ASL,ABS_X), a(ORA,ABL_X)],
    [o(JSR,ABS), a(AND,I_DIR_X), o(JSR,ABL), a(AND,SR), o(BBS,DIR_b_REL), a(AND,DIR), o(ROL,DIR), a(AND,L_DIR),
     o(PLP,STK), a(AND,IMM), a(ROL,ACC), o(PLD,STK), o(BBS,ABS_b_REL), a(AND,ABS), o(ROL,ABS), a(AND,ABL)],
    [o(BMI,REL), a(AND,I_DIR_Y), a(AND,I_DIR), a(AND,I_SR_Y), o(BBC,DIR_b_REL), a(AND,DIR_X), o(ROL,DIR_X), a(AND,L_DIR_Y),
     o(SEC,IMP), a(AND,ABS_Y), a(INC,ACC), o(TSA,IMP), o(BBC,ABS_b_REL), a(AND,ABS_X), o(ROL,ABS_X), a(AND,ABL_X)],
    [o(RTI,IMP), a(EOR,I_DIR_X), NO, a(EOR,SR), o(MVP,BLK), a(EOR,DIR), o(LSR,DIR), a(EOR,L_DIR),
     o(PHA,STK), a(EOR,IMM), a(LSR,ACC), o(PHG,STK), o(JMP,ABS), a(EOR,ABS), o(LSR,ABS), a(EOR,ABL)],
    [o(BVC,REL), a(EOR,I_DIR_Y), a(EOR,I_DIR), a(EOR,I_SR_Y), o(MVN,BLK), a(EOR,DIR_X), o(LSR,DIR_X), a(EOR,L_DIR_Y),
     o(CLI,IMP), a(EOR,ABS_Y), o(PHY,STK), o(TAD,IMP), o(JMP,ABL), a(EOR,ABS_X), o(LSR,ABS_X), a(EOR,ABL_X)],
    [o(RTS,IMP), a(ADC,I_DIR_X), o(PER,STK), a(ADC,SR), o(LDM,DIR), a(ADC,DIR), o(ROR,DIR), a(ADC,L_DIR),
     o(PLA,STK), a(ADC,IMM), a(ROR,ACC), o(RTL,IMP), o(JMP,I_ABS), a(ADC,ABS), o(ROR,ABS), a(ADC,ABL)],
    [o(BVS,REL), a(ADC,I_DIR_Y), a(ADC,I_DIR), a(ADC,I_SR_Y), o(LDM,DIR_X), a(ADC,DIR_X), o(ROR,DIR_X), a(ADC,L_DIR_Y),
     o(SEI,IMP), a(ADC,ABS_Y), o(PLY,STK), o(TDA,IMP), o(JMP,I_ABS_X), a(ADC,ABS_X), o(ROR,ABS_X), a(ADC,ABL_X)],
    [o(BRA,REL), a(STA,I_DIR_X), BRAL, a(STA,SR), o(STY,DIR), a(STA,DIR), o(STX,DIR), a(STA,L_DIR),
     o(DEY,IMP), NO, o(TXA,IMP), o(PHT,STK), o(STY,ABS), a(STA,ABS), o(STX,ABS), a(STA,ABL)],
    [o(BCC,REL), a(STA,I_DIR_Y), a(STA,I_DIR), a(STA,I_SR_Y), o(STY,DIR_X), a(STA,DIR_X), o(STX,DIR_Y), a(STA,L_DIR_Y),
     o(TYA,IMP), a(STA,ABS_Y), o(TXS,IMP), o(TXY,IMP), o(LDM,ABS), a(STA,ABS_X), o(LDM,ABS_X), a(STA,ABL_X)],
    [o(LDY,IMM), a(LDA,I_DIR_X), o(LDX,IMM), a(LDA,SR), o(LDY,DIR), a(LDA,DIR), o(LDX,DIR), a(LDA,L_DIR),
     o(TAY,IMP), a(LDA,IMM), o(TAX,IMP), o(PLT,STK), o(LDY,ABS), a(LDA,ABS), o(LDX,ABS), a(LDA,ABL)],
    [o(BCS,REL), a(LDA,I_DIR_Y), a(LDA,I_DIR), a(LDA,I_SR_Y), o(LDY,DIR_X), a(LDA,DIR_X), o(LDX,DIR_Y), a(LDA,L_DIR_Y),
     o(CLV,IMP), a(LDA,ABS_Y), o(TSX,IMP), o(TYX,IMP), o(LDY,ABS_X), a(LDA,ABS_X), o(LDX,ABS_Y), a(LDA,ABL_X)],
    [o(CPY,IMM), a(CMP,I_DIR_X), o(CLP,IMM), a(CMP,SR), o(CPY,DIR), a(CMP,DIR), o(DEC,DIR), a(CMP,L_DIR),
     o(INY,IMP), a(CMP,IMM), o(DEX,IMP), o(WIT,IMP), o(CPY,ABS), a(CMP,ABS), o(DEC,ABS), a(CMP,ABL)],
    [o(BNE,REL), a(CMP,I_DIR_Y), a(CMP,I_DIR), a(CMP,I_SR_Y), o(PEI,STK), a(CMP,DIR_X), o(DEC,DIR_X), a(CMP,L_DIR_Y),
     o(CLM,IMP), a(CMP,ABS_Y), o(PHX,STK), o(STP,IMP), o(JMP,L_ABS), a(CMP,ABS_X), o(DEC,ABS_X), a(CMP,ABL_X)],
    [o(CPX,IMM), a(SBC,I_DIR_X), o(SEP,IMM), a(SBC,SR), o(CPX,DIR), a(SBC,DIR), o(INC,DIR), a(SBC,L_DIR),
     o(INX,IMP), a(SBC,IMM), o(NOP,IMP), o(PSH,STK), o(CPX,ABS), a(SBC,ABS), o(INC,ABS), a(SBC,ABL)],
    [o(BEQ,REL), a(SBC,I_DIR_Y), a(SBC,I_DIR), a(SBC,I_SR_Y), o(PEA,STK), a(SBC,DIR_X), o(INC,DIR_X), a(SBC,L_DIR_Y),
     o(SEM,IMP), a(SBC,ABS_Y), o(PLX,STK), o(PUL,STK), o(JSR,I_ABS_X), a(SBC,ABS_X), o(INC,ABS_X), a(SBC,ABL_X)],
];

// Appendix C, instruction code table 2 (first word 42).
#[rustfmt::skip]
const BEHIND_42: Page = [
    [NO, b(ORA,I_DIR_X), NO, b(ORA,SR), NO, b(ORA,DIR), NO, b(ORA,L_DIR),
     NO, b(ORA,IMM), b(ASL,ACC), NO, NO, b(ORA,ABS), NO, b(ORA,ABL)],
    [NO, b(ORA,I_DIR_Y), b(ORA,I_DIR), b(ORA,I_SR_Y), NO, b(ORA,DIR_X), NO, b(ORA,L_DIR_Y),
     NO, b(ORA,ABS_Y), b(DEC,ACC), p(TBS,IMP), NO, b(ORA,ABS_X), NO, b(ORA,ABL_X)],
    [NO, b(AND,I_DIR_X), NO, b(AND,SR), NO, b(AND,DIR), NO, b(AND,L_DIR),
     NO, b(AND,IMM), b(ROL,ACC), NO, NO, b(AND,ABS), NO, b(AND,ABL)],
    [NO, b(AND,I_DIR_Y), b(AND,I_DIR), b(AND,I_SR_Y), NO, b(AND,DIR_X), NO, b(AND,L_DIR_Y),
     NO, b(AND,ABS_Y), b(INC,ACC), p(TSB,IMP), NO, b(AND,ABS_X), NO, b(AND,ABL_X)],
    [NO, b(EOR,I_DIR_X), NO, b(EOR,SR), NO, b(EOR,DIR), NO, b(EOR,L_DIR),
     p(PHB,STK), b(EOR,IMM), b(LSR,ACC), NO, NO, b(EOR,ABS), NO, b(EOR,ABL)],
    [NO, b(EOR,I_DIR_Y), b(EOR,I_DIR), b(EOR,I_SR_Y), NO, b(EOR,DIR_X), NO, b(EOR,L_DIR_Y),
     NO, b(EOR,ABS_Y), NO, p(TBD,IMP), NO, b(EOR,ABS_X), NO, b(EOR,ABL_X)],
    [NO, b(ADC,I_DIR_X), NO, b(ADC,SR), NO, b(ADC,DIR), NO, b(ADC,L_DIR),
     p(PLB,STK), b(ADC,IMM), b(ROR,ACC), NO, NO, b(ADC,ABS), NO, b(ADC,ABL)],
    [NO, b(ADC,I_DIR_Y), b(ADC,I_DIR), b(ADC,I_SR_Y), NO, b(ADC,DIR_X), NO, b(ADC,L_DIR_Y),
     NO, b(ADC,ABS_Y), NO, p(TDB,IMP), NO, b(ADC,ABS_X), NO, b(ADC,ABL_X)],
    [NO, b(STA,I_DIR_X), NO, b(STA,SR), NO, b(STA,DIR), NO, b(STA,L_DIR),
     NO, NO, p(TXB,IMP), NO, NO, b(STA,ABS), NO, b(STA,ABL)],
    [NO, b(STA,I_DIR_Y), b(STA,I_DIR), b(STA,I_SR_Y), NO, b(STA,DIR_X), NO, b(STA,L_DIR_Y),
     p(TYB,IMP), b(STA,ABS_Y), NO, NO, NO, b(STA,ABS_X), NO, b(STA,ABL_X)],
    [NO, b(LDA,I_DIR_X), NO, b(LDA,SR), NO, b(LDA,DIR), NO, b(LDA,L_DIR),
     p(TBY,IMP), b(LDA,IMM), p(TBX,IMP), NO, NO, b(LDA,ABS), NO, b(LDA,ABL)],
    [NO, b(LDA,I_DIR_Y), b(LDA,I_DIR), b(LDA,I_SR_Y), NO, b(LDA,DIR_X), NO, b(LDA,L_DIR_Y),
     NO, b(LDA,ABS_Y), NO, NO, NO, b(LDA,ABS_X), NO, b(LDA,ABL_X)],
    [NO, b(CMP,I_DIR_X), NO, b(CMP,SR), NO, b(CMP,DIR), NO, b(CMP,L_DIR),
     NO, b(CMP,IMM), NO, NO, NO, b(CMP,ABS), NO, b(CMP,ABL)],
    [NO, b(CMP,I_DIR_Y), b(CMP,I_DIR), b(CMP,I_SR_Y), NO, b(CMP,DIR_X), NO, b(CMP,L_DIR_Y),
     NO, b(CMP,ABS_Y), NO, NO, NO, b(CMP,ABS_X), NO, b(CMP,ABL_X)],
    [NO, b(SBC,I_DIR_X), NO, b(SBC,SR), NO, b(SBC,DIR), NO, b(SBC,L_DIR),
     NO, b(SBC,IMM), NO, NO, NO, b(SBC,ABS), NO, b(SBC,ABL)],
    [NO, b(SBC,I_DIR_Y), b(SBC,I_DIR), b(SBC,I_SR_Y), NO, b(SBC,DIR_X), NO, b(SBC,L_DIR_Y),
     NO, b(SBC,ABS_Y), NO, NO, NO, b(SBC,ABS_X), NO, b(SBC,ABL_X)],
];

// Appendix C, instruction code table 3 (first word 89).
#[rustfmt::skip]
const BEHIND_89: Page = [
    [NO, p(MPY,I_DIR_X), NO, p(MPY,SR), NO, p(MPY,DIR), NO, p(MPY,L_DIR),
     NO, p(MPY,IMM), NO, NO, NO, p(MPY,ABS), NO, p(MPY,ABL)],
    [NO, p(MPY,I_DIR_Y), p(MPY,I_DIR), p(MPY,I_SR_Y), NO, p(MPY,DIR_X), NO, p(MPY,L_DIR_Y),
     NO, p(MPY,ABS_Y), NO, NO, NO, p(MPY,ABS_X), NO, p(MPY,ABL_X)],
    [NO, p(DIV,I_DIR_X), NO, p(DIV,SR), NO, p(DIV,DIR), NO, p(DIV,L_DIR),
     p(XAB,IMP), p(DIV,IMM), NO, NO, NO, p(DIV,ABS), NO, p(DIV,ABL)],
    [NO, p(DIV,I_DIR_Y), p(DIV,I_DIR), p(DIV,I_SR_Y), NO, p(DIV,DIR_X), NO, p(DIV,L_DIR_Y),
     NO, p(DIV,ABS_Y), NO, NO, NO, p(DIV,ABS_X), NO, p(DIV,ABL_X)],
    [NO, NO, NO, NO, NO, NO, NO, NO, NO, p(RLA,IMM), NO, NO, NO, NO, NO, NO],
    [NO; 16], [NO; 16], [NO; 16], [NO; 16], [NO; 16], [NO; 16], [NO; 16],
    [NO, NO, p(LDT,IMM), NO, NO, NO, NO, NO, NO, NO, NO, NO, NO, NO, NO, NO],
    [NO; 16], [NO; 16], [NO; 16],
];
