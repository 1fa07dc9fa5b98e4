//! Wrong machines: operations, flags, addresses and flow.

use crate::stand_in::{put, Made, Twist};
use sim7700::alu::{self, Width, C, D, M, N, V, X, Z};
use sim7700::codes::{Mode, Register, Word};
use sim7700::state::Registers;

pub const FAULTS: [(&str, Twist); 34] = [
    ("X's high byte cleared when x is set", x_cleared),
    ("an index's high byte cleared by INX under x=1", inx_clears),
    ("branch offset from the branch", branch_from_itself),
    ("BRAL not taken", bral_goes_on),
    ("BBS never taken", bbs_goes_on),
    ("V of SBC without the borrow", v_without_borrow),
    ("V by CMP", v_by_cmp),
    ("RLA through C", rla_through_c),
    ("RLA sets flags", rla_sets_flags),
    ("PLT without flags", plt_without_flags),
    ("PLD with flags", pld_with_flags),
    ("PHP of one byte", php_of_a_byte),
    ("S + nn wraps", stack_relative_wraps),
    ("DPR + nn wraps", direct_wraps),
    ("an address wraps at FFFFFF", long_wraps),
    ("the whole index under x=1", whole_index),
    ("DEC at the wrong width", dec_of_16_bits),
    ("TXA with 00 above", txa_clears),
    ("LDX with 00 above", |made| clears(made, Word::LDX)),
    ("PLY with 00 above", |made| clears(made, Word::PLY)),
    ("TAX leaves the byte above", |made| leaves(made, Word::TAX)),
    ("TAY leaves the byte above", |made| leaves(made, Word::TAY)),
    ("TBX leaves the byte above", |made| leaves(made, Word::TBX)),
    ("TBY leaves the byte above", |made| leaves(made, Word::TBY)),
    ("TSX leaves the byte above", |made| leaves(made, Word::TSX)),
    ("TXY leaves the byte above", |made| leaves(made, Word::TXY)),
    ("TYX leaves the byte above", |made| leaves(made, Word::TYX)),
    ("TAD by m", tad_by_m),
    ("XAB of 16 bits", xab_of_16_bits),
    ("LDX immediate by m", ldx_by_m),
    ("D of no account", decimal_ignored),
    ("PC wraps in its bank", pc_wraps),
    ("SEP clears the high byte of PS", sep_clears),
    ("the state untouched", untouched),
];

/// At the moment when x becomes 1.
fn x_cleared(made: &mut Made) {
    if made.number() == 0 && !made.before().x_flag() && made.after().x_flag() {
        made.put(|r| r.x &= 0xFF);
    }
}

fn inx_clears(made: &mut Made) {
    if made.does(Word::INX) && made.before().x_flag() {
        made.put(|r| r.x &= 0xFF);
    }
}

/// LDX or PLY clears the high byte under x=1.
fn clears(made: &mut Made, word: Word) {
    if made.does(word) && made.before().x_flag() {
        made.put(|r| match word {
            Word::LDX => r.x &= 0xFF,
            _ => r.y &= 0xFF,
        });
    }
}

/// Puts the high bytes back behind a transfer under x=1.
fn leaves(made: &mut Made, word: Word) {
    if made.does(word) && made.before().x_flag() {
        let before = made.before();
        made.put(|r| {
            r.x = Width::Byte.replace(before.x, r.x);
            r.y = Width::Byte.replace(before.y, r.y);
        });
    }
}

/// The address behind the instruction.
fn next(made: &Made) -> Option<u32> {
    let length = made.instruction()?.length as u32;
    Some((made.before().pc + length) & 0xFF_FFFF)
}

fn branch_from_itself(made: &mut Made) {
    let Some(it) = made.instruction() else { return };
    let branch = matches!(it.entry.mode, Mode::REL | Mode::DIR_b_REL | Mode::ABS_b_REL);
    if made.number() == 0 && branch && Some(made.after().pc) != next(made) {
        made.put(|r| r.pc = r.pc.wrapping_sub(it.length as u32) & 0xFF_FFFF);
    }
}

fn bral_goes_on(made: &mut Made) {
    let code = made.instruction().map(|it| (it.page, it.code));
    if made.number() == 0 && code == Some((0, 0x82)) {
        let next = next(made).unwrap_or(0);
        made.put(|r| r.pc = next);
    }
}

fn bbs_goes_on(made: &mut Made) {
    if made.does(Word::BBS) {
        let next = next(made).unwrap_or(0);
        made.put(|r| r.pc = next);
    }
}

fn accumulator(made: &Made, registers: Registers) -> u16 {
    let b = made.instruction().map(|it| it.entry.register) == Some(Register::B);
    if b {
        registers.b
    } else {
        registers.a
    }
}

fn v_without_borrow(made: &mut Made) {
    if !made.does(Word::SBC) {
        return;
    }
    let (before, after) = (made.before(), made.after());
    let width = Width::of(before.m());
    let left = accumulator(made, before);
    let borrow = 1 - (before.ps & C);
    let right = left
        .wrapping_sub(accumulator(made, after))
        .wrapping_sub(borrow);
    let plain = left.wrapping_sub(right);
    let overflow = (left ^ right) & (left ^ plain) & width.sign() != 0;
    made.put(|r| r.ps = alu::put(r.ps, V, overflow));
}

fn v_by_cmp(made: &mut Made) {
    if made.does(Word::CMP) {
        made.put(|r| r.ps = alu::put(r.ps, V, r.ps & N != 0));
    }
}

fn rla_through_c(made: &mut Made) {
    if !made.does(Word::RLA) {
        return;
    }
    let before = made.before();
    let width = Width::of(before.m());
    let count = match width {
        Width::Byte => made.operand().map(|places| made.image[places.start] as u16),
        Width::Word => made.operand_word(),
    };
    let (mut value, mut carry) = (before.a & width.mask(), before.ps & C);
    for _ in 0..count.unwrap_or(0) {
        let out = (value & width.sign() != 0) as u16;
        value = (value << 1 | carry) & width.mask();
        carry = out;
    }
    made.put(|r| r.a = width.replace(r.a, value));
}

fn rla_sets_flags(made: &mut Made) {
    if made.does(Word::RLA) {
        let width = Width::of(made.before().m());
        made.put(|r| r.ps = alu::sign_zero(r.ps, width, r.a));
    }
}

fn plt_without_flags(made: &mut Made) {
    if made.does(Word::PLT) {
        let before = made.before().ps;
        made.put(|r| r.ps = r.ps & !(N | Z) | before & (N | Z));
    }
}

fn pld_with_flags(made: &mut Made) {
    if made.does(Word::PLD) {
        made.put(|r| r.ps = alu::sign_zero(r.ps, Width::Word, r.dpr));
    }
}

fn php_of_a_byte(made: &mut Made) {
    if made.does(Word::PHP) {
        let s = made.before().s as usize;
        made.ram.copy_from_slice(&made.given_ram);
        made.ram[s] = made.before().ps as u8;
        made.put(|r| r.s = r.s.wrapping_add(1));
    }
}

/// The mode, with the place of the operand and its first byte.
fn by_byte(made: &Made) -> Option<(Mode, usize, u16)> {
    let first = made.operand()?.start;
    let mode = made.instruction()?.entry.mode;
    Some((mode, first, *made.image.get(first)? as u16))
}

fn stack_relative_wraps(made: &mut Made) {
    let Some((Mode::SR | Mode::I_SR_Y, first, by)) = by_byte(made) else {
        return;
    };
    let s = made.before().s;
    if s.checked_add(by).is_none() {
        made.instead(|image, state| {
            image[first] = s.wrapping_add(by) as u8;
            put(state, |r| r.s = 0);
        });
        made.put(|r| r.s = s);
    }
}

fn direct_wraps(made: &mut Made) {
    let Some((Mode::DIR | Mode::I_DIR | Mode::L_DIR, first, by)) = by_byte(made) else {
        return;
    };
    let dpr = made.before().dpr;
    if dpr.checked_add(by).is_none() {
        made.instead(|image, state| {
            image[first] = dpr.wrapping_add(by) as u8;
            put(state, |r| r.dpr = 0);
        });
        made.put(|r| r.dpr = dpr);
    }
}

fn long_wraps(made: &mut Made) {
    let Some((Mode::ABL_X, first, _)) = by_byte(made) else {
        return;
    };
    let before = made.before();
    let index = before.x & Width::of(before.x_flag()).mask();
    let bytes = &made.image[first..first + 3];
    let address = u32::from_le_bytes([bytes[0], bytes[1], bytes[2], 0]) + index as u32;
    if address > 0xFF_FFFF {
        made.instead(|image, state| {
            image[first..first + 3].copy_from_slice(&address.to_le_bytes()[..3]);
            put(state, |r| r.x = 0);
        });
        made.put(|r| r.x = before.x);
    }
}

fn whole_index(made: &mut Made) {
    let Some((Mode::ABS_X, first, _)) = by_byte(made) else {
        return;
    };
    let high = (made.before().x >> 8) as u8;
    if made.before().x_flag() {
        made.instead(|image, _| image[first + 1] = image[first + 1].wrapping_add(high));
    }
}

fn dec_of_16_bits(made: &mut Made) {
    let Some(it) = made.instruction() else { return };
    if made.does(Word::DEC) && it.entry.mode == Mode::ACC && it.page == 0 {
        let a = made.before().a;
        made.put(|r| r.a = a.wrapping_sub(1));
    }
}

fn txa_clears(made: &mut Made) {
    let before = |flag| made.number() == 0 && made.before().ps & flag != 0;
    if before(X) && !before(M) && made.does(Word::TXA) {
        made.put(|r| r.a &= 0xFF);
    }
}

fn tad_by_m(made: &mut Made) {
    if made.does(Word::TAD) {
        let before = made.before();
        made.put(|r| r.dpr = Width::of(before.m()).replace(before.dpr, before.a));
    }
}

fn xab_of_16_bits(made: &mut Made) {
    if made.does(Word::XAB) {
        let before = made.before();
        made.put(|r| (r.a, r.b) = (before.b, before.a));
    }
}

fn ldx_by_m(made: &mut Made) {
    let code = made.instruction().map(|it| (it.page, it.code));
    if code == Some((0, 0xA2)) {
        let narrow = made.before().x_flag();
        made.instead(|_, state| put(state, |r| r.ps = alu::put(r.ps, X, r.m())));
        made.put(|r| r.ps = alu::put(r.ps, X, narrow));
    }
}

fn decimal_ignored(made: &mut Made) {
    if made.number() == 27 {
        made.instead(|_, state| put(state, |r| r.ps &= !D));
        made.put(|r| r.ps |= D);
    }
}

fn pc_wraps(made: &mut Made) {
    if made.number() == 0 && Some(made.after().pc) == next(made) {
        let bank = made.before().pc & 0xFF_0000;
        made.put(|r| r.pc = bank | r.pc & 0xFFFF);
    }
}

fn sep_clears(made: &mut Made) {
    if made.does(Word::SEP) {
        made.put(|r| r.ps &= 0xFF);
    }
}

fn untouched(made: &mut Made) {
    made.state.copy_from_slice(&made.given);
}
