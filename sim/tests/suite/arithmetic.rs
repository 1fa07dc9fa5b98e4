//! Manual 4.1.2: arithmetic, logic, comparison, shifts, at both widths and
//! with both accumulators, by the words of the instructions' pages.

use crate::common::*;
use sim7700::state::Registers;

const EDGES: [u16; 14] = [
    0, 1, 2, 0x7F, 0x80, 0x81, 0xFE, 0xFF, 0x100, 0x7FFF, 0x8000, 0x8001, 0xFF00, 0xFFFF,
];

fn mask(byte: bool) -> u16 {
    if byte {
        0xFF
    } else {
        0xFFFF
    }
}

/// The value as a signed number of the width.
fn signed(byte: bool, value: u16) -> i32 {
    if byte {
        value as u8 as i8 as i32
    } else {
        value as i16 as i32
    }
}

/// An immediate instruction for A and, behind 42, for B: the accumulator
/// must become `result` under the width, and PS must be as said.
fn immediate(code: u8, ps: u16, left: u16, right: u16, result: u16, after: u16) {
    let byte = ps & M != 0;
    let [low, high] = right.to_le_bytes();
    let stored = left & !mask(byte) | result & mask(byte);
    let mut bytes = vec![code, low];
    if !byte {
        bytes.push(high);
    }
    let a = |a: u16, ps: u16| Registers { a, ..with(ps) };
    registers_after(&bytes, a(left, ps), a(stored, after));
    bytes.insert(0, 0x42);
    let b = |b: u16, ps: u16| Registers { b, ..with(ps) };
    registers_after(&bytes, b(left, ps), b(stored, after));
}

/// Runs over edge values at both widths, each flag set and clear.
fn over_edges(mut each: impl FnMut(u16, u16, u16)) {
    for left in EDGES {
        for right in EDGES {
            for ps in [0, C, M, M | C, X | I | V, M | X | N | V | Z | C, 0x7F7 & !M] {
                each(ps, left, right);
            }
        }
    }
}

#[test]
fn adc_adds_with_carry() {
    over_edges(|ps, left, right| {
        let byte = ps & M != 0;
        let (l, r) = ((left & mask(byte)) as i32, (right & mask(byte)) as i32);
        let sum = l + r + (ps & C) as i32;
        let range = signed(byte, left) + signed(byte, right) + (ps & C) as i32;
        let (limit, most) = if byte { (128, 255) } else { (32768, 65535) };
        let overflow = !(-limit..limit).contains(&range);
        let mut after = ps & !(N | V | Z | C) | nz(byte, sum as u16);
        after |= if overflow { V } else { 0 };
        after |= if sum > most { C } else { 0 };
        immediate(0x69, ps, left, right, sum as u16, after);
    });
}

#[test]
fn sbc_subtracts_with_borrow() {
    over_edges(|ps, left, right| {
        let byte = ps & M != 0;
        let borrow = 1 - (ps & C) as i32;
        let (l, r) = ((left & mask(byte)) as i32, (right & mask(byte)) as i32);
        let difference = l - r - borrow;
        let range = signed(byte, left) - signed(byte, right) - borrow;
        let limit = if byte { 128 } else { 32768 };
        let mut after = ps & !(N | V | Z | C) | nz(byte, difference as u16);
        after |= if (-limit..limit).contains(&range) {
            0
        } else {
            V
        };
        after |= if difference >= 0 { C } else { 0 };
        immediate(0xE9, ps, left, right, difference as u16, after);
    });
}

#[test]
fn logic_and_load_set_n_and_z() {
    over_edges(|ps, left, right| {
        let results = [
            (0x29, left & right),
            (0x49, left ^ right),
            (0x09, left | right),
            (0xA9, right),
        ];
        for (code, result) in results {
            let after = ps & !(N | Z) | nz(ps & M != 0, result);
            immediate(code, ps, left, right, result, after);
        }
    });
}

#[test]
fn cmp_leaves_the_accumulator_and_v() {
    over_edges(|ps, left, right| {
        let byte = ps & M != 0;
        let (l, r) = (left & mask(byte), right & mask(byte));
        let mut after = ps & !(N | Z | C) | nz(byte, l.wrapping_sub(r));
        after |= if l >= r { C } else { 0 };
        immediate(0xC9, ps, left, right, left, after);
    });
}

#[test]
fn cpx_and_cpy_compare_at_the_index_length() {
    over_edges(|ps, left, right| {
        // The widths of data and index are set against each other.
        let ps = if ps & M != 0 { ps & !X } else { ps | X };
        let byte = ps & X != 0;
        let (l, r) = (left & mask(byte), right & mask(byte));
        let mut after = ps & !(N | Z | C) | nz(byte, l.wrapping_sub(r));
        after |= if l >= r { C } else { 0 };
        let [low, high] = right.to_le_bytes();
        let operand: &[u8] = if byte { &[low] } else { &[low, high] };
        let x = |ps| Registers {
            x: left,
            y: 0x5555,
            ..with(ps)
        };
        registers_after(&[&[0xE0], operand].concat(), x(ps), x(after));
        let y = |ps| Registers {
            y: left,
            x: 0x5555,
            ..with(ps)
        };
        registers_after(&[&[0xC0], operand].concat(), y(ps), y(after));
    });
}

/// Result and PS of a shift, rotation, increment or decrement.
fn one_operand(name: &str, ps: u16, value: u16) -> (u16, u16) {
    let byte = ps & M != 0;
    let v = value & mask(byte);
    let top = if byte { 0x80 } else { 0x8000 };
    let carry = ps & C;
    let (result, out) = match name {
        "ASL" => (v << 1, Some(v & top != 0)),
        "LSR" => (v >> 1, Some(v & 1 != 0)),
        "ROL" => (v << 1 | carry, Some(v & top != 0)),
        "ROR" => ((v >> 1) | (carry * top), Some(v & 1 != 0)),
        "INC" => (v.wrapping_add(1), None),
        _ => (v.wrapping_sub(1), None),
    };
    let kept = match out {
        Some(out) => ps & !(N | Z | C) | out as u16,
        None => ps & !(N | Z),
    };
    (result & mask(byte), kept | nz(byte, result))
}

const ONE_OPERAND: [(&str, u8, u8, u8, u8, u8); 6] = [
    ("ASL", 0x0A, 0x06, 0x16, 0x0E, 0x1E),
    ("LSR", 0x4A, 0x46, 0x56, 0x4E, 0x5E),
    ("ROL", 0x2A, 0x26, 0x36, 0x2E, 0x3E),
    ("ROR", 0x6A, 0x66, 0x76, 0x6E, 0x7E),
    ("INC", 0x3A, 0xE6, 0xF6, 0xEE, 0xFE),
    ("DEC", 0x1A, 0xC6, 0xD6, 0xCE, 0xDE),
];

#[test]
fn accumulators_shift_rotate_and_count() {
    for (name, code, ..) in ONE_OPERAND {
        over_edges(|ps, value, _| {
            let (result, after) = one_operand(name, ps, value);
            let stored = value & !mask(ps & M != 0) | result;
            let a = |a, ps| Registers { a, ..with(ps) };
            registers_after(&[code], a(value, ps), a(stored, after));
            let b = |b, ps| Registers { b, ..with(ps) };
            registers_after(&[0x42, code], b(value, ps), b(stored, after));
        });
    }
}

#[test]
fn memory_shifts_rotates_and_counts() {
    for (name, _, direct, direct_x, absolute, absolute_x) in ONE_OPERAND {
        let codes: [&[u8]; 4] = [
            &[direct, 0x21],
            &[direct_x, 0x11],
            &[absolute, 0x21, 0],
            &[absolute_x, 0x11, 0],
        ];
        over_edges(|ps, value, _| {
            for code in codes {
                let mut bench = Bench::new(code);
                bench.r.ps = ps;
                bench.r.x = 0x10;
                bench.ram[0x20..0x24].copy_from_slice(&[0xAA; 4]);
                bench.ram[0x21..0x23].copy_from_slice(&value.to_le_bytes());
                let mut wanted = bench.clone();
                let (result, after) = one_operand(name, ps, value);
                let [low, high] = result.to_le_bytes();
                wanted.ram[0x21] = low;
                if ps & M == 0 {
                    wanted.ram[0x22] = high;
                }
                wanted.r.ps = after;
                wanted.r.pc += code.len() as u32;
                bench.step();
                assert_eq!(bench, wanted, "{name}");
            }
        });
    }
}

#[test]
fn index_registers_count_at_their_length() {
    over_edges(|ps, value, _| {
        let ps = if ps & M != 0 { ps & !X } else { ps | X };
        let byte = ps & X != 0;
        let steps = [(0xE8, 0xC8, 1u16), (0xCA, 0x88, 0xFFFF)];
        for (on_x, on_y, by) in steps {
            let result = value.wrapping_add(by);
            let stored = value & !mask(byte) | result & mask(byte);
            let after = ps & !(N | Z) | nz(byte, result);
            let x = |x, ps| Registers { x, ..with(ps) };
            registers_after(&[on_x], x(value, ps), x(stored, after));
            let y = |y, ps| Registers { y, ..with(ps) };
            registers_after(&[on_y], y(value, ps), y(stored, after));
        }
    });
}

/// RLA: n bits to the left within A's length, no flag affected.
#[test]
fn rla_rotates_by_any_count() {
    for ps in [0, M, 0x7FF & !M & !D, 0x7FF & !D] {
        let byte = ps & M != 0;
        for value in EDGES.into_iter().chain([0x1234]) {
            for count in [0u16, 1, 3, 7, 8, 9, 15, 16, 17, 255, 256, 0x8001, 0xFFFF] {
                let mut rotated = value;
                for _ in 0..if byte { count & 0xFF } else { count } {
                    let top = if byte { 0x80 } else { 0x8000 };
                    let one = (rotated & top != 0) as u16;
                    rotated = rotated & !mask(byte) | (rotated << 1 | one) & mask(byte);
                }
                let [low, high] = count.to_le_bytes();
                let code: &[u8] = if byte {
                    &[0x89, 0x49, low]
                } else {
                    &[0x89, 0x49, low, high]
                };
                let a = |a| Registers {
                    a,
                    b: 0x1234,
                    ..with(ps)
                };
                registers_after(code, a(value), a(rotated));
            }
        }
    }
}
