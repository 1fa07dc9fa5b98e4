//! Manual 4.1.3 and 4.1.4: flags, SEP and CLP, SEB and CLB; LDM.

use crate::common::*;

#[test]
fn flag_instructions_touch_one_flag() {
    let cases = [
        (0x18, C, false),
        (0x38, C, true),
        (0x58, I, false),
        (0x78, I, true),
        (0xD8, M, false),
        (0xF8, M, true),
        (0xB8, V, false),
    ];
    for (code, flag, on) in cases {
        for ps in [0, 0x7FF, 0x555, 0x2AA] {
            let after = if on { ps | flag } else { ps & !flag };
            registers_after(&[code], with(ps), with(after));
        }
    }
}

/// SEP and CLP: PSL alone, every bit; IPL is not affected.
#[test]
fn sep_and_clp_name_bits_of_the_low_byte() {
    for ps in [0, 0x700, 0x7FF, 0x2AA] {
        for bits in 0..=0xFFu8 {
            let named = bits as u16;
            registers_after(&[0xE2, bits], with(ps), with(ps | named));
            registers_after(&[0xC2, bits], with(ps), with(ps & !named));
        }
    }
}

/// PS bits by their places in manual 2.9's figure: m is bit 5, x bit 4.
#[test]
fn widths_are_bits_5_and_4() {
    let mut bench = Bench::new(&[0xE2, 0x20, 0xA9, 0x11, 0xE2, 0x10, 0xA2, 0x22]);
    assert_eq!(bench.run(4), (0, 4, 0));
    assert_eq!((bench.r.a, bench.r.x, bench.r.pc), (0x11, 0x22, 0xC008));
}

/// Direct and absolute forms of an instruction on the byte or word at 0021.
fn forms(direct: u8, absolute: u8, pattern: &[u8]) -> [Vec<u8>; 2] {
    [
        [&[direct, 0x21], pattern].concat(),
        [&[absolute, 0x21, 0x00], pattern].concat(),
    ]
}

fn pattern(ps: u16, value: u16) -> Vec<u8> {
    let bytes = value.to_le_bytes();
    bytes[..if ps & M != 0 { 1 } else { 2 }].to_vec()
}

#[test]
fn seb_and_clb_change_named_bits_only() {
    for ps in [0, M, 0x7FF & !M, 0x7FF] {
        for bits in [0u16, 1, 0x80, 0xFF, 0x100, 0x5AA5, 0x8000, 0xFFFF] {
            let set = forms(0x04, 0x0C, &pattern(ps, bits)).map(|code| (code, true));
            let clear = forms(0x14, 0x1C, &pattern(ps, bits)).map(|code| (code, false));
            for (code, sets) in set.into_iter().chain(clear) {
                let mut bench = Bench::new(&code);
                bench.r.ps = ps;
                bench.ram[0x20..0x24].copy_from_slice(&[0x3C, 0xC3, 0x66, 0x99]);
                let mut wanted = bench.clone();
                for (place, byte) in pattern(ps, bits).into_iter().enumerate() {
                    let at = &mut wanted.ram[0x21 + place];
                    *at = if sets { *at | byte } else { *at & !byte };
                }
                wanted.r.pc += code.len() as u32;
                bench.step();
                assert_eq!(bench, wanted);
            }
        }
    }
}

/// LDM in its four modes: an immediate into memory, no flag affected.
#[test]
fn ldm_stores_its_immediate() {
    for ps in [0, M, X, M | X, 0x7FF] {
        for value in [0u16, 0x1234, 0xFFFF] {
            let immediate = pattern(ps, value);
            let codes = [
                [&[0x64, 0x21], &immediate[..]].concat(),
                [&[0x74, 0x11], &immediate[..]].concat(),
                [&[0x9C, 0x21, 0], &immediate[..]].concat(),
                [&[0x9E, 0x11, 0], &immediate[..]].concat(),
            ];
            for code in codes {
                let mut bench = Bench::new(&code);
                bench.r.ps = ps;
                bench.r.x = 0x10;
                bench.ram[0x20..0x24].copy_from_slice(&[0xAA; 4]);
                let mut wanted = bench.clone();
                wanted.ram[0x21..0x21 + immediate.len()].copy_from_slice(&immediate);
                wanted.r.pc += code.len() as u32;
                bench.step();
                assert_eq!(bench, wanted);
            }
        }
    }
}

/// BBS and BBC with the patterns of manual 3.2's examples (#5AH, #5AA5H,
/// 04H, offset F6): all specified bits alike, and the offset counted from
/// the instruction behind.
#[test]
fn bit_branches_by_the_manuals_examples() {
    let data = [
        (0x5AA5u16, true, false),
        (0xFFFF, true, false),
        (0xA55A, false, true),
    ];
    let more = [
        (0x0000, false, true),
        (0x5AA4, false, false),
        (0x0001, false, false),
    ];
    for (value, all_ones, all_zeros) in data.into_iter().chain(more) {
        bit_branches(0, &[0xA5, 0x5A], value, all_ones, all_zeros);
    }
    for (value, all_ones, all_zeros) in [
        (0x005Au16, true, false),
        (0xFF5A, true, false),
        (0xFFA5, false, true),
        (0x0052, false, false),
    ] {
        bit_branches(M, &[0x5A], value, all_ones, all_zeros);
    }
}

fn bit_branches(ps: u16, pattern: &[u8], value: u16, ones: bool, zeros: bool) {
    let codes: [(&[u8], bool); 4] = [
        (&[0x24, 0x04], ones),
        (&[0x34, 0x04], zeros),
        (&[0x2C, 0x04, 0x00], ones),
        (&[0x3C, 0x04, 0x00], zeros),
    ];
    for (head, taken) in codes {
        for flags in [0, 0x7FF & !M & !X] {
            let code = [head, pattern, &[0xF6]].concat();
            let mut bench = Bench::new(&code);
            bench.r.ps = ps | flags;
            bench.ram[4..6].copy_from_slice(&value.to_le_bytes());
            let mut wanted = bench.clone();
            let next = 0xC000 + code.len() as u32;
            wanted.r.pc = if taken { next - 10 } else { next };
            bench.step();
            assert_eq!(bench, wanted, "{code:02X?} on {value:04X}");
        }
    }
}

/// The absolute examples, 2C 34 12 5A F6 and 2C 34 12 A5 5A F6: the tested
/// bits are at DT:1234.
#[test]
fn absolute_bit_branch_examples() {
    for (code, ps) in [
        (&[0x2C, 0x34, 0x12, 0x5A, 0xF6][..], M),
        (&[0x2C, 0x34, 0x12, 0xA5, 0x5A, 0xF6], 0),
    ] {
        let mut image = vec![0; 0x40];
        image[..code.len()].copy_from_slice(code);
        let mut bench = Bench::at(0x121200, &image);
        bench.r.ps = ps;
        bench.r.dt = 0x12;
        let next = 0x121200 + code.len() as u32;
        let mut other = bench.clone();
        other.step();
        assert_eq!(other.r.pc, next);
        bench.image[0x34..0x36].copy_from_slice(&code[3..5]);
        bench.step();
        assert_eq!(bench.r.pc, next - 10);
    }
}
