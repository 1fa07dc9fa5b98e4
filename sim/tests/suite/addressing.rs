//! Manual 3.2: the addressing modes, by LDA and STA of both accumulators,
//! with the operands of its examples (1E, 1234, 123456) where they fit.

use crate::common::*;
use sim7700::state::Registers;

/// A mode's codes for LDA and STA (0 for none), its operand bytes, and the
/// address that registers and pointers give.
struct Case {
    lda: u8,
    sta: u8,
    operand: &'static [u8],
    r: Registers,
    /// Pointer bytes in RAM: address and bytes.
    pointer: (usize, &'static [u8]),
    address: u32,
}

const R: Registers = Registers {
    a: 0,
    b: 0,
    x: 0x0302,
    y: 0x0504,
    s: 0x0140,
    dpr: 0x0080,
    ps: 0,
    dt: 0,
    pc: 0,
};

/// What every mode addresses under x=0 with `R`.
const WIDE: [Case; 15] = [
    Case {
        lda: 0xA5,
        sta: 0x85,
        operand: &[0x1E],
        r: R,
        pointer: (0, &[]),
        address: 0x9E,
    },
    Case {
        lda: 0xB5,
        sta: 0x95,
        operand: &[0x1E],
        r: R,
        pointer: (0, &[]),
        address: 0x3A0,
    },
    Case {
        lda: 0xB2,
        sta: 0x92,
        operand: &[0x1E],
        r: R,
        pointer: (0x9E, &[0x34, 0x02]),
        address: 0x234,
    },
    Case {
        lda: 0xA1,
        sta: 0x81,
        operand: &[0x1E],
        r: R,
        pointer: (0x3A0, &[0x34, 0x02]),
        address: 0x234,
    },
    Case {
        lda: 0xB1,
        sta: 0x91,
        operand: &[0x1E],
        r: R,
        pointer: (0x9E, &[0x34, 0x02]),
        address: 0x738,
    },
    Case {
        lda: 0xA7,
        sta: 0x87,
        operand: &[0x1E],
        r: R,
        pointer: (0x9E, &[0x34, 0x02, 0x00]),
        address: 0x234,
    },
    Case {
        lda: 0xB7,
        sta: 0x97,
        operand: &[0x1E],
        r: R,
        pointer: (0x9E, &[0x34, 0x02, 0x00]),
        address: 0x738,
    },
    Case {
        lda: 0xAD,
        sta: 0x8D,
        operand: &[0x34, 0x02],
        r: R,
        pointer: (0, &[]),
        address: 0x234,
    },
    Case {
        lda: 0xBD,
        sta: 0x9D,
        operand: &[0x34, 0x02],
        r: R,
        pointer: (0, &[]),
        address: 0x536,
    },
    Case {
        lda: 0xB9,
        sta: 0x99,
        operand: &[0x34, 0x02],
        r: R,
        pointer: (0, &[]),
        address: 0x738,
    },
    Case {
        lda: 0xAF,
        sta: 0x8F,
        operand: &[0x34, 0x02, 0x00],
        r: R,
        pointer: (0, &[]),
        address: 0x234,
    },
    Case {
        lda: 0xBF,
        sta: 0x9F,
        operand: &[0x34, 0x02, 0x00],
        r: R,
        pointer: (0, &[]),
        address: 0x536,
    },
    Case {
        lda: 0xA3,
        sta: 0x83,
        operand: &[0x1E],
        r: R,
        pointer: (0, &[]),
        address: 0x15E,
    },
    Case {
        lda: 0xB3,
        sta: 0x93,
        operand: &[0x1E],
        r: R,
        pointer: (0x15E, &[0x34, 0x02]),
        address: 0x738,
    },
    Case {
        lda: 0xA5,
        sta: 0x85,
        operand: &[0xFF],
        r: R,
        pointer: (0, &[]),
        address: 0x17F,
    },
];

/// The same under x=1: only the low bytes 02 and 04 enter.
const NARROW: [Case; 8] = [
    Case {
        lda: 0xB5,
        sta: 0x95,
        operand: &[0x1E],
        r: R,
        pointer: (0, &[]),
        address: 0xA0,
    },
    Case {
        lda: 0xA1,
        sta: 0x81,
        operand: &[0x1E],
        r: R,
        pointer: (0xA0, &[0x34, 0x02]),
        address: 0x234,
    },
    Case {
        lda: 0xB1,
        sta: 0x91,
        operand: &[0x1E],
        r: R,
        pointer: (0x9E, &[0x34, 0x02]),
        address: 0x238,
    },
    Case {
        lda: 0xB7,
        sta: 0x97,
        operand: &[0x1E],
        r: R,
        pointer: (0x9E, &[0x34, 0x02, 0x00]),
        address: 0x238,
    },
    Case {
        lda: 0xBD,
        sta: 0x9D,
        operand: &[0x34, 0x02],
        r: R,
        pointer: (0, &[]),
        address: 0x236,
    },
    Case {
        lda: 0xB9,
        sta: 0x99,
        operand: &[0x34, 0x02],
        r: R,
        pointer: (0, &[]),
        address: 0x238,
    },
    Case {
        lda: 0xBF,
        sta: 0x9F,
        operand: &[0x34, 0x02, 0x00],
        r: R,
        pointer: (0, &[]),
        address: 0x236,
    },
    Case {
        lda: 0xB3,
        sta: 0x93,
        operand: &[0x1E],
        r: R,
        pointer: (0x15E, &[0x34, 0x02]),
        address: 0x238,
    },
];

fn bench(case: &Case, code: u8, ps: u16, b: bool) -> Bench {
    let prefix: &[u8] = if b { &[0x42] } else { &[] };
    let mut bench = Bench::new(&[prefix, &[code], case.operand].concat());
    bench.ram = vec![0xEE; 0x1000];
    bench.r = Registers {
        ps,
        pc: 0xC000,
        ..case.r
    };
    let (at, bytes) = case.pointer;
    bench.ram[at..at + bytes.len()].copy_from_slice(bytes);
    bench
}

fn loads(case: &Case, ps: u16, b: bool) {
    let mut bench = bench(case, case.lda, ps, b);
    let at = case.address as usize;
    bench.ram[at..at + 2].copy_from_slice(&[0x21, 0x83]);
    let mut wanted = bench.clone();
    let (value, flags) = if ps & M != 0 {
        (0x0021, 0)
    } else {
        (0x8321, N)
    };
    *(if b { &mut wanted.r.b } else { &mut wanted.r.a }) = value;
    wanted.r.ps |= flags;
    wanted.r.pc += bench.image.len() as u32;
    bench.step();
    assert_eq!(bench.r, wanted.r, "code {:02X?} x {}", bench.image, ps & X);
    assert!(bench.ram == wanted.ram);
}

fn stores(case: &Case, ps: u16, b: bool) {
    let mut bench = bench(case, case.sta, ps, b);
    let (given, other) = (0x5476, 0x1111);
    (bench.r.a, bench.r.b) = if b { (other, given) } else { (given, other) };
    let mut wanted = bench.clone();
    wanted.ram[case.address as usize] = 0x76;
    if ps & M == 0 {
        wanted.ram[case.address as usize + 1] = 0x54;
    }
    wanted.r.pc += bench.image.len() as u32;
    bench.step();
    assert_eq!(bench.r, wanted.r, "code {:02X?}", bench.image);
    assert!(bench.ram == wanted.ram, "code {:02X?}", bench.image);
}

#[test]
fn every_mode_addresses_its_byte_and_word() {
    for m in [0, M] {
        for b in [false, true] {
            for case in &WIDE {
                loads(case, m, b);
                stores(case, m, b);
            }
            for case in &NARROW {
                loads(case, m | X, b);
                stores(case, m | X, b);
            }
        }
    }
}

/// What an indexed form adds: Y or X of `R`, its low byte under x=1.
fn index_of(code: u8, ps: u16) -> usize {
    let (y, x) = if ps & X != 0 {
        (0x04, 0x02)
    } else {
        (0x504, 0x302)
    };
    match code {
        0xB6 | 0xBE | 0x96 => y,
        0xB4 | 0xBC | 0x94 => x,
        _ => 0,
    }
}

fn index_bench(code: &[u8], ps: u16) -> Bench {
    let mut bench = Bench::new(code);
    bench.ram = vec![0xEE; 0x1000];
    bench.r = Registers {
        ps,
        pc: 0xC000,
        ..R
    };
    bench
}

/// LDX and LDY, direct indexed Y among their modes.
#[test]
fn index_registers_load_from_memory() {
    let load: [(&[u8], usize, bool); 8] = [
        (&[0xA6, 0x1E], 0x9E, true),
        (&[0xB6, 0x1E], 0x9E, true),
        (&[0xAE, 0x34, 0x02], 0x234, true),
        (&[0xBE, 0x34, 0x02], 0x234, true),
        (&[0xA4, 0x1E], 0x9E, false),
        (&[0xB4, 0x1E], 0x9E, false),
        (&[0xAC, 0x34, 0x02], 0x234, false),
        (&[0xBC, 0x34, 0x02], 0x234, false),
    ];
    for (code, plain, on_x) in load {
        for ps in WIDTHS {
            let at = plain + index_of(code[0], ps);
            let mut bench = index_bench(code, ps);
            bench.ram[at..at + 2].copy_from_slice(&[0x80, 0x40]);
            let mut wanted = bench.r;
            let place = if on_x { &mut wanted.x } else { &mut wanted.y };
            *place = if ps & X != 0 {
                *place & 0xFF00 | 0x80
            } else {
                0x4080
            };
            wanted.ps |= if ps & X != 0 { N } else { 0 };
            wanted.pc += code.len() as u32;
            bench.step();
            assert_eq!(bench.r, wanted, "{code:02X?}");
        }
    }
}

#[test]
fn index_registers_store_to_memory() {
    let store: [(&[u8], usize, [u8; 2]); 6] = [
        (&[0x86, 0x1E], 0x9E, [0x02, 0x03]),
        (&[0x96, 0x1E], 0x9E, [0x02, 0x03]),
        (&[0x8E, 0x34, 0x02], 0x234, [0x02, 0x03]),
        (&[0x84, 0x1E], 0x9E, [0x04, 0x05]),
        (&[0x94, 0x1E], 0x9E, [0x04, 0x05]),
        (&[0x8C, 0x34, 0x02], 0x234, [0x04, 0x05]),
    ];
    for (code, plain, value) in store {
        for ps in WIDTHS {
            let at = plain + index_of(code[0], ps);
            let mut bench = index_bench(code, ps);
            let mut wanted = bench.clone();
            let count = if ps & X != 0 { 1 } else { 2 };
            wanted.ram[at..at + count].copy_from_slice(&value[..count]);
            wanted.r.pc += code.len() as u32;
            bench.step();
            assert!(bench == wanted, "{code:02X?}");
        }
    }
}

#[test]
fn index_registers_compare_with_memory() {
    for (code, left, address) in [
        (&[0xE4, 0x1E][..], 0x302u16, 0x9E),
        (&[0xEC, 0x34, 0x02], 0x302, 0x234),
        (&[0xC4, 0x1E], 0x504, 0x9E),
        (&[0xCC, 0x34, 0x02], 0x504, 0x234),
    ] {
        for ps in WIDTHS {
            let mut bench = index_bench(code, ps);
            // Equal in the low byte, larger in the high one.
            bench.ram[address..address + 2].copy_from_slice(&(left + 0x100).to_le_bytes());
            let mut wanted = bench.r;
            wanted.ps |= if ps & X != 0 { Z | C } else { N };
            wanted.pc += code.len() as u32;
            bench.step();
            assert_eq!(bench.r, wanted, "{code:02X?}");
        }
    }
}

/// An image full of distinct bytes as data: LDA at a given base and setting
/// must read the image's word at `address`.
fn reads_image(base: u32, code: &[u8], r: Registers, address: u32) {
    let mut image: Vec<u8> = (0..512u32).map(|k| (k * 7 + 3) as u8).collect();
    image[..code.len()].copy_from_slice(code);
    let mut bench = Bench::at(base, &image);
    bench.r = Registers { pc: base, ..r };
    bench.ram = vec![0xEE; 64];
    let at = (address - base) as usize;
    let value = u16::from_le_bytes([image[at], image[at + 1]]);
    bench.step();
    assert_eq!(bench.r.a, value, "{code:02X?}");
}

/// Carries go to the next bank: manual 3.2 at each mode, 01 "Data addresses
/// don't wrap".
#[test]
fn carries_go_to_the_next_bank() {
    let r = Registers::default();
    let direct = Registers { dpr: 0xFFF0, ..r };
    reads_image(0x10000, &[0xA5, 0x1E], direct, 0x1000E);
    let by_x = Registers {
        dpr: 0xFFF0,
        x: 0xF0,
        ..r
    };
    reads_image(0x10000, &[0xB5, 0x1E], by_x, 0x100FE);
    let twice = Registers {
        dpr: 0xFFFF,
        x: 0xFFF0,
        ..r
    };
    reads_image(0x20000, &[0xB5, 0xFF], twice, 0x200EE);
    let stack = Registers { s: 0xFFF0, ..r };
    reads_image(0x10000, &[0xA3, 0x1E], stack, 0x1000E);
    let bank = Registers {
        dt: 0x11,
        x: 0xFFFF,
        y: 0xFF00,
        ..r
    };
    reads_image(0x120000, &[0xBD, 0x34, 0x00], bank, 0x120033);
    reads_image(0x120000, &[0xB9, 0x34, 0x01], bank, 0x120034);
    reads_image(0x130000, &[0xBF, 0x34, 0x00, 0x12], bank, 0x130033);
}

/// The manual's absolute long example, 123456, and a word across banks.
#[test]
fn absolute_long_example() {
    let r = Registers {
        x: 0x10,
        ..Registers::default()
    };
    reads_image(0x123400, &[0xAF, 0x56, 0x34, 0x12], r, 0x123456);
    reads_image(0x123400, &[0xBF, 0x56, 0x34, 0x12], r, 0x123466);
    let mut bench = Bench::at(0x10000, &[0xA5, 0xFF]);
    bench.ram = vec![0; 64];
    bench.r.dpr = 0xFF01;
    assert_eq!(bench.run(1), (0, 1, 0));
    assert_eq!(bench.r.a, 0xFFA5);
}

/// Indirect modes: pointers that carry into bank 1, pointers in the image,
/// DT and Y with a carry.
#[test]
fn pointers_carry_and_use_dt() {
    let mut image = vec![0; 0x200];
    image[..2].copy_from_slice(&[0xB1, 0x1E]);
    image[0x0E..0x11].copy_from_slice(&[0xF0, 0xFF, 0x00]);
    image[0x102..0x104].copy_from_slice(&[0x45, 0x23]);
    let mut bench = Bench::at(0x10000, &image);
    bench.ram = vec![0; 64];
    bench.r.dpr = 0xFFF0;
    bench.r.y = 0x112;
    bench.run(1);
    assert_eq!(bench.r.a, 0x2345, "DT:FFF0 + 0112 lies in bank DT + 1");
    bench.r.pc = 0x10000;
    bench.image[0] = 0xB7;
    bench.r.a = 0;
    bench.run(1);
    assert_eq!(bench.r.a, 0x2345, "00FFF0 + 0112");
    bench.r.pc = 0x10000;
    bench.image[0] = 0xB2;
    bench.image[0x0E..0x10].copy_from_slice(&[0x02, 0x01]);
    bench.r.dt = 1;
    bench.r.a = 0;
    bench.run(1);
    assert_eq!(bench.r.a, 0x2345, "DT alone");
    bench.r.pc = 0x10000;
    bench.image[0] = 0xB3;
    bench.r.s = 0xFFF0;
    bench.r.y = 0;
    bench.r.a = 0;
    bench.run(1);
    assert_eq!(bench.r.a, 0x2345, "S + 1E in bank 1");
}

/// Read-modify-write and bit instructions address like loads.
#[test]
fn modifying_instructions_address_like_loads() {
    for (code, ps, address) in [
        (&[0xE6, 0x1E][..], 0, 0x9E),
        (&[0xF6, 0x1E], 0, 0x3A0),
        (&[0xF6, 0x1E], X, 0xA0),
        (&[0xEE, 0x34, 0x02], 0, 0x234),
        (&[0xFE, 0x34, 0x02], 0, 0x536),
        (&[0xFE, 0x34, 0x02], X, 0x236),
        (&[0x04, 0x1E, 1, 0], 0, 0x9E),
        (&[0x0C, 0x34, 0x02, 1, 0], 0, 0x234),
        (&[0x74, 0x1E, 1, 0], X, 0xA0),
        (&[0x9E, 0x34, 0x02, 1, 0], 0, 0x536),
        (&[0x9E, 0x34, 0x02, 1, 0], X, 0x236),
    ] {
        let mut bench = Bench::new(code);
        bench.ram = vec![0; 0x1000];
        bench.r = Registers {
            ps,
            pc: 0xC000,
            ..R
        };
        bench.step();
        let written: Vec<usize> = (0..0x1000).filter(|&k| bench.ram[k] != 0).collect();
        assert_eq!(written, [address], "{code:02X?}");
    }
}

/// Absolute modes use DT: SEB, ASL, LDM and STX as well as LDA.
#[test]
fn absolute_modes_use_dt() {
    for code in [
        &[0x0C, 0x10, 0, 1, 0][..],
        &[0x0E, 0x10, 0],
        &[0x9C, 0x10, 0, 1, 0],
        &[0x8E, 0x10, 0],
        &[0x2C, 0x10, 0, 1, 0, 0],
        &[0xAD, 0x10, 0],
        &[0xBD, 0x10, 0],
        &[0xB9, 0x10, 0],
    ] {
        let mut bench = Bench::new(code);
        bench.r.dt = 1;
        bench.stops(23);
        bench.r.dt = 0;
        bench.step();
    }
}

/// ADC of the word 2233 at the address of a manual example to A = 1111,
/// carry clear; under m=1 of its low byte.
fn adds(mut bench: Bench, address: u32) {
    match bench.ram.get_mut(address as usize..address as usize + 2) {
        Some(place) => place.copy_from_slice(&[0x33, 0x22]),
        None => {
            let at = (address - bench.base) as usize;
            bench.image[at..at + 2].copy_from_slice(&[0x33, 0x22]);
        }
    }
    bench.r.a = 0x1111;
    let wide = bench.r.ps & M == 0;
    bench.step();
    let sum = if wide { 0x3344 } else { 0x1144 };
    assert_eq!(bench.r.a, sum, "{:02X?}", &bench.image[..4]);
}

/// The examples of manual 3.2 that have kept their machine codes: pages
/// direct indexed X indirect, direct indirect long indexed Y, absolute
/// long, absolute long indexed X, stack pointer relative indirect.
#[test]
fn adc_examples_of_the_modes() {
    for m in [0, M] {
        let mut direct = Bench::new(&[0x61, 0x1E, 0, 0]);
        direct.r.ps = m | X;
        direct.r.dpr = 0x100;
        direct.r.x = 0x5508;
        direct.ram[0x126..0x128].copy_from_slice(&[0x80, 0x00]);
        adds(direct, 0x80);
        let mut long = Bench::new(&[0x77, 0x1E, 0, 0]);
        long.r.ps = m | X;
        long.r.dpr = 0x100;
        long.r.y = 0x5508;
        long.ram[0x11E..0x121].copy_from_slice(&[0x80, 0x00, 0x00]);
        adds(long, 0x88);
        let mut stack = Bench::new(&[0x73, 0x1E, 0, 0]);
        stack.r.ps = m;
        stack.r.s = 0x100;
        stack.r.y = 0x0108;
        stack.ram[0x11E..0x120].copy_from_slice(&[0x80, 0x00]);
        adds(stack, 0x188);
        let mut image = vec![0; 0x200];
        image[..4].copy_from_slice(&[0x6F, 0x56, 0x34, 0x12]);
        let mut absolute = Bench::at(0x123400, &image);
        absolute.r.ps = m;
        adds(absolute.clone(), 0x123456);
        absolute.image[0] = 0x7F;
        absolute.r.ps = m | X;
        absolute.r.x = 0x5508;
        adds(absolute, 0x12345E);
    }
}
