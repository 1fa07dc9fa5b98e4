//! The stack instructions (manual 3.2 "Stack", pages PEA to PLY).

use crate::common::*;
use sim7700::state::Registers;

const FULL: Registers = Registers {
    a: 0xA1A2,
    b: 0xB1B2,
    x: 0x7172,
    y: 0x8182,
    s: 0x0100,
    dpr: 0x0010,
    ps: 0,
    dt: 0xDD,
    pc: 0x01C000,
};

/// A push must leave `bytes` from S down, as pushed, and no flag changed.
fn pushes(code: &[u8], ps: u16, bytes: &[u8]) {
    let mut bench = Bench::at(0x1C000, code);
    bench.r = Registers { ps, ..FULL };
    bench.ram[0x1E..0x20].copy_from_slice(&[0x5A, 0xA5]);
    for s in [0x0100u16, 0x0002, 0x01FF] {
        let mut bench = bench.clone();
        bench.r.s = s;
        let mut wanted = bench.clone();
        for (k, &byte) in bytes.iter().enumerate() {
            wanted.ram[s as usize - k] = byte;
        }
        wanted.r.s = s - bytes.len() as u16;
        wanted.r.pc += code.len() as u32;
        bench.step();
        assert_eq!(bench, wanted, "{code:02X?}");
    }
}

#[test]
fn pushes_by_width() {
    for flags in [0, 0x7CF] {
        for widths in WIDTHS {
            let ps = flags | widths;
            let (m, x) = (ps & M != 0, ps & X != 0);
            let pick = |narrow: bool, word: &'static [u8; 2]| -> &'static [u8] {
                if narrow {
                    &word[1..]
                } else {
                    word
                }
            };
            pushes(&[0x48], ps, pick(m, &[0xA1, 0xA2]));
            pushes(&[0x42, 0x48], ps, pick(m, &[0xB1, 0xB2]));
            pushes(&[0xDA], ps, pick(x, &[0x71, 0x72]));
            pushes(&[0x5A], ps, pick(x, &[0x81, 0x82]));
            pushes(&[0x0B], ps, &[0x00, 0x10]);
            pushes(&[0x08], ps, &[(ps >> 8) as u8, ps as u8]);
            pushes(&[0x8B], ps, &[0xDD]);
            pushes(&[0x4B], ps, &[0x01]);
            pushes(&[0xF4, 0x34, 0x12], ps, &[0x12, 0x34]);
            // PEI: DPR + 0E = 001E holds 5A, 001F holds A5.
            pushes(&[0xD4, 0x0E], ps, &[0xA5, 0x5A]);
            // PER counts from the instruction behind: C003 + 1234.
            pushes(&[0x62, 0x34, 0x12], ps, &[0xD2, 0x37]);
            pushes(&[0x62, 0x00, 0x80], ps, &[0x40, 0x03]);
        }
    }
}

/// A pull reads at S + 1 upwards and sets N and Z where its page says so.
fn pulls(code: &[u8], ps: u16, bytes: &[u8], set: impl Fn(&mut Registers)) {
    let mut bench = Bench::at(0x1C000, code);
    bench.r = Registers { ps, ..FULL };
    bench.ram[0x101..0x101 + bytes.len()].copy_from_slice(bytes);
    let mut wanted = bench.clone();
    set(&mut wanted.r);
    wanted.r.s += bytes.len() as u16;
    wanted.r.pc += code.len() as u32;
    bench.step();
    assert_eq!(bench, wanted, "{code:02X?} from {bytes:02X?}");
}

#[test]
fn pulls_by_width() {
    for flags in [0, 0x7CF & !(N | Z)] {
        for widths in WIDTHS {
            for word in [0u16, 1, 0x80, 0x8000, 0xFF00, 0x7FFF] {
                pulls_of(flags | widths, word);
                pulls_of(flags | widths | N | Z, word);
            }
        }
    }
}

fn pulls_of(ps: u16, word: u16) {
    let both = word.to_le_bytes();
    let (m, x) = (ps & M != 0, ps & X != 0);
    let new = |narrow: bool, old: u16| {
        if narrow {
            old & 0xFF00 | word & 0xFF
        } else {
            word
        }
    };
    let count = |narrow: bool| if narrow { &both[..1] } else { &both[..] };
    let flags = |narrow: bool| ps & !(N | Z) | nz(narrow, word);
    pulls(&[0x68], ps, count(m), |r| {
        (r.a, r.ps) = (new(m, r.a), flags(m))
    });
    pulls(&[0x42, 0x68], ps, count(m), |r| {
        (r.b, r.ps) = (new(m, r.b), flags(m))
    });
    pulls(&[0xFA], ps, count(x), |r| {
        (r.x, r.ps) = (new(x, r.x), flags(x))
    });
    pulls(&[0x7A], ps, count(x), |r| {
        (r.y, r.ps) = (new(x, r.y), flags(x))
    });
    // Appendix B: PLD affects no flag, PLT sets N and Z of its byte.
    pulls(&[0x2B], ps, &both, |r| r.dpr = word);
    pulls(&[0xAB], ps, &both[..1], |r| {
        (r.dt, r.ps) = (word as u8, flags(true))
    });
}

/// PEI's example: D4 12 with DPR 3400 pushes the word at 3412.
#[test]
fn pei_example() {
    let mut image = vec![0; 0x20];
    image[0..2].copy_from_slice(&[0xD4, 0x12]);
    image[0x12..0x14].copy_from_slice(&[0x11, 0x22]);
    let mut bench = Bench::at(0x3400, &image);
    bench.r.dpr = 0x3400;
    bench.step();
    assert_eq!(bench.r.s, 0x1FD);
    assert_eq!((bench.ram[0x1FF], bench.ram[0x1FE]), (0x22, 0x11));
}

/// S wraps within bank 0: pushes down from 0000, pulls up from FFFF.
#[test]
fn the_stack_pointer_wraps() {
    let mut push = Bench::new(&[0x8B]);
    push.r.s = 0;
    push.r.dt = 0x77;
    push.step();
    assert_eq!((push.r.s, push.ram[0]), (0xFFFF, 0x77));
    let mut pull = Bench::new(&[0x68]);
    pull.r.s = 0xFFFF;
    pull.ram[0..2].copy_from_slice(&[0x34, 0x12]);
    pull.step();
    assert_eq!((pull.r.s, pull.r.a), (1, 0x1234));
    // A word pulled across the wrap: FFFF lies in the image.
    let mut across = Bench::at(0xFFFE, &[0x68, 0x99]);
    across.r.s = 0xFFFE;
    across.ram[0] = 0x44;
    across.step();
    assert_eq!((across.r.s, across.r.a), (0, 0x4499));
}

/// PHG and PER at a bank's end: PG and PC name the instruction behind
/// (manual 2.5 and 2.6).
#[test]
fn pushes_at_a_bank_end_name_the_next_bank() {
    let mut phg = Bench::at(0x1FFFF, &[0x4B]);
    phg.step();
    assert_eq!((phg.ram[0x1FF], phg.r.pc), (0x02, 0x20000));
    let mut last = Bench::at(0xFFFFFF, &[0x4B]);
    last.step();
    assert_eq!((last.ram[0x1FF], last.r.pc), (0x00, 0));
    let mut per = Bench::at(0x1FFFD, &[0x62, 0x05, 0x00]);
    per.step();
    assert_eq!((per.ram[0x1FF], per.ram[0x1FE]), (0x00, 0x05));
}
