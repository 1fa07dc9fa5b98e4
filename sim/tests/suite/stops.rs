//! Stops 20 to 27, where each can arise, and their order in a step: "code
//! bytes 20, 21, operand bytes 20, 22, 27, reads 23, then 24 or 25, then
//! stores 23 or 26".

use crate::common::*;

fn stops(image: &[u8], number: u8) {
    Bench::new(image).stops(number);
}

#[test]
fn code_bytes_outside_are_20() {
    let mut bench = Bench::new(&[0xEA]);
    for pc in [0xBFFF, 0xC001, 0, 0x10, 0x1C000, 0xFFFFFF] {
        bench.r.pc = pc;
        bench.stops(20);
    }
    // Instruction bytes come from the image alone, not from RAM.
    bench.ram[0x10] = 0xEA;
    bench.r.pc = 0x10;
    bench.stops(20);
    stops(&[0x42], 20);
    stops(&[0x89], 20);
    let mut last = Bench::at(0xFFFFFF, &[0x42]);
    last.ram[0] = 0x48;
    last.stops(20);
}

#[test]
fn uncarried_codes_are_21_before_operand_bytes() {
    for code in [
        0x00u8, 0x02, 0x28, 0x40, 0x44, 0x54, 0x6C, 0x7C, 0xDC, 0xEB, 0xFB, 0xFC,
    ] {
        stops(&[code], 21);
        stops(&[code, 0, 0, 0, 0], 21);
    }
    for pair in [
        [0x42, 0x42],
        [0x42, 0x00],
        [0x89, 0x09],
        [0x89, 0x29],
        [0x89, 0x89],
    ] {
        stops(&pair, 21);
        let mut decimal = Bench::new(&pair);
        decimal.r.ps = D;
        decimal.stops(21);
    }
}

#[test]
fn operand_bytes_outside_are_20() {
    for (code, m, x) in [
        (&[0xA9, 0][..], 0, 0),
        (&[0xA9], M, X),
        (&[0x42, 0xA9, 0], 0, X),
        (&[0xA2, 0], M, 0),
        (&[0x4C, 0], M, X),
        (&[0x22, 0, 0], M, X),
        (&[0x2C, 0, 0, 0, 0], 0, X),
        (&[0x2C, 0, 0, 0], M, X),
        (&[0x89, 0x49, 0], 0, 0),
        (&[0x82, 0], 0, 0),
        (&[0xE2], 0, 0),
        (&[0x69, 0], D, 0),
    ] {
        let mut bench = Bench::new(code);
        bench.r.ps = m | x;
        bench.stops(20);
    }
    // The operand would lie at 000000, the next address, in RAM.
    Bench::at(0xFFFFFF, &[0xE2]).stops(20);
}

#[test]
fn stp_and_wit_are_22() {
    for ps in [0, M, X, D, 0x7FF] {
        for code in [0xDB, 0xCB] {
            let mut bench = Bench::new(&[code]);
            bench.r.ps = ps;
            bench.stops(22);
        }
    }
}

/// ADC and SBC with D=1: after their operand bytes, before their reads.
#[test]
fn decimal_is_27_before_reads() {
    for code in [
        &[0x69, 0, 0][..],
        &[0xE9, 0, 0],
        &[0x42, 0x69, 0, 0],
        &[0x42, 0xE9, 0, 0],
        &[0x6F, 0, 0, 0x55],
        &[0xEF, 0, 0, 0x55],
        &[0x72, 0],
    ] {
        let mut bench = Bench::new(code);
        bench.r.ps = D;
        bench.stops(27);
    }
    for other in [0xC9, 0x29, 0xA9] {
        let mut bench = Bench::new(&[other, 0, 0]);
        bench.r.ps = D;
        bench.step();
    }
}

/// RAM ends at 01FF, the image stands at C000 to C00F.
fn mapped(code: &[u8]) -> Bench {
    let mut image = vec![0; 16];
    image[..code.len()].copy_from_slice(code);
    Bench::new(&image)
}

/// Loads at an address: completed, or 23.
#[test]
fn reads_outside_are_23() {
    for (address, byte_served, word_served) in [
        (0x0000u32, true, true),
        (0x01FE, true, true),
        (0x01FF, true, false),
        (0x0200, false, false),
        (0xBFFF, false, false),
        (0xC000, true, true),
        (0xC00E, true, true),
        (0xC00F, true, false),
        (0xC010, false, false),
        (0x10000, false, false),
        (0xFFFFFF, false, false),
    ] {
        let [low, middle, high, _] = address.to_le_bytes();
        for (code, ps, served) in [
            (0xAF, M, byte_served),
            (0xAF, 0, word_served),
            (0xCF, 0, word_served),
            (0x6F, M, byte_served),
        ] {
            let mut bench = mapped(&[code, low, middle, high]);
            bench.r.ps = ps;
            if served {
                bench.step();
            } else {
                bench.stops(23);
            }
        }
    }
}

/// Addresses above FFFFFF are unmapped; they do not wrap to RAM.
#[test]
fn addresses_do_not_wrap() {
    let mut image = vec![0x5A; 16];
    image[..4].copy_from_slice(&[0xBF, 0xFF, 0xFF, 0xFF]);
    let mut bench = Bench::at(0xFFFFF0, &image);
    bench.r.ps = M;
    bench.step();
    bench.r.pc = 0xFFFFF0;
    bench.r.x = 1;
    bench.stops(23);
    bench.r.x = 0;
    bench.r.ps = 0;
    bench.stops(23);
    let mut by_dt = Bench::new(&[0xBD, 0xFF, 0xFF]);
    by_dt.r.dt = 0xFF;
    by_dt.r.x = 2;
    by_dt.stops(23);
    let mut long = Bench::new(&[0xB7, 0x00]);
    long.ram[..3].copy_from_slice(&[0xFF, 0xFF, 0xFF]);
    long.r.y = 1;
    long.stops(23);
    // S + nn does not wrap either, nor does a word at DT:FFFF.
    let mut stack = Bench::new(&[0xA3, 0x02]);
    stack.r.s = 0xFFFF;
    stack.stops(23);
    let mut word = Bench::at(0xFFFE, &[0xA5, 0x00]);
    word.r.dpr = 0xFFFF;
    word.stops(23);
}

/// Pointers are read before anything else: 23 in each of their bytes.
#[test]
fn pointer_bytes_outside_are_23() {
    for (code, dpr) in [
        (0xB2u8, 0x200u16),
        (0xB2, 0x1FF),
        (0x92, 0x1FF),
        (0xB1, 0x1FF),
        (0x91, 0x200),
        (0xA1, 0x1FF),
        (0xA7, 0x1FE),
        (0x87, 0x1FE),
        (0xA7, 0x1FF),
        (0xB7, 0x200),
    ] {
        let mut bench = Bench::new(&[code, 0]);
        bench.r.dpr = dpr;
        bench.stops(23);
    }
    let mut stack = Bench::new(&[0xB3, 0x00]);
    stack.r.s = 0x1FF;
    stack.stops(23);
    let mut pei = Bench::new(&[0xD4, 0x00]);
    pei.r.dpr = 0x1FF;
    pei.stops(23);
    pei.r.dpr = 0x1FE;
    pei.step();
}

/// A store to `address` under m=0 and m=1 must end like this (0 for none).
fn stores(base: u32, ram: usize, address: u32, byte: u8, word: u8) {
    let [low, middle, high, _] = address.to_le_bytes();
    for (code, extra) in [
        (&[0x8F, low, middle, high][..], false),
        (&[0x0C, low, middle], true),
    ] {
        for (ps, number) in [(M, byte), (0, word)] {
            let pattern: &[u8] = match (extra, ps) {
                (false, _) => &[],
                (true, M) => &[1],
                (true, _) => &[1, 1],
            };
            let mut image = vec![0xEA; 16];
            let code = [code, pattern].concat();
            image[..code.len()].copy_from_slice(&code);
            let mut bench = Bench::at(base, &image);
            bench.ram = vec![0; ram];
            bench.r.ps = ps;
            bench.r.a = 0xFFFF;
            bench.r.dt = high;
            // SEB reads first: where the store would be 26 after an unmapped
            // byte, or read past the end, its read decides with 23.
            let number = if extra && number == 26 && unread(&bench, address, ps) {
                23
            } else {
                number
            };
            if number == 0 {
                bench.step();
            } else {
                bench.stops(number);
            }
        }
    }
}

fn unread(bench: &Bench, address: u32, ps: u16) -> bool {
    let mapped = |a: u32| {
        (a as usize) < bench.ram.len()
            || (bench.base..bench.base + bench.image.len() as u32).contains(&a)
    };
    !mapped(address) || ps & M == 0 && !mapped(address + 1)
}

/// The first byte that cannot be served decides: low byte, then high.
#[test]
fn stores_are_23_or_26_by_their_first_bad_byte() {
    // RAM to 01FF, image C000 to C00F.
    stores(0xC000, 512, 0x1FE, 0, 0);
    stores(0xC000, 512, 0x1FF, 0, 23);
    stores(0xC000, 512, 0x200, 23, 23);
    stores(0xC000, 512, 0xBFFE, 23, 23);
    stores(0xC000, 512, 0xBFFF, 23, 23);
    stores(0xC000, 512, 0xC000, 26, 26);
    stores(0xC000, 512, 0xC00E, 26, 26);
    stores(0xC000, 512, 0xC00F, 26, 26);
    stores(0xC000, 512, 0xC010, 23, 23);
    // The image right above RAM: a word across is 26, nothing written.
    stores(0x200, 512, 0x1FF, 0, 26);
    stores(0x200, 512, 0x1FE, 0, 0);
    stores(0x200, 512, 0x20F, 26, 26);
    // At the end of the address space.
    stores(0xFFFFF0, 512, 0xFFFFFF, 26, 26);
    stores(0xFFFFF0, 512, 0xFFFFEF, 23, 23);
    stores(0xC000, 512, 0xFFFFFF, 23, 23);
}

/// LDM, STX, STY and read-modify-write store with the same stops.
#[test]
fn other_stores_stop_alike() {
    for code in [
        &[0x64, 0x00, 1, 2][..],
        &[0x86, 0x00],
        &[0x84, 0x00],
        &[0x85, 0x00],
        &[0x42, 0x85, 0x00],
    ] {
        let mut bench = mapped(code);
        bench.r.dpr = 0x1FF;
        bench.stops(23);
        bench.r.dpr = 0xC00F;
        bench.stops(26);
        bench.base = 0x200;
        bench.r.pc = 0x200;
        bench.r.dpr = 0x1FF;
        bench.stops(26);
    }
    for code in [&[0x06, 0x00][..], &[0xE6, 0], &[0x46, 0], &[0x14, 0, 0, 0]] {
        let mut bench = mapped(code);
        bench.r.dpr = 0xC004;
        bench.stops(26);
        bench.r.dpr = 0xC00F;
        bench.stops(23);
    }
}

/// Pushes: the high byte first; S wraps from 0000 to FFFF.
#[test]
fn pushes_stop_by_their_first_bad_byte() {
    let push = [0x48];
    for (base, s, word, byte) in [
        (0xC000, 0x1FF, 0, 0),
        (0xC000, 0x200, 23, 23),
        (0xC000, 0x0000, 23, 0),
        (0xC000, 0x0001, 0, 0),
        (0xC000, 0xFFFF, 23, 23),
        (0xC000, 0xC000, 26, 26),
        (0xC000, 0xC001, 23, 23),
        (0x200, 0x200, 26, 26),
        (0xFFFF, 0x0000, 26, 0),
        (0xFFFF, 0xFFFF, 26, 26),
    ] {
        for (ps, number) in [(0, word), (M, byte)] {
            let mut bench = Bench::at(base, &push);
            bench.r.s = s;
            bench.r.ps = ps;
            if number == 0 {
                bench.step();
            } else {
                bench.stops(number);
            }
        }
    }
}

/// JSR long pushes three bytes; the first bad one decides.
#[test]
fn calls_stop_in_their_pushes() {
    for (base, s, number) in [
        (0xC000u32, 0x0002u16, 0u8),
        (0xC000, 0x0001, 23),
        (0xC000, 0x0000, 23),
        (0xC000, 0xFFFF, 23),
        (0xC000, 0x0201, 23),
        (0xC000, 0xC004, 23),
        (0xC000, 0xC003, 26),
        (0xFFFC, 0x0001, 26),
        (0xFFFC, 0x0000, 26),
    ] {
        let mut bench = Bench::at(base, &[0x22, 0x00, 0xC0, 0x00]);
        bench.r.s = s;
        if number == 0 {
            bench.step();
        } else {
            bench.stops(number);
        }
    }
}

/// 25 goes before the pushes' 23 and 26.
#[test]
fn deep_is_25_before_stores() {
    for code in [&[0x20, 0x00, 0xC0][..], &[0x22, 0x00, 0xC0, 0x00]] {
        for s in [0x1FF, 0x000, 0xFFFF, 0xC000] {
            let mut bench = Bench::new(code);
            bench.calls = vec![(0xC003, 1); 24];
            bench.r.s = s;
            bench.stops(25);
            bench.calls.pop();
            if s == 0x1FF {
                bench.step();
                assert_eq!(bench.calls.len(), 24);
            }
        }
        // Its operand bytes go before it.
        let mut cut = Bench::new(&code[..code.len() - 1]);
        cut.calls = vec![(0xC003, 1); 24];
        cut.stops(20);
    }
}

/// 24: no open call, another kind, another address; its reads go first.
#[test]
fn astray_is_24_after_reads() {
    let rts = |s: u16, calls: &[(u32, u8)], number: u8| {
        let mut bench = Bench::at(0x5C000, &[0x60]);
        bench.r.s = s;
        bench.ram[0x81..0x83].copy_from_slice(&[0x34, 0x12]);
        bench.calls = calls.to_vec();
        bench.stops(number);
    };
    rts(0x80, &[], 24);
    rts(0x80, &[(0x51234, 2)], 24);
    rts(0x80, &[(0x51235, 1)], 24);
    rts(0x80, &[(0x41234, 1)], 24);
    rts(0x80, &[(0x51234, 1), (0x51234, 2)], 24);
    rts(0x1FE, &[(0x51234, 1)], 23);
    rts(0x1FF, &[], 23);
    rts(0xFFFE, &[], 23);
    let rtl = |s: u16, calls: &[(u32, u8)], number: u8| {
        let mut bench = Bench::at(0x5C000, &[0x6B]);
        bench.r.s = s;
        bench.ram[0x81..0x84].copy_from_slice(&[0x56, 0x34, 0x12]);
        bench.calls = calls.to_vec();
        bench.stops(number);
    };
    rtl(0x80, &[], 24);
    rtl(0x80, &[(0x123456, 1)], 24);
    rtl(0x80, &[(0x523456, 2)], 24);
    rtl(0x80, &[(0x123457, 2)], 24);
    rtl(0x1FD, &[(0x123456, 2)], 23);
    rtl(0x1FC, &[(0x123456, 2)], 24);
}

/// Pulls: 23 in each byte, and image bytes may be pulled.
#[test]
fn pulls_outside_are_23() {
    for (code, s, number) in [
        (&[0x68][..], 0x1FF, 23),
        (&[0x68], 0x1FE, 23),
        (&[0x68], 0x1FD, 0),
        (&[0x68], 0xBFFE, 23),
        (&[0xAB], 0xBFFF, 0),
        (&[0x2B], 0xBFFF, 23),
        (&[0xAB], 0xFFFE, 23),
        (&[0xAB], 0xFFFF, 0),
        (&[0x7A], 0x1FE, 23),
        (&[0x42, 0x68], 0xBFFF, 0),
    ] {
        let mut bench = Bench::new(code);
        bench.r.s = s;
        if number == 0 {
            bench.step();
        } else {
            bench.stops(number);
        }
    }
}

/// A run keeps what the completed steps did and undoes the stopped one.
#[test]
fn a_stop_in_a_run_keeps_the_steps_before() {
    // INC 10 / PHA / STA C000 (26).
    let mut bench = Bench::new(&[0xE6, 0x10, 0x48, 0x8D, 0x00, 0xC0]);
    bench.r.a = 0x1234;
    assert_eq!(bench.run(100), (26, 2, 0));
    assert_eq!(bench.ram[0x10], 1);
    assert_eq!(bench.ram[0x1FE..0x200], [0x34, 0x12]);
    assert_eq!((bench.r.pc, bench.r.s), (0xC003, 0x1FD));
}
