//! Branches, jumps, calls and returns (manual 4.1.5; 01, "The machine").

use crate::common::*;

/// Condition codes with the flag that decides and the value that branches.
const BRANCHES: [(u8, u16, bool); 8] = [
    (0x90, C, false),
    (0xB0, C, true),
    (0xD0, Z, false),
    (0xF0, Z, true),
    (0x10, N, false),
    (0x30, N, true),
    (0x50, V, false),
    (0x70, V, true),
];

fn goes_to(image: &[u8], base: u32, ps: u16, target: u32) {
    let mut bench = Bench::at(base, image);
    bench.r.ps = ps;
    let mut wanted = bench.clone();
    wanted.r.pc = target;
    bench.step();
    assert_eq!(bench, wanted, "{image:02X?} at {base:06X}");
}

#[test]
fn branches_test_one_flag() {
    for (code, flag, set) in BRANCHES {
        for ps in [0, 0x7FF, 0x555, 0x2AA, flag, 0x7FF & !flag] {
            let taken = (ps & flag != 0) == set;
            for (offset, by) in [(0x00u8, 0i64), (0x7F, 127), (0x80, -128), (0xFE, -2)] {
                let target = if taken { 0xC002 + by } else { 0xC002 };
                goes_to(&[code, offset], 0xC000, ps, target as u32);
            }
        }
    }
}

#[test]
fn bra_has_both_offsets() {
    goes_to(&[0x80, 0x10], 0xC000, 0, 0xC012);
    goes_to(&[0x80, 0xF0], 0xC000, 0, 0xBFF2);
    goes_to(&[0x82, 0x10, 0x00], 0xC000, 0, 0xC013);
    goes_to(&[0x82, 0x00, 0x80], 0xC000, 0, 0x4003);
    goes_to(&[0x82, 0xFF, 0x7F], 0x2C000, 0, 0x34002);
    goes_to(&[0x82, 0xFD, 0xFF], 0xC000, 0, 0xC000);
}

/// PG and PC count on as one 24-bit number that wraps.
#[test]
fn branches_cross_banks_and_wrap() {
    goes_to(&[0x80, 0x10], 0x1FFFE, 0, 0x20010);
    goes_to(&[0x80, 0xF0], 0x20000, 0, 0x1FFF2);
    goes_to(&[0x80, 0x10], 0xFFFFFE, 0, 0x10);
    goes_to(&[0x90, 0x10], 0xFFFFFE, C, 0);
    goes_to(&[0x82, 0x00, 0x80], 0x1000, 0, 0xFF9003);
    goes_to(&[0xEA], 0xFFFFFF, 0, 0);
    goes_to(&[0xEA], 0x1FFFF, 0, 0x20000);
    goes_to(&[0xA9, 0, 0], 0x1FFFD, Z, 0x20000);
}

/// JMP absolute has the bank of the address just after it (02, R-7); the
/// manual's example of JMP long is 5C 56 34 12.
#[test]
fn jumps_replace_pc_or_both() {
    goes_to(&[0x4C, 0x34, 0x12], 0x5C000, 0, 0x51234);
    goes_to(&[0x4C, 0x34, 0x12], 0x5FFFC, 0, 0x51234);
    goes_to(&[0x4C, 0x34, 0x12], 0x5FFFD, 0, 0x61234);
    goes_to(&[0x5C, 0x56, 0x34, 0x12], 0xC000, 0, 0x123456);
    goes_to(&[0x5C, 0x56, 0x34, 0x12], 0xFFFFFC, 0, 0x123456);
}

#[test]
fn jsr_pushes_the_next_address() {
    let mut bench = Bench::at(0x5C000, &[0x20, 0x34, 0x12]);
    assert_eq!(bench.run(1), (0, 1, 1));
    assert_eq!((bench.ram[0x1FF], bench.ram[0x1FE]), (0xC0, 0x03));
    assert_eq!((bench.r.s, bench.r.pc), (0x1FD, 0x51234));
    assert_eq!(bench.calls, [(0x5C003, 1)]);
}

#[test]
fn jsr_long_pushes_the_bank_first() {
    let mut bench = Bench::at(0x5C000, &[0x22, 0x56, 0x34, 0x12]);
    assert_eq!(bench.run(1), (0, 1, 1));
    assert_eq!(bench.ram[0x1FD..0x200], [0x04, 0xC0, 0x05]);
    assert_eq!((bench.r.s, bench.r.pc), (0x1FC, 0x123456));
    assert_eq!(bench.calls, [(0x5C004, 2)]);
}

/// At a bank's end the instruction behind lies in the next bank: JSR's target
/// and its return address do too, and an RTS there fits.
#[test]
fn calls_at_a_bank_end() {
    let mut bench = Bench::at(0x5FFFD, &[0x20, 0x02, 0x00, 0xDB, 0xEA, 0x60]);
    assert_eq!(bench.run(1), (0, 1, 1));
    assert_eq!(bench.calls, [(0x60000, 1)]);
    assert_eq!(bench.r.pc, 0x60002);
    assert_eq!(bench.ram[0x1FE..0x200], [0, 0]);
    assert_eq!(bench.run(9), (22, 1, 0));
    assert_eq!(bench.r.pc, 0x60000);
    let mut wrapped = Bench::at(0xFFFFFD, &[0x20, 0x34, 0x12]);
    assert_eq!(wrapped.run(1), (0, 1, 1));
    assert_eq!((wrapped.r.pc, wrapped.calls), (0x1234, vec![(0, 1)]));
    let mut long = Bench::at(0x5FFFC, &[0x22, 0, 0, 6]);
    assert_eq!(long.run(1), (0, 1, 1));
    assert_eq!(long.ram[0x1FD..0x200], [0, 0, 6]);
    let mut wrap = Bench::at(0xFFFFFC, &[0x22, 0, 0, 6]);
    assert_eq!(wrap.run(1), (0, 1, 1));
    assert_eq!(wrap.calls, [(0, 2)]);
}

#[test]
fn returns_pull_what_was_pushed() {
    let mut rts = Bench::at(0x5C000, &[0x60]);
    rts.r.s = 0x80;
    rts.ram[0x81..0x83].copy_from_slice(&[0x34, 0x12]);
    rts.calls = vec![(0x11111, 2), (0x51234, 1)];
    assert_eq!(rts.run(1), (0, 1, 0));
    assert_eq!((rts.r.s, rts.r.pc), (0x82, 0x51234));
    assert_eq!(rts.calls, [(0x11111, 2)]);
    let mut rtl = Bench::at(0x5C000, &[0x6B]);
    rtl.r.s = 0x80;
    rtl.ram[0x81..0x84].copy_from_slice(&[0x56, 0x34, 0x12]);
    rtl.calls = vec![(0x123456, 2)];
    assert_eq!(rtl.run(1), (0, 1, 0));
    assert_eq!((rtl.r.s, rtl.r.pc), (0x83, 0x123456));
    assert_eq!(rtl.calls, []);
}

/// RTS has the bank of the address just after it: as a bank's last byte the
/// next one, as FFFFFF's instruction bank 0.
#[test]
fn rts_in_the_last_and_the_first_byte_of_a_bank() {
    for (at, bank, other) in [
        (0x5FFFE, 5, 6),
        (0x5FFFF, 6, 5),
        (0x60000, 6, 5),
        (0xFFFFFF, 0, 0xFF),
    ] {
        let mut rts = Bench::at(at, &[0x60]);
        rts.r.s = 0x80;
        rts.ram[0x81..0x83].copy_from_slice(&[0x34, 0x12]);
        rts.calls = vec![(other << 16 | 0x1234, 1)];
        rts.stops(24);
        rts.calls = vec![(bank << 16 | 0x1234, 1)];
        assert_eq!(rts.run(1), (0, 1, 0));
        assert_eq!(rts.r.pc, bank << 16 | 0x1234);
    }
}

/// Calls down to 24 and back, counted in the answer.
#[test]
fn calls_nest_to_24() {
    // C000 DEX, C001 BEQ C006, C003 JSR C000, C006 RTS.
    let image = [0xCA, 0xF0, 0x03, 0x20, 0x00, 0xC0, 0x60];
    let mut bench = Bench::new(&image);
    bench.ram = vec![0; 0x400];
    bench.r.s = 0x3FF;
    bench.r.x = 25;
    // 24 rounds of three steps, then DEX and BEQ, then 24 returns.
    assert_eq!(bench.run(24 * 3 + 2 + 24), (0, 98, 24));
    assert_eq!((bench.r.s, bench.r.pc), (0x3FF, 0xC006));
    assert!(bench.calls.is_empty());
    bench.r.pc = 0xC000;
    bench.r.x = 26;
    assert_eq!(bench.run(1000), (25, 24 * 3 + 2, 24));
    assert_eq!(bench.calls.len(), 24);
}
