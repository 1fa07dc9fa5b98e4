//! Loads, transfers and exchanges between registers, and the rules on high
//! bytes. 01: "A transfer between registers has the destination's length; the
//! source's stored high byte is moved where that length is 16." 02, R-3: a
//! transfer into X or Y under x=1 clears the destination's.

use crate::common::*;
use sim7700::state::Registers;

const FULL: Registers = Registers {
    a: 0xA1A2,
    b: 0xB1B2,
    x: 0x7172,
    y: 0x8100,
    s: 0x5100,
    dpr: 0xD080,
    ps: 0,
    dt: 0xDD,
    pc: 0xC000,
};

fn name(r: &mut Registers, register: char) -> &mut u16 {
    match register {
        'A' => &mut r.a,
        'B' => &mut r.b,
        'X' => &mut r.x,
        'Y' => &mut r.y,
        'S' => &mut r.s,
        _ => &mut r.dpr,
    }
}

/// Code, source, destination: the pages TAD to TYX.
const TRANSFERS: [(&[u8], char, char); 21] = [
    (&[0x5B], 'A', 'D'),
    (&[0x1B], 'A', 'S'),
    (&[0xAA], 'A', 'X'),
    (&[0xA8], 'A', 'Y'),
    (&[0x42, 0x5B], 'B', 'D'),
    (&[0x42, 0x1B], 'B', 'S'),
    (&[0x42, 0xAA], 'B', 'X'),
    (&[0x42, 0xA8], 'B', 'Y'),
    (&[0x7B], 'D', 'A'),
    (&[0x42, 0x7B], 'D', 'B'),
    (&[0x3B], 'S', 'A'),
    (&[0x42, 0x3B], 'S', 'B'),
    (&[0xBA], 'S', 'X'),
    (&[0x8A], 'X', 'A'),
    (&[0x42, 0x8A], 'X', 'B'),
    (&[0x9A], 'X', 'S'),
    (&[0x9B], 'X', 'Y'),
    (&[0x98], 'Y', 'A'),
    (&[0x42, 0x98], 'Y', 'B'),
    (&[0xBB], 'Y', 'X'),
    (&[0xEA], 'A', 'A'),
];

#[test]
fn transfers_have_the_destinations_length() {
    for (code, from, to) in TRANSFERS {
        for widths in WIDTHS {
            for flags in [0, N | Z | V | C | I, 0x700] {
                let mut before = Registers {
                    ps: widths | flags,
                    ..FULL
                };
                // NOP stands in the table as a transfer of nothing.
                let value = *name(&mut before, from);
                let mut after = before;
                let byte = match to {
                    'A' | 'B' => widths & M != 0,
                    'X' | 'Y' => widths & X != 0,
                    _ => false,
                };
                let place = name(&mut after, to);
                *place = match (byte, to) {
                    (false, _) => value,
                    (true, 'X' | 'Y') => value & 0xFF,
                    (true, _) => *place & 0xFF00 | value & 0xFF,
                };
                if code != [0xEA] && !matches!(to, 'S' | 'D') {
                    after.ps = after.ps & !(N | Z) | nz(byte, value);
                }
                registers_after(code, before, after);
            }
        }
    }
}

/// 01's trap: another processor clears X's high byte when x is set.
#[test]
fn setting_x_leaves_the_high_bytes() {
    let after = Registers { ps: X, ..FULL };
    registers_after(&[0xE2, 0x10], FULL, after);
    let cleared = Registers { ps: 0, ..FULL };
    registers_after(&[0xC2, 0x10], after, cleared);
}

/// What is no transfer leaves the upper byte under x=1: loads, pulls, counts.
#[test]
fn others_leave_the_upper_byte() {
    let codes: [(&[u8], char, u16); 12] = [
        (&[0xA2, 0x12], 'X', 0x7112),
        (&[0xA6, 0x00], 'X', 0x7134),
        (&[0xAE, 0x80, 0x00], 'X', 0x7134),
        (&[0xA0, 0x12], 'Y', 0x8112),
        (&[0xA4, 0x00], 'Y', 0x8134),
        (&[0xFA], 'X', 0x7156),
        (&[0x7A], 'Y', 0x8156),
        (&[0xE8], 'X', 0x7173),
        (&[0xCA], 'X', 0x7171),
        (&[0xC8], 'Y', 0x8101),
        (&[0x88], 'Y', 0x81FF),
        (&[0xEA], 'X', 0x7172),
    ];
    for (code, register, value) in codes {
        let mut bench = Bench::new(code);
        bench.r = Registers {
            ps: X,
            dpr: 0x80,
            dt: 0,
            s: 0x100,
            ..FULL
        };
        (bench.ram[0x80], bench.ram[0x101]) = (0x34, 0x56);
        bench.step();
        assert_eq!(*name(&mut bench.r, register), value, "{code:02X?}");
    }
}

/// R-3's own trace: after TAX under x=1 and a later CLP, X has 00 above.
#[test]
fn a_later_clp_shows_00_above() {
    let stores: [(&[u8], u8, u16); 7] = [
        (&[0xAA], 0x8E, 0xA2),
        (&[0x42, 0xAA], 0x8E, 0xB2),
        (&[0xBA], 0x8E, 0x00),
        (&[0xBB], 0x8E, 0x00),
        (&[0xA8], 0x8C, 0xA2),
        (&[0x42, 0xA8], 0x8C, 0xB2),
        (&[0x9B], 0x8C, 0x72),
    ];
    for (code, store, value) in stores {
        let image = [code, &[0xC2, 0x10, store, 0x40, 0x00]].concat();
        let mut bench = Bench::new(&image);
        bench.r = Registers {
            ps: X,
            dt: 0,
            ..FULL
        };
        (bench.ram[0x40], bench.ram[0x41]) = (0xEE, 0xEE);
        assert_eq!(bench.run(3), (0, 3, 0));
        let [low, high] = value.to_le_bytes();
        assert_eq!(bench.ram[0x40..0x42], [low, high], "{code:02X?}");
    }
}

/// TSX leaves nothing above for TXS to move: S comes back without it.
#[test]
fn tsx_and_txs_lose_the_upper_byte() {
    let mut bench = Bench::new(&[0xBA, 0x9A]);
    bench.r.ps = X;
    bench.r.x = 0x7172;
    bench.r.s = 0x1FE;
    bench.step();
    assert_eq!((bench.r.x, bench.r.s), (0xFE, 0x1FE));
    bench.step();
    assert_eq!((bench.r.x, bench.r.s), (0xFE, 0xFE));
}

/// TXA and TXS under x=1: their pages say 00 for the high byte, 01 says the
/// stored one.
#[test]
fn stored_high_bytes_are_moved() {
    let before = Registers { ps: X, ..FULL };
    let txa = Registers {
        a: 0x7172,
        ..before
    };
    registers_after(&[0x8A], before, txa);
    let txs = Registers {
        s: 0x7172,
        ..before
    };
    registers_after(&[0x9A], before, txs);
}

#[test]
fn xab_exchanges_at_the_data_length() {
    for flags in [0, N | Z | C | V] {
        let wide = Registers { ps: flags, ..FULL };
        let swapped = Registers {
            a: 0xB1B2,
            b: 0xA1A2,
            ps: flags & !Z | N,
            ..FULL
        };
        registers_after(&[0x89, 0x28], wide, swapped);
    }
    let narrow = Registers {
        a: 0x8180,
        b: 0x9200,
        ps: M | N,
        ..FULL
    };
    let swapped = Registers {
        a: 0x8100,
        b: 0x9280,
        ps: M | Z,
        ..FULL
    };
    registers_after(&[0x89, 0x28], narrow, swapped);
}

/// LDX and LDY take their immediate by x (01's trap: not by m).
#[test]
fn index_loads_go_by_x() {
    for flags in [0, M, C | V | I, M | 0x700] {
        for value in [0u16, 1, 0x80, 0x8000, 0x27F, 0xFF00] {
            let [low, high] = value.to_le_bytes();
            for (code, register) in [(0xA2, 'X'), (0xA0, 'Y')] {
                let wide = Registers { ps: flags, ..FULL };
                let mut after = Registers {
                    ps: flags | nz(false, value),
                    ..FULL
                };
                *name(&mut after, register) = value;
                registers_after(&[code, low, high], wide, after);
                let narrow = Registers {
                    ps: flags | X,
                    ..FULL
                };
                let mut after = Registers {
                    ps: flags | X | nz(true, value),
                    ..FULL
                };
                let place = name(&mut after, register);
                *place = *place & 0xFF00 | value & 0xFF;
                registers_after(&[code, low], narrow, after);
            }
        }
    }
}

#[test]
fn ldt_loads_the_data_bank() {
    for ps in WIDTHS {
        for bank in [0, 1, 0x80, 0xFF] {
            let before = Registers { ps, ..FULL };
            let after = Registers { dt: bank, ..before };
            registers_after(&[0x89, 0xC2, bank], before, after);
        }
    }
}

/// Manual chapter 5, note (1): LDX #27FH, TXS.
#[test]
fn stack_pointer_example_of_chapter_5() {
    let mut bench = Bench::new(&[0xA2, 0x7F, 0x02, 0x9A]);
    bench.step();
    bench.step();
    assert_eq!((bench.r.x, bench.r.s), (0x27F, 0x27F));
}
