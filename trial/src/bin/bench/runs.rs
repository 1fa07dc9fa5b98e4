//! Times of runs: loops that are asked for as many steps as can be.

use crate::clock::{row, Input};
use sim7700::numbers::MAX_STEPS;
use sim7700::state::{Registers, STATE_BYTES};
use trial7700::library::m7700_run;

const BASE: u32 = 0xC000;
const RAM: usize = 512;

/// Immediates of 16 bits and registers.
const ARITHMETIC: [&[u8]; 14] = [
    &[0x18],                   // CLC
    &[0x69, 0x34, 0x12],       // ADC A, #1234
    &[0x49, 0x5A, 0xA5],       // EOR A, #A55A
    &[0x0A],                   // ASL A
    &[0x38],                   // SEC
    &[0xE9, 0x11, 0x01],       // SBC A, #0111
    &[0x29, 0xFF, 0x7F],       // AND A, #7FFF
    &[0x09, 0x01, 0x00],       // ORA A, #0001
    &[0xE8],                   // INX
    &[0x88],                   // DEY
    &[0xC9, 0x00, 0x40],       // CMP A, #4000
    &[0xAA],                   // TAX
    &[0x42, 0x69, 0x01, 0x00], // ADC B, #0001
    &[0x80, 0xE2],             // BRA to the first
];

/// A call in a call, by JSR and by JSR long.
const CALLS: [&[u8]; 9] = [
    &[0x20, 0x09, 0xC0],       // JSR C009
    &[0x22, 0x0D, 0xC0, 0x00], // JSR long 00C00D
    &[0x80, 0xF7],             // BRA to the first
    &[0x20, 0x12, 0xC0],       // C009: JSR C012
    &[0x60],                   // RTS
    &[0x22, 0x13, 0xC0, 0x00], // C00D: JSR long 00C013
    &[0x6B],                   // RTL
    &[0x60],                   // C012: RTS
    &[0x6B],                   // C013: RTL
];

/// Words by a pointer of two bytes at 10 and one of three at 14.
const POINTERS: [&[u8]; 12] = [
    &[0xA0, 0x00, 0x00], // LDY #0000
    &[0xB1, 0x10],       // C003: LDA A, (10), Y
    &[0x97, 0x14],       // STA A, L(14), Y
    &[0xB2, 0x10],       // LDA A, (10)
    &[0x87, 0x14],       // STA A, L(14)
    &[0xC8],             // INY
    &[0xC8],             // INY
    &[0xA7, 0x14],       // LDA A, L(14)
    &[0x91, 0x10],       // STA A, (10), Y
    &[0xC0, 0x20, 0x00], // CPY #0020
    &[0xD0, 0xED],       // BNE to C003
    &[0x80, 0xE8],       // BRA to the first
];

pub fn timed() {
    println!("loops, ns per step                  library  simulator  ratio");
    run("arithmetic", &ARITHMETIC.concat());
    run("calls", &CALLS.concat());
    run("pointers", &POINTERS.concat());
}

/// Times a program from its first byte, each call from the same state and RAM.
fn run(name: &str, image: &[u8]) {
    let (state, ram) = begin();
    let [(mut lent, mut lent_ram), (mut other, mut other_ram)] = [begin(), begin()];
    let input = Input {
        name,
        unit: "steps",
        units: MAX_STEPS as usize,
        calls: 1,
    };
    row(
        input,
        || {
            lent.copy_from_slice(&state);
            lent_ram.copy_from_slice(&ram);
            let (state, ram) = (lent.as_mut_ptr(), lent_ram.as_mut_ptr());
            let (image, length) = (image.as_ptr(), image.len());
            // SAFETY: the pointers are valid for the lengths, and state and
            // RAM are lent to nothing else.
            unsafe { m7700_run(image, length, BASE, state, STATE_BYTES, ram, RAM, MAX_STEPS) }
        },
        || {
            other.copy_from_slice(&state);
            other_ram.copy_from_slice(&ram);
            let answer = sim7700::run(image, BASE, &mut other, &mut other_ram, MAX_STEPS);
            assert_eq!(
                answer & 0xFF_FFFF_FFFF,
                (MAX_STEPS as u64) << 16,
                "not all steps"
            );
            answer
        },
    );
    assert!(
        (lent, lent_ram) == (other, other_ram),
        "state or RAM differ"
    );
}

/// The stack at the end of RAM, the two pointers in it, all else 0.
fn begin() -> (Vec<u8>, Vec<u8>) {
    let mut state = vec![0; STATE_BYTES];
    let registers = Registers {
        s: RAM as u16 - 1,
        pc: BASE,
        ..Registers::default()
    };
    registers.write(&mut state);
    let mut ram = vec![0; RAM];
    ram[0x10..0x12].copy_from_slice(&[0x00, 0x01]);
    ram[0x14..0x17].copy_from_slice(&[0x40, 0x01, 0x00]);
    (state, ram)
}
