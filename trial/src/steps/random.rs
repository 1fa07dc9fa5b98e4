//! Steps on random states and images.

use super::calls::{litter, reopen};
use super::noise::Noise;
use crate::check::cases::any_base;
use crate::machine::{carried, put_code};
use sim7700::alu::D;
use sim7700::generate::{refused_by, Rng, RunCase};
use sim7700::numbers::{BASE, LENGTH, MAX_ADDRESS, MAX_IMAGE, MAX_RAM, RAM, STATE};
use sim7700::state::{Registers, STATE_BYTES};

/// A step of random bytes or of a carried code; seldom a refused one.
pub fn drawn(rng: &mut Rng, noise: &Noise) -> RunCase {
    if rng.chance(1, 64) {
        let number = *rng.pick(&[LENGTH, BASE, RAM, STATE]);
        return refused_by(rng, number);
    }
    let ram_len = match rng.below(4) {
        0 => *rng.pick(&[1, 2, 3, MAX_RAM]),
        1 => 1 + rng.index(MAX_RAM),
        _ => 1 + rng.index(512),
    };
    let ram = noise.mixed(rng, ram_len).to_vec();
    let (image, at) = image(rng, noise);
    let base = base(rng, ram_len, image.len());
    let mut case = RunCase {
        image,
        base,
        state: vec![0; STATE_BYTES],
        ram,
        fill: (0, 0),
        steps: 1,
    };
    registers(rng, ram_len, base, at).write(&mut case.state);
    reopen(rng, &mut case);
    litter(rng, noise, &mut case.state);
    case
}

/// An image, and the place in it where the step shall begin: at a carried code
/// three times out of four.
fn image(rng: &mut Rng, noise: &Noise) -> (Vec<u8>, usize) {
    let length = match rng.below(256) {
        0 => 1 + rng.index(MAX_IMAGE),
        1..=31 => 1 + rng.index(6),
        _ => 8 + rng.index(56),
    };
    let mut image = noise.mixed(rng, length).to_vec();
    let at = rng.index(length);
    if rng.chance(3, 4) {
        put_code(&mut image, at, *rng.pick(carried()));
    }
    (image, at)
}

/// Right behind RAM, up to the end of a bank or across it, or anywhere above
/// RAM.
fn base(rng: &mut Rng, ram_len: usize, image_len: usize) -> u32 {
    let end = *rng.pick(&[0x2_0000, 0x13_0000, 0x100_0000]);
    let last = end - image_len as u32;
    match rng.below(6) {
        0 | 1 => ram_len as u32,
        2 => last,
        3 => ram_len as u32 + rng.below(0x4000) as u32,
        4 if end <= MAX_ADDRESS => last + rng.index(image_len) as u32,
        _ => any_base(rng, image_len).max(ram_len as u32),
    }
}

/// Random registers, those of addresses mostly in RAM; PG and PC mostly at the
/// place.
fn registers(rng: &mut Rng, ram_len: usize, base: u32, at: usize) -> Registers {
    let status = rng.word() & 0x7FF;
    let binary = rng.chance(3, 4);
    Registers {
        a: rng.word(),
        b: rng.word(),
        x: address_word(rng, ram_len),
        y: address_word(rng, ram_len),
        s: address_word(rng, ram_len),
        dpr: address_word(rng, ram_len),
        ps: if binary { status & !D } else { status },
        dt: *rng.pick(&[0, 0, 0, (base >> 16) as u8, 0xFF]),
        pc: match rng.below(32) {
            0 => rng.next_u64() as u32 & MAX_ADDRESS,
            _ => base + at as u32,
        },
    }
}

fn address_word(rng: &mut Rng, ram_len: usize) -> u16 {
    match rng.below(8) {
        0 => rng.word(),
        1 => rng.edge_word(),
        2 | 3 => rng.below(8) as u16,
        _ => rng.index(ram_len) as u16,
    }
}
