//! A run's refusals 1, 2, 11, 12, 13 in this order, all buffers as given.

use sim7700::state::STATE_BYTES;
use sim7700::{run, step};

struct Run {
    image: Vec<u8>,
    base: u32,
    state: Vec<u8>,
    ram: Vec<u8>,
    steps: u32,
}

fn sound() -> Run {
    let mut state = vec![0; STATE_BYTES];
    state[11] = 0xC0;
    Run {
        image: vec![0xEA; 4],
        base: 0xC000,
        state,
        ram: vec![7; 16],
        steps: 4,
    }
}

/// The refusal of a damaged run; buffers must stay as given.
fn refusal(damage: impl Fn(&mut Run)) -> u64 {
    let mut given = sound();
    damage(&mut given);
    let (mut state, mut ram) = (given.state.clone(), given.ram.clone());
    let answer = run(&given.image, given.base, &mut state, &mut ram, given.steps);
    if answer & 0xFF != 0 {
        assert!(state == given.state && ram == given.ram);
        assert_eq!(answer >> 8, 0, "every further number is 0");
    }
    answer & 0xFF
}

fn open(run: &mut Run, index: usize, address: u32, kind: u8) {
    let at = 20 + 8 * index;
    run.state[at..at + 4].copy_from_slice(&address.to_le_bytes());
    run.state[at + 4] = kind;
    run.state[18] = run.state[18].max(index as u8 + 1);
}

#[test]
fn a_sound_run_is_not_refused() {
    assert_eq!(refusal(|_| {}), 0);
}

#[test]
fn length_is_1() {
    assert_eq!(refusal(|r| r.image.clear()), 1);
    assert_eq!(refusal(|r| r.image = vec![0xEA; 16_385]), 0);
    assert_eq!(refusal(|r| r.image = vec![0xEA; 65_536]), 0);
    assert_eq!(refusal(|r| r.image = vec![0xEA; 65_537]), 1);
    assert_eq!(refusal(|r| (r.image, r.base) = (Vec::new(), u32::MAX)), 1);
}

#[test]
fn base_is_2() {
    assert_eq!(refusal(|r| r.base = 0xFFFC), 0);
    assert_eq!(refusal(|r| r.base = 0xFFFD), 0);
    assert_eq!(refusal(|r| r.base = 0x12FFFF), 0);
    assert_eq!(refusal(|r| r.base = 0xFFFFFC), 0);
    assert_eq!(refusal(|r| r.base = 0xFFFFFD), 2);
    assert_eq!(refusal(|r| r.base = 0x1000000), 2);
    assert_eq!(refusal(|r| r.base = u32::MAX), 2);
    assert_eq!(refusal(|r| (r.base, r.ram) = (0x1000000, Vec::new())), 2);
}

#[test]
fn ram_is_11() {
    assert_eq!(refusal(|r| r.ram.clear()), 11);
    assert_eq!(refusal(|r| r.ram = vec![0; 1]), 0);
    assert_eq!(refusal(|r| r.ram = vec![0; 4096]), 0);
    assert_eq!(refusal(|r| r.ram = vec![0; 4097]), 11);
    assert_eq!(refusal(|r| (r.ram, r.base) = (vec![0; 16], 16)), 0);
    assert_eq!(refusal(|r| (r.ram, r.base) = (vec![0; 17], 16)), 11);
    assert_eq!(refusal(|r| (r.ram, r.base) = (vec![0; 1], 0)), 11);
    assert_eq!(refusal(|r| (r.ram, r.state) = (Vec::new(), Vec::new())), 11);
}

#[test]
fn state_is_12() {
    // 212 bytes; 532 were a state's before R-5.
    assert_eq!(refusal(|r| r.state.resize(212, 0)), 0);
    for length in [0, 1, 20, 211, 213, 220, 531, 532, 533] {
        assert_eq!(refusal(|r| r.state.resize(length, 0)), 12);
    }
    for bit in 3..8 {
        assert_eq!(refusal(|r| r.state[15] = 1 << bit), 12);
    }
    assert_eq!(refusal(|r| r.state[15] = 7), 0);
    assert_eq!(refusal(|r| (r.state[15], r.steps) = (8, 1_000_001)), 12);
}

#[test]
fn open_calls_are_tested_by_12() {
    assert_eq!(
        refusal(|r| (0..24).for_each(|k| open(r, k, 0xFFFFFF, 1))),
        0
    );
    assert_eq!(refusal(|r| (0..24).for_each(|k| open(r, k, 0, 2))), 0);
    for depth in [25, 26, 63, 64, 65, 255] {
        assert_eq!(
            refusal(|r| {
                (0..24).for_each(|k| open(r, k, 0, 2));
                r.state[18] = depth;
            }),
            12
        );
    }
    assert_eq!(refusal(|r| r.state[19] = 1), 12);
    for (address, kind) in [(0, 0), (0, 3), (0, 0xFF), (0x1000000, 1), (u32::MAX, 2)] {
        for index in [0, 1, 23] {
            assert_eq!(
                refusal(|r| {
                    (0..=index).for_each(|k| open(r, k, 1, 1));
                    open(r, index, address, kind);
                }),
                12
            );
        }
    }
}

/// Reserved bytes and entries that are not open are not looked at.
#[test]
fn bytes_of_no_meaning_are_not_looked_at() {
    let answer = refusal(|r| {
        open(r, 0, 0xC000, 1);
        r.state[25..28].fill(0xFF);
        r.state[28..].fill(0xFF);
    });
    assert_eq!(answer, 0);
}

#[test]
fn steps_is_13() {
    assert_eq!(refusal(|r| r.steps = 1_000_000), 0);
    assert_eq!(refusal(|r| r.steps = 1_000_001), 13);
    assert_eq!(refusal(|r| r.steps = u32::MAX), 13);
}

/// A call writes its entry with reserved bytes 0; a return leaves it.
#[test]
fn entries_change_only_when_opened() {
    let image = [0x22, 0x05, 0xC0, 0x00, 0xDB, 0x6B];
    let mut state = sound().state;
    state[8..10].copy_from_slice(&[0x0F, 0x00]);
    state[20..].fill(0xAB);
    let mut ram = vec![0; 16];
    assert_eq!(
        step(&image, 0xC000, &mut state, &mut ram),
        1 << 16 | 1 << 40
    );
    assert_eq!(state[18..28], [1, 0, 0x04, 0xC0, 0, 0, 2, 0, 0, 0]);
    assert!(state[28..].iter().all(|&b| b == 0xAB));
    let mut after = state.clone();
    assert_eq!(step(&image, 0xC000, &mut after, &mut ram), 1 << 16);
    assert_eq!(after[18..20], [0, 0]);
    assert_eq!(after[20..], state[20..]);
}
