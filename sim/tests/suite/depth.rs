//! The limit of open calls (02, R-5): 24 for 64, and runs that it leaves as
//! they were.

use sim7700::generate::*;
use sim7700::run_within;
use sim7700::state::{depth, open_call, Registers};
use std::collections::BTreeMap;

/// Limit and bytes of a state, since R-5 and before.
const NOW: (usize, usize) = (24, 212);
const BEFORE: (usize, usize) = (64, 532);

/// Answer, registers, open calls and RAM; and the bytes of the first 24
/// entries, open or not.
#[derive(PartialEq, Debug)]
struct Behaviour {
    answer: u64,
    registers: Registers,
    calls: Vec<(u32, u8)>,
    ram: Vec<u8>,
    entries: Vec<u8>,
}

/// A state's bytes with room for other open calls.
fn resized(case: &RunCase, bytes: usize) -> Vec<u8> {
    let mut state = case.state.clone();
    state.resize(bytes, 0);
    state
}

/// A run of a case that is not refused for its state's length.
fn behaviour(case: &RunCase, (limit, bytes): (usize, usize)) -> Behaviour {
    let (mut state, mut ram) = (resized(case, bytes), case.ram.clone());
    let (image, steps) = (&case.image, case.steps);
    let answer = run_within(limit, image, case.base, &mut state, &mut ram, steps);
    Behaviour {
        answer,
        registers: Registers::read(&state),
        calls: (0..depth(&state).min(limit))
            .map(|index| open_call(&state, index))
            .collect(),
        ram,
        entries: state[20..212].to_vec(),
    }
}

/// Whether a run of the former machine that is given 24 open calls or fewer
/// meets a call with 24 open, looked at step by step: it must, to hold more.
fn goes_deep(case: &RunCase) -> bool {
    let (mut state, mut ram) = (resized(case, BEFORE.1), case.ram.clone());
    for _ in 0..case.steps {
        if depth(&state) == 24 && calls(case, &state) {
            return true;
        }
        let answer = run_within(64, &case.image, case.base, &mut state, &mut ram, 1);
        if answer & 0xFFFF != 0 {
            return false;
        }
    }
    false
}

/// Whether a JSR stands at PG and PC, long or not, whole.
fn calls(case: &RunCase, state: &[u8]) -> bool {
    let at = Registers::read(state).pc.wrapping_sub(case.base) as usize;
    match case.image.get(at..) {
        Some([0x20, rest @ ..]) => rest.len() >= 2,
        Some([0x22, rest @ ..]) => rest.len() >= 3,
        _ => false,
    }
}

/// Drawn runs with a state of 212 bytes: programs, calls without return,
/// random bytes, all stops, refusals, each number of open calls.
fn drawn() -> Vec<RunCase> {
    let mut rng = Rng::new(24);
    let mut cases: Vec<RunCase> = (0..6_000).map(|_| run_case(&mut rng)).collect();
    for stop in (20..=27).cycle().take(1_200) {
        cases.push(stopped_by(&mut rng, stop));
    }
    cases.extend((0..100).flat_map(|_| continued_runs(&mut rng)));
    cases.extend(depth_runs(&mut rng));
    cases.extend(depth_steps(&mut rng));
    // Refused ones too, but for the calls that they hold.
    cases.retain(|case| case.state.len() == NOW.1 && depth(&case.state) <= NOW.0);
    // A loop is looked at for so long.
    for case in cases.iter_mut().filter(|case| case.steps <= 1_000_000) {
        case.steps = case.steps.min(3_000);
    }
    cases
}

/// "Runs that never held more than 24, nor met a call with 24 open, behave as
/// they did"; every other one does not.
#[test]
fn shallow_runs_behave_as_they_did() {
    let (mut same, mut nested, mut other) = (0, 0, 0);
    for case in drawn() {
        let (now, before) = (behaviour(&case, NOW), behaviour(&case, BEFORE));
        let refused = before.answer & 0xFF != 0;
        if !refused && goes_deep(&case) {
            assert_ne!(now.answer, before.answer, "{case:02X?}");
            assert_eq!(now.answer & 0xFFFF, 25 << 8, "{case:02X?}");
            assert_eq!(now.calls.len(), 24);
            other += 1;
        } else {
            assert_eq!(now, before, "{case:02X?}");
            same += 1;
            nested += (now.calls.len() > 20 || now.answer >> 40 > 20) as u32;
        }
    }
    assert!(
        same > 5_000 && nested > 100 && other > 300,
        "{same}, {nested} of them deep, {other} other"
    );
}

/// `run` is the machine with room for 24.
#[test]
fn the_limit_is_24() {
    let cases = drawn();
    for case in cases.iter().take(2_000) {
        let (answer, state, ram) = case.answer();
        let now = behaviour(case, NOW);
        assert_eq!((answer, ram), (now.answer, now.ram));
        assert_eq!(Registers::read(&state), now.registers);
        assert_eq!(state[20..], now.entries);
    }
}

/// A state of before R-5 is refused, however few calls it holds; the former
/// machine took it. In 212 bytes it is refused if it holds more than 24.
#[test]
fn former_states_are_refused() {
    let mut former = depth_steps(&mut Rng::new(5));
    former.retain(|case| case.state.len() == BEFORE.1);
    assert_eq!(former.len(), 6);
    for mut case in former {
        let before = behaviour(&case, BEFORE);
        assert_eq!(before.answer, 1 << 16);
        assert_eq!(case.answer(), (12, case.state.clone(), case.ram.clone()));
        case.state.truncate(NOW.1);
        let wanted = if before.calls.len() > 24 { 12 } else { 1 << 16 };
        assert_eq!(case.answer().0, wanted);
    }
}

/// A routine that calls itself: each depth up to 24 is reached and left, one
/// more ends with 25, and it goes on from there no further.
#[test]
fn nested_runs_end_by_their_depth() {
    let mut ends = BTreeMap::new();
    // Behind these come refused runs.
    for pair in depth_runs(&mut Rng::new(8)).chunks_exact(2).take(84) {
        let (first, rest) = (&pair[0], &pair[1]);
        let open = depth(&first.state);
        let deep = Registers::read(&first.state).x as usize;
        let mut whole = first.clone();
        whole.steps = 1_000;
        let (answer, state, _) = whole.answer();
        let room = 24 - open;
        // A call, three steps for each further one, DEX and BEQ, the returns.
        let (end, steps) = match deep <= room {
            true => (22, 4 * deep),
            false => (25, 3 * room),
        };
        let calls = deep.min(room) as u64;
        assert_eq!(answer, end << 8 | (steps as u64) << 16 | calls << 40);
        assert_eq!(depth(&state), if end == 22 { open } else { 24 });
        assert_eq!(rest.answer().1, state, "in two parts");
        *ends.entry(end).or_insert(0) += 1;
    }
    assert_eq!(ends, BTreeMap::from([(22, 36), (25, 48)]));
}
