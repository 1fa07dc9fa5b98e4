//! The harness of steps and runs: wrong machines are found, a broken guarantee
//! too.

mod calls;
mod guarantee;
mod operations;
mod stand_in;
mod stops;
mod wrong_runs;

use sim7700::generate::RunCase;
use sim7700::state::{Registers, STATE_BYTES};
use stand_in::{check, run, step, with_run, with_step, Twist};
use trial7700::machine::{Call, Subject};
use trial7700::runs::lister::Lister;
use trial7700::tally::Tally;
use trial7700::{runs, steps};

const SEED: u64 = 3;

fn differences(tallies: &[Tally]) -> u64 {
    tallies.iter().map(Tally::differences).sum()
}

fn in_steps(count: u64) -> u64 {
    differences(&steps::tried(step, count, SEED))
}

fn in_runs(count: u64) -> u64 {
    differences(&runs::tried(Lister::new(check, step, run), count, SEED))
}

/// The wrong steps that a trial of steps does not find.
fn unfound(faults: &[(&'static str, Twist)]) -> Vec<&'static str> {
    let lost = |&&(_, twist): &&(&str, Twist)| with_step(twist, || in_steps(8_000)) == 0;
    faults.iter().filter(lost).map(|fault| fault.0).collect()
}

#[test]
fn the_same_machine_differs_nowhere() {
    assert_eq!(in_steps(50_000), 0);
    assert_eq!(in_runs(20_000), 0);
}

#[test]
fn wrong_operations_are_found() {
    assert_eq!(unfound(&operations::FAULTS), [""; 0]);
}

#[test]
fn wrong_stops_are_found() {
    assert_eq!(unfound(&stops::FAULTS), [""; 0]);
}

#[test]
fn wrong_calls_and_refusals_are_found() {
    assert_eq!(unfound(&calls::FAULTS), [""; 0]);
}

#[test]
fn wrong_runs_are_found() {
    for (name, wrong) in wrong_runs::FAULTS {
        assert!(with_run(wrong, || in_runs(6_000)) > 0, "{name}");
    }
}

/// A wrong step in a list is found by the run of it and by itself.
#[test]
fn wrong_steps_are_found_in_runs() {
    for (name, twist) in [
        operations::FAULTS[0],
        operations::FAULTS[2],
        stops::FAULTS[0],
    ] {
        assert!(with_step(twist, || in_runs(3_000)) > 0, "{name}");
    }
}

#[test]
fn a_difference_shows_the_case() {
    let mut case = RunCase {
        image: vec![0xEA, 0xEA],
        base: 0xC000,
        state: vec![0; STATE_BYTES],
        ram: vec![7],
        fill: (0, 0),
        steps: 1,
    };
    let registers = Registers {
        a: 0x12,
        pc: 0xC001,
        ..Registers::default()
    };
    registers.write(&mut case.state);
    let wrong: Twist = |made| {
        made.stop_with(22);
        made.state[2] = 0xB0;
        made.ram[0] = 8;
    };
    let mut subject = Subject::new(Call::Step(step));
    let shown = with_step(wrong, || subject.compare(&case).err());
    let wanted = "library refusal 0, end 22, 0 steps, 0 calls, \
                  simulator refusal 0, end 0, 1 steps, 0 calls\n\
                  state after the call: B0 for 00 at 2, 01 for 02 at 10\n\
                  RAM after the call: 08\n  base 00C000, 1 steps asked\n  \
                  Registers { a: 12, b: 0, x: 0, y: 0, s: 0, dpr: 0, ps: 0, dt: 0, pc: C001 }, \
                  0 open calls\n  NOP IMP at offset 1\n  image, 2 bytes: EAEA\n  \
                  state, 212 bytes: 1200000000000000000001C0";
    let shown = shown.expect("a difference");
    assert_eq!(shown[..wanted.len()], *wanted);
    assert!(shown.ends_with("\n  RAM, 1 bytes: 07"), "{shown}");
}
