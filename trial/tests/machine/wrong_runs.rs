//! Wrong machines: runs.

use crate::stand_in::WrongRun;
use sim7700::generate::{RunCase, FORMER_CALLS, FORMER_STATE_BYTES};
use sim7700::run_within;
use sim7700::state::accept;

pub const FAULTS: [(&str, WrongRun); 21] = [
    ("drops a step", drops_step),
    ("invents a step", invents_step),
    ("drops a call", drops_call),
    ("invents a call", invents_call),
    ("steps counted in 16 bits", steps_of_16_bits),
    ("calls counted in 16 bits", calls_of_16_bits),
    ("one step too many", one_more),
    ("one step too few", one_less),
    ("works only in step one", first_step_only),
    ("the state untouched", state_untouched),
    ("RAM untouched", ram_untouched),
    ("a stopped step counted", stop_counted),
    ("a stopped call counted", stopped_call_counted),
    ("the stop of the step behind the last", looks_ahead),
    ("a stop as done", stop_as_done),
    ("a step where none is asked", steps_at_0),
    ("1,000,000 steps refused", million_refused),
    ("too many steps cut down", cut_down),
    ("13 before 12", steps_before_state),
    ("a refused run that steps", refused_steps),
    ("room for 64 open calls", room_for_64),
];

const STEP: u64 = 1 << 16;
const CALL: u64 = 1 << 40;

/// Runs rightly, asked for so many steps.
fn run(lent: &mut RunCase, steps: u32) -> u64 {
    sim7700::run(
        &lent.image,
        lent.base,
        &mut lent.state,
        &mut lent.ram,
        steps,
    )
}

/// Runs rightly, as asked.
fn right(lent: &mut RunCase) -> u64 {
    run(lent, lent.steps)
}

fn refused(answer: u64) -> bool {
    answer & 0xFF != 0
}

fn end(answer: u64) -> u64 {
    answer >> 8 & 0xFF
}

fn completed(answer: u64) -> u64 {
    answer >> 16 & 0xFF_FFFF
}

fn drops_step(lent: &mut RunCase) -> u64 {
    let answer = right(lent);
    answer - if completed(answer) > 0 { STEP } else { 0 }
}

fn invents_step(lent: &mut RunCase) -> u64 {
    let answer = right(lent);
    answer + if completed(answer) > 5 { STEP } else { 0 }
}

fn drops_call(lent: &mut RunCase) -> u64 {
    let answer = right(lent);
    answer - if answer >> 40 > 2 { CALL } else { 0 }
}

fn invents_call(lent: &mut RunCase) -> u64 {
    let answer = right(lent);
    answer + if completed(answer) > 5 { CALL } else { 0 }
}

fn steps_of_16_bits(lent: &mut RunCase) -> u64 {
    right(lent) & !(0xFF << 32)
}

fn calls_of_16_bits(lent: &mut RunCase) -> u64 {
    right(lent) & !(0xFF << 56)
}

fn one_more(lent: &mut RunCase) -> u64 {
    let answer = right(lent);
    if !refused(answer) && end(answer) == 0 {
        run(lent, 1);
    }
    answer
}

fn one_less(lent: &mut RunCase) -> u64 {
    let answer = lent.answer().0;
    if refused(answer) || completed(answer) == 0 {
        return answer;
    }
    run(lent, completed(answer) as u32 - 1);
    answer
}

fn first_step_only(lent: &mut RunCase) -> u64 {
    let answer = lent.answer().0;
    if !refused(answer) && completed(answer) > 0 {
        run(lent, 1);
    }
    answer
}

fn state_untouched(lent: &mut RunCase) -> u64 {
    let state = lent.state.clone();
    let answer = right(lent);
    lent.state = state;
    answer
}

fn ram_untouched(lent: &mut RunCase) -> u64 {
    let ram = lent.ram.clone();
    let answer = right(lent);
    lent.ram = ram;
    answer
}

fn stop_counted(lent: &mut RunCase) -> u64 {
    let answer = right(lent);
    answer + if end(answer) == 22 { STEP } else { 0 }
}

fn stopped_call_counted(lent: &mut RunCase) -> u64 {
    let answer = right(lent);
    answer + if end(answer) == 25 { CALL } else { 0 }
}

fn looks_ahead(lent: &mut RunCase) -> u64 {
    let answer = right(lent);
    if refused(answer) || end(answer) != 0 {
        return answer;
    }
    let behind = RunCase {
        steps: 1,
        ..lent.clone()
    };
    answer | end(behind.answer().0) << 8
}

fn stop_as_done(lent: &mut RunCase) -> u64 {
    let answer = right(lent);
    match end(answer) {
        24 => answer & !0xFF00,
        _ => answer,
    }
}

fn steps_at_0(lent: &mut RunCase) -> u64 {
    run(lent, lent.steps.max(1))
}

fn million_refused(lent: &mut RunCase) -> u64 {
    match lent.answer().0 {
        answer if !refused(answer) && lent.steps == 1_000_000 => 13,
        _ => right(lent),
    }
}

fn cut_down(lent: &mut RunCase) -> u64 {
    run(lent, lent.steps.min(1_000_000))
}

fn steps_before_state(lent: &mut RunCase) -> u64 {
    let answer = right(lent);
    let both = answer == 12 && lent.steps > 1_000_000 && accept(&lent.state).is_err();
    if both {
        13
    } else {
        answer
    }
}

fn refused_steps(lent: &mut RunCase) -> u64 {
    let answer = right(lent);
    if answer == 13 {
        run(lent, 1);
    }
    answer
}

/// As before R-5; what is past the lent state is lost.
fn room_for_64(lent: &mut RunCase) -> u64 {
    if refused(lent.answer().0) {
        return right(lent);
    }
    let lent_bytes = lent.state.len();
    lent.state.resize(FORMER_STATE_BYTES, 0);
    let RunCase {
        image,
        base,
        state,
        ram,
        steps,
        ..
    } = &mut *lent;
    let answer = run_within(FORMER_CALLS, image, *base, state, ram, *steps);
    lent.state.truncate(lent_bytes);
    answer
}
