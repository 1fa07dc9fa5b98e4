//! Wrong machines: calls, refusals, the packed answer, and bytes beside the
//! buffers.

use crate::stand_in::{Made, Twist};
use sim7700::codes::Word;
use sim7700::numbers::bank;
use sim7700::state::{self, set_depth, CALL_BYTES, HEAD_BYTES, STATE_BYTES};

pub const FAULTS: [(&str, Twist); 25] = [
    ("the address of a call's last byte pushed", last_byte_pushed),
    (
        "the address of a call's last byte in the entry",
        last_byte_kept,
    ),
    ("a call's target in its own bank", target_in_own_bank),
    ("a jump's target in its own bank", jump_in_own_bank),
    ("a return in its own bank", return_in_own_bank),
    (
        "the reserved bytes not cleared at an opened call",
        reserved_kept,
    ),
    ("the entry cleared at a closed call", entry_cleared),
    ("the depth kept at a closed call", depth_kept),
    ("the bank of a return not compared", bank_not_compared),
    ("the kind of a return not compared", kind_not_compared),
    ("an old entry looked at", old_entry_refused),
    ("24 open calls refused", full_refused),
    ("25 open calls accepted", deeper_accepted),
    ("a state of 532 bytes accepted", former_accepted),
    ("a longer state accepted", longer_accepted),
    ("a PS with bit 11 accepted", status_accepted),
    ("RAM up to the base refused", touching_refused),
    ("12 before 11", state_before_ram),
    ("11 before 2", ram_before_base),
    ("a refusal with a step", refusal_counts),
    ("a refusal that writes RAM", refusal_writes),
    ("a call not counted", call_dropped),
    ("a return counted as a call", return_counted),
    ("a stopped step counted", stop_counted),
    ("a byte in front of the RAM written", front_written),
];

fn last_byte_pushed(made: &mut Made) {
    if made.does(Word::JSR) {
        let low = made.after().s.wrapping_add(1) as usize;
        made.ram[low] = made.ram[low].wrapping_sub(1);
    }
}

/// Where the entry of the call that a completed JSR has opened begins.
fn opened(made: &Made) -> Option<usize> {
    made.does(Word::JSR)
        .then(|| HEAD_BYTES + CALL_BYTES * made.open_calls())
}

fn last_byte_kept(made: &mut Made) {
    if let Some(at) = opened(made) {
        made.state[at] = made.state[at].wrapping_sub(1);
    }
}

/// Goes on in the bank of the instruction itself, if it is this one.
fn in_own_bank(made: &mut Made, word: Word, code: u8) {
    let Some(it) = made.instruction() else { return };
    let own = bank(made.before().pc);
    if made.does(word) && it.code == code {
        made.put(|r| r.pc = own | r.pc & 0xFFFF);
    }
}

fn target_in_own_bank(made: &mut Made) {
    in_own_bank(made, Word::JSR, 0x20);
}

fn jump_in_own_bank(made: &mut Made) {
    in_own_bank(made, Word::JMP, 0x4C);
}

fn return_in_own_bank(made: &mut Made) {
    if made.does(Word::RTS) && bank(made.before().pc) != bank(made.after().pc) {
        made.stop_with(24);
    }
}

fn reserved_kept(made: &mut Made) {
    if let Some(at) = opened(made) {
        made.state[at + 5..at + 8].copy_from_slice(&made.given[at + 5..at + 8]);
    }
}

fn entry_cleared(made: &mut Made) {
    if made.does(Word::RTS) {
        let at = made.last_call().expect("a call was open");
        made.state[at..at + CALL_BYTES].fill(0);
    }
}

fn depth_kept(made: &mut Made) {
    if made.does(Word::RTL) {
        set_depth(made.state, made.open_calls());
    }
}

/// Returns as if the byte of the call opened last were another.
fn return_with(made: &mut Made, word: Word, byte: usize, value: u8) {
    if !made.stops(word, 24) {
        return;
    }
    if let Some(at) = made.last_call() {
        made.instead(|_, state| state[at + byte] = value);
        made.state[at + byte] = made.given[at + byte];
    }
}

fn bank_not_compared(made: &mut Made) {
    if made.number() == 24 {
        let next = made.before().pc + 1;
        return_with(made, Word::RTS, 2, (next >> 16) as u8);
    }
}

fn kind_not_compared(made: &mut Made) {
    return_with(made, Word::RTL, 4, 2);
}

/// Refuses instead, with all as given.
fn refuse(made: &mut Made, number: u8) {
    made.stop_with(0);
    made.answer = number as u64;
}

fn old_entry_refused(made: &mut Made) {
    if matches!(made.number(), 0 | 20..) && made.open_calls() < 24 {
        let kind = HEAD_BYTES + CALL_BYTES * made.open_calls() + 4;
        if made.given[kind] > 2 {
            refuse(made, 12);
        }
    }
}

fn full_refused(made: &mut Made) {
    if matches!(made.number(), 0 | 20..) && made.open_calls() == 24 {
        refuse(made, 12);
    }
}

/// Its step is made without the 25th.
fn deeper_accepted(made: &mut Made) {
    if made.number() == 12 && made.state.len() == STATE_BYTES && made.open_calls() == 25 {
        made.instead(|_, state| set_depth(state, 24));
        set_depth(made.state, 25);
    }
}

/// As by a machine with room for 64.
fn former_accepted(made: &mut Made) {
    if made.number() == 12 && made.state.len() == 532 {
        made.answer = sim7700::run_within(64, made.image, made.base, made.state, made.ram, 1);
    }
}

fn longer_accepted(made: &mut Made) {
    if made.number() == 12 && made.state.len() > STATE_BYTES {
        made.answer = sim7700::step(
            made.image,
            made.base,
            &mut made.state[..STATE_BYTES],
            made.ram,
        );
    }
}

fn status_accepted(made: &mut Made) {
    if made.number() == 12 && made.state.len() == STATE_BYTES && made.state[15] & 0xF8 == 0x08 {
        made.instead(|_, state| state[15] &= 7);
        made.state[15] |= 8;
    }
}

fn touching_refused(made: &mut Made) {
    if matches!(made.number(), 0 | 12 | 20..) && made.ram.len() == made.base as usize {
        refuse(made, 11);
    }
}

fn state_before_ram(made: &mut Made) {
    if made.number() == 11 && state::accept(made.state).is_err() {
        refuse(made, 12);
    }
}

fn ram_before_base(made: &mut Made) {
    if made.number() == 2 && made.ram.is_empty() {
        refuse(made, 11);
    }
}

fn refusal_counts(made: &mut Made) {
    if made.number() == 12 {
        made.answer |= 1 << 16;
    }
}

fn refusal_writes(made: &mut Made) {
    if let (12, Some(last)) = (made.number(), made.ram.last_mut()) {
        *last ^= 1;
    }
}

fn call_dropped(made: &mut Made) {
    if made.does(Word::JSR) {
        made.answer = 1 << 16;
    }
}

fn return_counted(made: &mut Made) {
    if made.does(Word::RTS) {
        made.answer |= 1 << 40;
    }
}

fn stop_counted(made: &mut Made) {
    if made.number() == 25 {
        made.answer |= 1 << 16;
    }
}

fn front_written(made: &mut Made) {
    if made.number() == 23 {
        // SAFETY: the harness keeps bytes in front of a buffer.
        unsafe { *made.ram.as_mut_ptr().sub(1) ^= 1 };
    }
}
