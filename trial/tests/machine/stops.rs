//! Wrong machines: the order of stops, and what a stopped step leaves.

use crate::stand_in::{put, Made, Twist};
use sim7700::alu::D;
use sim7700::codes::Word;
use sim7700::state::set_depth;

pub const FAULTS: [(&str, Twist); 18] = [
    ("halt early", halt_early),
    ("STP goes on", stp_goes_on),
    ("astray before the pulls", astray_early),
    ("astray though the call fits", astray_always),
    ("a word's high byte tested before its low", high_byte_first),
    ("a push's low byte tested before its high", low_push_first),
    ("an image store is 23", image_store_unmapped),
    ("27 after a read", decimal_after_read),
    ("25 after the pushes", deep_after_pushes),
    ("a call with 24 open", deep_goes_on),
    ("25 with 23 open", deep_early),
    ("operand bytes before 21", operand_before_code),
    ("a lone prefix is 21", lone_prefix),
    ("a stopped store's first byte kept", store_kept),
    ("a stopped push's first byte kept", push_kept),
    ("S kept of a stopped pull", pull_kept),
    ("PC kept of a halt", halt_kept),
    ("the image stored into", image_written),
];

fn halt_early(made: &mut Made) {
    if made.does(Word::NOP) {
        made.stop_with(22);
    }
}

fn stp_goes_on(made: &mut Made) {
    if made.stops(Word::STP, 22) {
        made.answer = 1 << 16;
        made.put(|r| r.pc = (r.pc + 1) & 0xFF_FFFF);
    }
}

fn astray_early(made: &mut Made) {
    if made.stops(Word::RTS, 23) && made.open_calls() == 0 {
        made.stop_with(24);
    }
}

fn astray_always(made: &mut Made) {
    if made.does(Word::RTL) {
        made.stop_with(24);
    }
}

/// The address of a word that STA absolute stores.
fn stored_word(made: &Made) -> Option<u32> {
    let it = made.instruction()?;
    let before = made.before();
    let word = it.code == 0x8D && it.page == 0 && !before.m();
    let low = made.operand_word()?;
    word.then_some((before.dt as u32) << 16 | low as u32)
}

fn high_byte_first(made: &mut Made) {
    if let Some(address) = stored_word(made) {
        match made.store_at(address + 1) {
            0 => {}
            stop => made.stop_with(stop),
        }
    }
}

/// S where PHA pushes a word.
fn pushed_word(made: &Made) -> Option<u16> {
    let it = made.instruction()?;
    let word = it.code == 0x48 && it.page == 0 && !made.before().m();
    word.then(|| made.before().s)
}

fn low_push_first(made: &mut Made) {
    if let Some(s) = pushed_word(made) {
        match made.store_at(s.wrapping_sub(1) as u32) {
            0 => {}
            stop => made.stop_with(stop),
        }
    }
}

fn image_store_unmapped(made: &mut Made) {
    if made.number() == 26 {
        made.stop_with(23);
    }
}

fn decimal_after_read(made: &mut Made) {
    if made.number() == 27 {
        made.instead(|_, state| put(state, |r| r.ps &= !D));
        if made.number() != 23 {
            made.stop_with(27);
        }
    }
}

fn deep_after_pushes(made: &mut Made) {
    if made.number() == 25 {
        made.instead(|_, state| set_depth(state, 23));
        if made.number() == 0 {
            made.stop_with(25);
        }
    }
}

/// There is no room for its entry.
fn deep_goes_on(made: &mut Made) {
    if made.number() == 25 {
        made.instead(|_, state| set_depth(state, 23));
        if made.number() == 0 {
            set_depth(made.state, 25);
        }
    }
}

fn deep_early(made: &mut Made) {
    if made.does(Word::JSR) && made.open_calls() == 23 {
        made.stop_with(25);
    }
}

fn operand_before_code(made: &mut Made) {
    if let (21, Some(it)) = (made.number(), made.instruction()) {
        if it.at + it.length > made.image.len() {
            made.stop_with(20);
        }
    }
}

fn lone_prefix(made: &mut Made) {
    if made.number() == 20 {
        let at = made.before().pc.wrapping_sub(made.base) as usize;
        if matches!(made.image.get(at..), Some([0x42 | 0x89])) {
            made.stop_with(21);
        }
    }
}

fn store_kept(made: &mut Made) {
    if let (23 | 26, Some(address)) = (made.number(), stored_word(made)) {
        if let Some(place) = made.ram.get_mut(address as usize) {
            *place = made.given[0];
        }
    }
}

fn push_kept(made: &mut Made) {
    if let (23 | 26, Some(s)) = (made.number(), pushed_word(made)) {
        if let Some(place) = made.ram.get_mut(s as usize) {
            *place = made.given[1];
        }
    }
}

fn pull_kept(made: &mut Made) {
    if made.stops(Word::RTS, 24) {
        made.put(|r| r.s = r.s.wrapping_add(2));
    }
}

fn halt_kept(made: &mut Made) {
    if made.stops(Word::WIT, 22) {
        made.put(|r| r.pc = (r.pc + 1) & 0xFF_FFFF);
    }
}

fn image_written(made: &mut Made) {
    if made.number() == 26 {
        made.image[0] ^= 1;
    }
}
