//! Steps that stop, at each place where a stop can arise.

use super::scene::{Layout, Scene, BANK_END, GAP, TOP, TOUCHING};
use super::values::stores;
use super::{Rng, RunCase};
use crate::alu;
use crate::codes::{entry_of, Entry, Mode, Word};
use crate::numbers::MAX_CALLS;
use crate::state::{set_call, CALL_BYTES, HEAD_BYTES};

const WIDTHS: [u16; 4] = [0, alu::X, alu::M, alu::M | alu::X];

/// A code with its page.
type Code = (usize, u8);

/// All of them.
pub fn placed_steps(rng: &mut Rng) -> Vec<RunCase> {
    let mut cases = store_places(rng);
    cases.extend(read_places(rng));
    cases.extend(pointer_places(rng));
    cases.extend(push_places(rng));
    cases.extend(pull_places(rng));
    cases.extend(return_places(rng));
    cases.extend(deep_places(rng));
    cases.extend(entry_places(rng));
    cases.extend(decimal_places(rng));
    cases.extend(code_places(rng));
    cases.extend(begin_places(rng));
    cases
}

pub(super) fn codes_that(wanted: impl Fn(&'static Entry) -> bool) -> Vec<Code> {
    let all = (0..3).flat_map(|page| (0..=255).map(move |code| (page, code)));
    all.filter(|&(page, code)| wanted(entry_of(page, code)))
        .collect()
}

fn has_data_address(entry: &Entry) -> bool {
    use Mode::*;
    let none = matches!(entry.mode, IMP | IMM | ACC | REL | STK | None | BLK);
    entry.carried && !none && !matches!(entry.word, Word::JMP | Word::JSR)
}

fn has_pointer(mode: Mode) -> bool {
    use Mode::*;
    matches!(mode, I_DIR | I_DIR_X | I_DIR_Y | L_DIR | L_DIR_Y | I_SR_Y)
}

/// Whether a word handles data by x instead of m.
fn by_index(word: Word) -> bool {
    use Word::*;
    matches!(
        word,
        STX | STY | LDX | LDY | CPX | CPY | PHX | PHY | PLX | PLY
    )
}

/// The pushes and pulls of a register by m or x.
fn by_width(word: Word) -> bool {
    use Word::*;
    matches!(word, PHA | PHB | PHX | PHY | PLA | PLB | PLX | PLY)
}

/// Words and bytes, where a push or pull can be both.
fn lengths(word: Word) -> &'static [bool] {
    if by_width(word) {
        &[true, false]
    } else {
        &[true]
    }
}

/// Widths for a push or pull; drawn where they have no say.
fn stack_widths(rng: &mut Rng, word: Word, words: bool) -> u16 {
    if by_width(word) {
        widths_for(rng, word, words)
    } else {
        *rng.pick(&WIDTHS)
    }
}

/// Widths at which the code handles words or bytes; the other one is drawn.
fn widths_for(rng: &mut Rng, word: Word, words: bool) -> u16 {
    let (own, other) = if by_index(word) {
        (alu::X, alu::M)
    } else {
        (alu::M, alu::X)
    };
    (if words { 0 } else { own }) | if rng.chance(1, 2) { other } else { 0 }
}

/// One step with its data address at a goal; none if the mode has no way.
fn at_goal(
    rng: &mut Rng,
    (page, code): Code,
    layout: Layout,
    words: bool,
    goal: u32,
) -> Option<RunCase> {
    let widths = widths_for(rng, entry_of(page, code).word, words);
    let mut scene = Scene::new(rng, layout, page, code, widths);
    let index = if goal > 8 { 1 + scene.rng.below(8) } else { 0 };
    let place = 0x10 + scene.rng.below(0x40) as u32;
    scene.reach(goal, place, index as u32)?;
    Some(scene.finish())
}

/// Stores with the first and with the second byte failing: past RAM, before,
/// in and behind the image, at FFFFFF and one above.
fn store_places(rng: &mut Rng) -> Vec<RunCase> {
    let (end, base, last) = (GAP.ram_end(), GAP.base, GAP.image_end() - 1);
    let goals = [
        (GAP, end - 2),
        (GAP, end - 1),
        (GAP, end),
        (GAP, base - 1),
        (GAP, base),
        (GAP, last - 1),
        (GAP, last),
        (GAP, last + 1),
        (TOUCHING, end - 1),
        (TOUCHING, end),
        (TOP, TOP.base - 1),
        (TOP, 0xFF_FFFE),
        (TOP, 0xFF_FFFF),
        (TOP, 0x100_0000),
    ];
    let mut cases = Vec::new();
    for code in codes_that(|e| has_data_address(e) && stores(e.word)) {
        for words in [true, false] {
            for (layout, goal) in goals {
                cases.extend(at_goal(rng, code, layout, words, goal));
            }
        }
    }
    cases
}

/// Reads of words with the first and with the second byte failing.
fn read_places(rng: &mut Rng) -> Vec<RunCase> {
    let mut cases = Vec::new();
    for code in codes_that(|e| has_data_address(e) && !stores(e.word)) {
        for (layout, goal) in [
            (GAP, GAP.ram_end() - 1),
            (GAP, GAP.image_end() - 1),
            (TOP, 0xFF_FFFF),
        ] {
            cases.extend(at_goal(rng, code, layout, true, goal));
        }
        cases.extend(at_goal(rng, code, GAP, false, GAP.ram_end()));
        cases.extend(at_goal(rng, code, TOP, false, 0x100_0000));
    }
    cases
}

/// Pointers with each of their bytes failing; the datum would be served.
fn pointer_places(rng: &mut Rng) -> Vec<RunCase> {
    let mut cases = Vec::new();
    for (page, code) in codes_that(|e| has_data_address(e) && has_pointer(e.mode)) {
        let entry = entry_of(page, code);
        let long = matches!(entry.mode, Mode::L_DIR | Mode::L_DIR_Y);
        for there in 0..2 + long as u32 {
            for layout in [GAP, BANK_END] {
                let end = match layout.base {
                    0xC000 => layout.ram_end(),
                    _ => layout.image_end(),
                };
                let widths = *rng.pick(&WIDTHS);
                let mut scene = Scene::new(rng, layout, page, code, widths);
                scene.at = Some(0);
                if scene.reach(0x40, end - there, 3).is_some() {
                    cases.push(scene.finish());
                }
            }
        }
    }
    cases
}

/// The words that push.
fn pushes(word: Word) -> bool {
    use Word::*;
    matches!(
        word,
        PHA | PHB | PHD | PHG | PHP | PHT | PHX | PHY | PEA | PEI | PER | JSR
    )
}

/// S at its ends and at those of RAM and image.
fn stack_pointers(layout: Layout) -> Vec<u16> {
    let (end, base) = (layout.ram_end(), layout.base);
    let behind = layout.image_end();
    let mut all: Vec<u16> = vec![0, 1, 2, 0xFFFE, 0xFFFF];
    let near = [
        end.wrapping_sub(3),
        end - 2,
        end - 1,
        end,
        end + 1,
        end + 2,
        base - 1,
        base,
        base + 1,
        behind - 3,
        behind - 2,
        behind - 1,
        behind,
        behind + 1,
    ];
    all.extend(near.iter().map(|&s| s as u16));
    all.sort_unstable();
    all.dedup();
    all
}

const TINY: [Layout; 3] = [
    Layout::new(1, 1, 8),
    Layout::new(2, 2, 8),
    Layout::new(3, 0xC000, 8),
];

/// Pushes with the first, the second and the third byte failing.
fn push_places(rng: &mut Rng) -> Vec<RunCase> {
    let mut cases = Vec::new();
    for (page, code) in codes_that(|e| e.carried && pushes(e.word)) {
        let word = entry_of(page, code).word;
        for &words in lengths(word) {
            for layout in [GAP, TOUCHING, BANK_END] {
                for s in stack_pointers(layout) {
                    cases.push(pushing(rng, (page, code), layout, words, s));
                }
            }
            for layout in TINY {
                for s in [0, 1, 2, 3] {
                    cases.push(pushing(rng, (page, code), layout, words, s));
                }
            }
        }
        if word == Word::PEI {
            // Read 23 before the pushes, whatever S is.
            for s in [0x100, 0xC000, 0xFFFF] {
                for goal in [0x1FF, 0x200, 0xC007] {
                    let mut scene = Scene::new(rng, GAP, page, code, 0);
                    scene.reach(goal, 0, 0);
                    scene.r.s = s;
                    cases.push(scene.finish());
                }
            }
        }
    }
    cases
}

fn pushing(rng: &mut Rng, (page, code): Code, layout: Layout, words: bool, s: u16) -> RunCase {
    let word = entry_of(page, code).word;
    let widths = stack_widths(rng, word, words);
    let mut scene = Scene::new(rng, layout, page, code, widths);
    if word == Word::PEI {
        scene.reach(0, 0, 0);
    }
    scene.r.dt = scene.rng.byte();
    scene.r.s = s;
    scene.finish()
}

/// Pulls with the first, the second and the third byte failing, also those
/// of returns whose open call fits or does not (23 goes before 24).
fn pull_places(rng: &mut Rng) -> Vec<RunCase> {
    use Word::*;
    let mut cases = Vec::new();
    for (page, code) in
        codes_that(|e| e.carried && matches!(e.word, PLA | PLB | PLD | PLT | PLX | PLY | RTS | RTL))
    {
        for &words in lengths(entry_of(page, code).word) {
            for layout in [GAP, TOUCHING, BANK_END] {
                for s in stack_pointers(layout) {
                    cases.push(pulling(rng, (page, code), layout, words, s));
                }
            }
        }
    }
    cases
}

/// A pull whose first byte is at S as given.
fn pulling(rng: &mut Rng, (page, code): Code, layout: Layout, words: bool, s: u16) -> RunCase {
    let widths = stack_widths(rng, entry_of(page, code).word, words);
    let mut scene = Scene::new(rng, layout, page, code, widths);
    scene.at = Some(0);
    scene.r.s = s.wrapping_sub(1);
    let kind = if scene.entry.word == Word::RTL { 2 } else { 1 };
    if scene.rng.chance(2, 3) {
        let address = pulled(&mut scene, kind);
        scene.calls.push((address, kind));
    }
    scene.finish()
}

/// Puts an address where a return pulls it from, as far as there is memory.
pub(super) fn pulled(scene: &mut Scene, kind: u8) -> u32 {
    let low = scene.rng.edge_word() as u32;
    let bank = match kind {
        1 => scene.bank(),
        _ => (scene.rng.edge_byte() as u32) << 16,
    };
    for k in 0..if kind == 1 { 2 } else { 3 } {
        let place = scene.r.s.wrapping_add(1 + k) as u32;
        let byte = ((bank | low) >> (8 * k)) as u8;
        scene.patches.push((place, byte));
    }
    bank | low
}

/// RTS and RTL with each of the three causes of 24, alone and joined, with
/// pulls that are served and with such that are not.
fn return_places(rng: &mut Rng) -> Vec<RunCase> {
    let mut cases = Vec::new();
    for (code, kind) in [(0x60, 1), (0x6B, 2)] {
        for base in [0xC000, 0x12_8000, 0xFF_FFF8] {
            for s in [0x100, 0x1FC, 0x1FD, 0x1FE, 0x1FF, 0xFFFF] {
                for way in 0..9 {
                    let layout = Layout::new(0x200, base, 8);
                    let widths = *rng.pick(&WIDTHS);
                    let mut scene = Scene::new(rng, layout, 0, code, widths);
                    scene.r.s = s;
                    let address = pulled(&mut scene, kind);
                    scene.calls = open_calls(scene.rng, way, address, kind);
                    let mut case = scene.finish();
                    if way == 1 {
                        // A fitting call that is closed already.
                        set_call(&mut case.state, 0, address, kind);
                    }
                    cases.push(case);
                }
            }
        }
        for bit in 0..24 {
            let mut scene = Scene::new(rng, GAP, 0, code, 0);
            let address = pulled(&mut scene, kind);
            scene.calls = vec![(address, kind), (address ^ 1 << bit, kind)];
            cases.push(scene.finish());
        }
    }
    cases
}

fn open_calls(rng: &mut Rng, way: u32, address: u32, kind: u8) -> Vec<(u32, u8)> {
    let other = address ^ 1 << rng.below(24);
    let fits = (address, kind);
    match way {
        0 | 1 => vec![],
        2 => vec![(address, 3 - kind)],
        3 => vec![(other, kind)],
        4 => vec![(other, 3 - kind)],
        5 => vec![fits, (address, 3 - kind)],
        6 => vec![fits, (other, kind)],
        7 => vec![(other, 3 - kind), fits],
        _ => vec![fits],
    }
}

/// Calls with as many open as there can be and with one fewer, wherever S is:
/// 25 goes before the pushes.
fn deep_places(rng: &mut Rng) -> Vec<RunCase> {
    let mut cases = Vec::new();
    for code in [0x20, 0x22] {
        for layout in [GAP, BANK_END] {
            for s in [0x1FF, 0x200, 0, 1, 0xFFFF, layout.base as u16] {
                for depth in [MAX_CALLS, MAX_CALLS - 1] {
                    let widths = *rng.pick(&WIDTHS);
                    let mut scene = Scene::new(rng, layout, 0, code, widths);
                    scene.r.s = s;
                    scene.calls = (0..depth as u32)
                        .map(|k| (k << 8, 1 + k as u8 % 2))
                        .collect();
                    cases.push(scene.finish());
                }
            }
        }
    }
    cases
}

/// Open calls whose reserved bytes are not 0, with old bytes behind the last
/// one: only a call's own entry changes, and closing leaves it.
fn entry_places(rng: &mut Rng) -> Vec<RunCase> {
    let mut cases = Vec::new();
    for code in [0x20, 0x22, 0x60, 0x6B, 0xEA] {
        for depth in [0, 1, 2, 5] {
            let mut scene = Scene::new(rng, GAP, 0, code, 0);
            let kind = if code == 0x6B { 2 } else { 1 };
            let address = pulled(&mut scene, kind);
            scene.calls = vec![(address, kind); depth];
            let mut case = scene.finish();
            for index in 0..depth + 2 {
                let first = HEAD_BYTES + CALL_BYTES * index;
                let old = if index < depth { 5 } else { 0 };
                case.state[first + old..first + CALL_BYTES].fill_with(|| rng.byte() | 1);
            }
            cases.push(case);
        }
    }
    cases
}

/// Every ADC and SBC with D=1: with its datum, with an unmapped one, with an
/// unmapped pointer, and cut off.
fn decimal_places(rng: &mut Rng) -> Vec<RunCase> {
    let mut cases = Vec::new();
    for (page, code) in codes_that(|e| matches!(e.word, Word::ADC | Word::SBC)) {
        for (goal, place) in [(0x40, 0x80), (0x200, 0x80), (0x40, 0x200)] {
            let widths = *rng.pick(&WIDTHS);
            let mut scene = Scene::new(rng, GAP, page, code, widths);
            scene.reach(goal, place, 3);
            scene.r.ps |= alu::D;
            cases.push(scene.finish());
        }
        let widths = *rng.pick(&WIDTHS);
        let mut scene = Scene::new(rng, GAP, page, code, widths);
        scene.r.ps |= alu::D;
        scene.cut = Some(scene.length() - 1);
        cases.push(scene.finish());
    }
    cases
}

/// Images that end at FFFFFF (the next byte would be 000000, in RAM), at a
/// bank's end, and elsewhere.
const CUT_BASES: [u32; 4] = [0xFF_FFF8, 0xFFF8, 0x12_FFF8, 0xC000];

/// Instructions cut off behind each of their bytes, uncarried ones too, and
/// whole ones as the image's last bytes.
fn code_places(rng: &mut Rng) -> Vec<RunCase> {
    let mut cases = Vec::new();
    let mut turn = 0;
    for (page, code) in codes_that(|e| e.word != Word::Unassigned) {
        for cut in 1..=6 {
            turn += 1;
            let base = CUT_BASES[turn % 4];
            let widths = WIDTHS[turn / 4 % 4];
            let mut scene = Scene::new(rng, Layout::new(0x100, base, 8), page, code, widths);
            let length = scene.length();
            // The whole one stands among the others already.
            if cut >= length {
                break;
            }
            // What is left of the image ends where the whole one would.
            scene.layout.base += (length - cut) as u32;
            scene.cut = Some(cut);
            cases.push(scene.finish());
        }
    }
    for prefix in [0x42, 0x89] {
        for base in CUT_BASES {
            let mut scene = Scene::new(rng, Layout::new(0x100, base, 8), 0, 0xEA, 0);
            scene.put(0, &[0x48, 0x28]);
            let mut case = scene.finish();
            case.image[7] = prefix;
            cases.push(case);
        }
    }
    cases.extend(ends_and_wraps(rng));
    cases
}

/// Completed steps whose next address is past a bank or past FFFFFF, and
/// branches over these ends in both directions.
fn ends_and_wraps(rng: &mut Rng) -> Vec<RunCase> {
    let mut cases = Vec::new();
    for base in [0xFF_FFF8, 0xFFF8, 0x12_FFF8] {
        for (page, code) in [
            (0, 0xEA),
            (0, 0x4B),
            (0, 0x62),
            (0, 0xA9),
            (0, 0x20),
            (0, 0x22),
            (0, 0x4C),
            (1, 0x48),
            (2, 0xC2),
        ] {
            for widths in WIDTHS {
                let scene = Scene::new(rng, Layout::new(0x200, base, 8), page, code, widths);
                cases.push(scene.finish());
            }
        }
        for (code, offset) in [
            (0x80, 0x00u16),
            (0x80, 0x7F),
            (0x80, 0x80),
            (0x82, 0x7FFF),
            (0x82, 0x8000),
        ] {
            let mut scene = Scene::new(rng, Layout::new(0x200, base, 8), 0, code, 0);
            scene.operand = offset.to_le_bytes().to_vec();
            cases.push(scene.finish());
        }
    }
    // Back from bank 0's first bytes, and from a bank's.
    for base in [1, 2, 0x1_0000] {
        for (code, offset) in [
            (0x80, 0x80u16),
            (0x80, 0xFB),
            (0x82, 0x8000),
            (0x82, 0xFFF0),
        ] {
            let mut scene = Scene::new(rng, Layout::new(1, base, 8), 0, code, 0);
            scene.at = Some(0);
            scene.operand = offset.to_le_bytes().to_vec();
            cases.push(scene.finish());
        }
    }
    cases
}

/// PG and PC outside the image: in RAM, beside the image, in other banks.
fn begin_places(rng: &mut Rng) -> Vec<RunCase> {
    let mut cases = Vec::new();
    for layout in [GAP, TOUCHING, BANK_END, TOP] {
        let (base, end) = (layout.base, layout.image_end());
        for pc in [
            0,
            1,
            layout.ram_end() - 1,
            layout.ram_end(),
            base - 1,
            end,
            end + 1,
            base ^ 0x1_0000,
            0xFF_FFFF,
        ] {
            let mut scene = Scene::new(rng, layout, 0, 0xEA, 0);
            scene.put(0, &[0xEA, 0xEA]);
            scene.put(layout.ram_end() - 1, &[0xEA]);
            cases.push(scene.finish_from(pc & 0xFF_FFFF));
        }
    }
    cases
}
