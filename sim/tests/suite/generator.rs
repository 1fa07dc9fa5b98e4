//! The generator: the seed alone decides, and it reaches what it should.

use sim7700::codes::{Mode, Word};
use sim7700::generate::*;
use sim7700::listing::listing;
use sim7700::state::{depth, Registers};
use sim7700::{check, codes};
use std::collections::{BTreeMap, BTreeSet};

#[test]
fn the_seed_alone_decides() {
    for seed in 0..50 {
        let (mut a, mut b) = (Rng::new(seed), Rng::new(seed));
        assert_eq!(check_case(&mut a), check_case(&mut b));
        assert_eq!(step_case(&mut a), step_case(&mut b));
        assert_eq!(run_case(&mut a), run_case(&mut b));
        assert_eq!(read_case(&mut a), read_case(&mut b));
        assert_eq!(write_case(&mut a), write_case(&mut b));
        assert_eq!(print_case(&mut a), print_case(&mut b));
        assert_eq!(locate_case(&mut a), locate_case(&mut b));
        assert_eq!(build_case(&mut a), build_case(&mut b));
        assert_eq!(explain_case(&mut a), explain_case(&mut b));
        let mut other = Rng::new(seed + 1000);
        assert_ne!(Rng::new(seed).next_u64(), other.next_u64());
    }
}

#[test]
fn accepted_programs_are_accepted() {
    let mut rng = Rng::new(11);
    for _ in 0..20_000 {
        let case = accepted(&mut rng);
        let answer = check(&case.image, &case.marks, case.base, case.reset);
        assert_eq!(answer, 0, "{case:02X?}");
    }
    for _ in 0..5_000 {
        let case = gentle(&mut rng).case;
        let answer = check(&case.image, &case.marks, case.base, case.reset);
        assert_eq!(answer, 0, "{case:02X?}");
    }
}

/// Every carried code at every pair of widths, in accepted programs.
#[test]
fn every_carried_code_is_accepted_at_every_width() {
    let mut seen = BTreeSet::new();
    for case in every_code(&mut Rng::new(5)) {
        let answer = check(&case.image, &case.marks, case.base, case.reset);
        assert_eq!(answer, 0, "{case:02X?}");
        for (at, mark) in case.marks.iter().enumerate().filter(|(_, m)| **m != 0) {
            let page = codes::page_of(case.image[at]);
            let code = case.image[at + (page > 0) as usize];
            seen.insert((page, code, mark & 6));
        }
    }
    let carried = listing().lines().filter(|l| l.ends_with("yes")).count();
    assert_eq!(seen.len(), 4 * carried);
}

#[test]
fn check_cases_reach_every_number() {
    let mut rng = Rng::new(2);
    let mut count = [0; 11];
    for _ in 0..20_000 {
        let case = check_case(&mut rng);
        let answer = check(&case.image, &case.marks, case.base, case.reset);
        count[(answer >> 16) as usize] += 1;
    }
    assert!(count.iter().all(|&n| n >= 100), "{count:?}");
}

/// The numbers that a series of runs gives: refusals and ends.
fn numbers(seed: u64, draws: u32, draw: fn(&mut Rng) -> RunCase) -> BTreeSet<u8> {
    let mut rng = Rng::new(seed);
    let mut seen = BTreeSet::new();
    for _ in 0..draws {
        let (answer, ..) = draw(&mut rng).answer();
        seen.insert(if answer & 0xFF != 0 {
            answer as u8
        } else {
            (answer >> 8) as u8
        });
    }
    seen
}

#[test]
fn steps_and_runs_reach_every_stop_and_refusal() {
    let all = BTreeSet::from([0, 1, 2, 11, 12, 13, 20, 21, 22, 23, 24, 25, 26, 27]);
    assert_eq!(numbers(4, 40_000, run_case), all);
    let steps = numbers(4, 40_000, step_case);
    assert!(steps.is_superset(&BTreeSet::from([0, 20, 21, 22, 23, 24, 25, 26, 27, 12, 11])));
}

/// Steps reach the ends of banks and of the address space.
#[test]
fn steps_reach_bank_ends() {
    let mut rng = Rng::new(8);
    let (mut banks, mut wraps) = (0, 0);
    for _ in 0..20_000 {
        let case = step_case(&mut rng);
        let (answer, after, _) = case.answer();
        let ended = (case.base & 0xFFFF) as usize + case.image.len() == 0x1_0000;
        if answer == 1 << 16 && ended && after[10..12] == [0, 0] {
            banks += 1;
            wraps += (after[16] == 0) as u32;
        }
    }
    assert!(banks > 200 && wraps > 50, "{banks} and {wraps}");
}

/// Far branches and jumps have distances beyond 8 bits.
#[test]
fn accepted_programs_branch_far() {
    let mut rng = Rng::new(13);
    let mut far = 0;
    for _ in 0..2_000 {
        let case = accepted(&mut rng);
        for at in (0..case.image.len()).filter(|&at| case.marks[at] != 0) {
            if case.image[at] == 0x82 {
                let offset = i16::from_le_bytes([case.image[at + 1], case.image[at + 2]]);
                far += !(-128..128).contains(&offset) as u32;
            }
        }
    }
    assert!(far > 20, "{far}");
}

/// Gentle programs go on for many steps and through calls.
#[test]
fn runs_go_on() {
    let mut rng = Rng::new(9);
    let (mut steps, mut calls, mut runs) = (0, 0, 0);
    for _ in 0..2_000 {
        let (answer, ..) = run_case(&mut rng).answer();
        if answer & 0xFF == 0 {
            steps += answer >> 16 & 0xFF_FFFF;
            calls += answer >> 40;
            runs += 1;
        }
    }
    assert!(
        steps > 10 * runs && calls > runs,
        "{steps} steps, {calls} calls, {runs} runs"
    );
}

#[test]
fn lists_reach_every_number() {
    let mut rng = Rng::new(6);
    let mut read = BTreeSet::new();
    let mut written = BTreeSet::new();
    for _ in 0..20_000 {
        read.insert(read_case(&mut rng).answer().0 as u8);
        written.insert(write_case(&mut rng).answer().0 as u8);
    }
    assert_eq!(read, BTreeSet::from([0, 1, 2, 3, 14]));
    assert_eq!(written, BTreeSet::from([0, 1, 2, 3, 4, 15]));
}

/// Of every answer, pages that are long enough and such that are not.
#[test]
fn prints_reach_every_number() {
    let mut rng = Rng::new(6);
    let mut seen = BTreeSet::new();
    for _ in 0..40_000 {
        let case = print_case(&mut rng);
        let starts = case.checked.marks.iter().filter(|m| **m & 1 == 1).count();
        seen.insert((case.answer().0 as u8, case.page_len < 36 * starts));
    }
    let refused = (1..=10).flat_map(|number| [(number, false), (number, true)]);
    let all: BTreeSet<(u8, bool)> = refused.chain([(0, false), (15, true)]).collect();
    assert_eq!(seen, all);
}

/// Of every answer, places that are enough and such that are not; of refused
/// ones no place is written, of others none past the addresses.
#[test]
fn locates_reach_every_number() {
    let mut rng = Rng::new(7);
    let mut seen = BTreeSet::new();
    for _ in 0..40_000 {
        let case = locate_case(&mut rng);
        let (answer, places) = case.answer();
        let number = answer as u8;
        seen.insert((number, case.places_len < case.addresses.len()));
        let written = if number == 0 { case.addresses.len() } else { 0 };
        assert!(places[written..].iter().all(|&p| p == PLACE_BEFORE));
    }
    let refused = (1..=10).chain([16]);
    let refused = refused.flat_map(|number| [(number, false), (number, true)]);
    let all: BTreeSet<(u8, bool)> = refused.chain([(0, false), (15, true)]).collect();
    assert_eq!(seen, all);
}

/// Located addresses lie below the first start, in instructions and in gaps,
/// in lists of 0 to 256.
#[test]
fn located_addresses_lie_everywhere() {
    let mut rng = Rng::new(8);
    let mut lies = [0; 3];
    let mut counts = BTreeSet::new();
    for _ in 0..5_000 {
        let case = locate_case(&mut rng);
        let (answer, places) = case.answer();
        if answer as u8 == 0 {
            counts.insert(case.addresses.len());
            for place in &places[..case.addresses.len()] {
                lies[(place >> 24) as usize] += 1;
            }
        }
    }
    assert!(lies.iter().all(|&count| count > 300), "{lies:?}");
    assert!(counts.contains(&0) && counts.contains(&256));
}

/// Of marks that are built a good part has calls; refused ones stay.
#[test]
fn builds_reach_every_number() {
    let mut rng = Rng::new(9);
    let mut count = BTreeMap::new();
    let mut calls = 0;
    for _ in 0..20_000 {
        let case = build_case(&mut rng);
        let (answer, marks) = case.answer();
        *count.entry(answer).or_insert(0) += 1;
        if answer == 0 {
            let starts = (0..marks.len()).filter(|&at| marks[at] != 0);
            calls += starts
                .into_iter()
                .any(|at| matches!(case.image[at], 0x20 | 0x22)) as u32;
        } else {
            assert_eq!(marks, case.marks);
        }
    }
    assert!(count.keys().eq(&[0, 1, 2, 14, 17]), "{count:?}");
    assert!(count.values().all(|&n| n >= 100), "{count:?}");
    assert!(count[&0] > 7_000 && calls > 3_000, "{count:?}, {calls}");
}

/// A list of a program's own starts fits, whatever the marks before.
#[test]
fn fitting_lists_fit() {
    let mut rng = Rng::new(10);
    let mut before = BTreeSet::new();
    for _ in 0..3_000 {
        let case = fitting(&mut rng);
        assert_eq!(case.answer().0, 0, "{case:02X?}");
        before.extend(case.marks);
    }
    assert_eq!(before.len(), 256);
}

/// Each way to break a list or its image is found.
#[test]
fn misfits_do_not_fit() {
    let mut rng = Rng::new(11);
    for way in 0..MISFITS {
        let refused = |_: &u32| misfit_by(&mut rng, way).answer().0 == 17;
        let count = (0..400).filter(refused).count();
        assert!(count > 50, "{way}: {count}");
    }
}

/// Aimed cases have their number, whatever the seed.
#[test]
fn aimed_cases_have_their_number() {
    for seed in 0..8 {
        let mut rng = Rng::new(seed);
        for _ in 0..20 {
            for number in [1, 2, 11, 12, 13] {
                assert_eq!(refused_by(&mut rng, number).answer().0, number as u64);
            }
            for stop in 20..=27 {
                let (answer, ..) = stopped_by(&mut rng, stop).answer();
                assert_eq!(answer & 0xFFFF, (stop as u64) << 8);
            }
            for number in [0, 1, 2, 3, 14] {
                assert_eq!(read_by(&mut rng, number).answer().0 as u8, number);
            }
            for number in [0, 1, 2, 3, 4, 15] {
                assert_eq!(write_by(&mut rng, number).answer().0 as u8, number);
            }
            for number in (0..=10).chain([15]) {
                assert_eq!(print_by(&mut rng, number).answer().0 as u8, number);
            }
            for number in (0..=10).chain([15, 16]) {
                assert_eq!(locate_by(&mut rng, number).answer().0 as u8, number);
            }
            for number in (0..=10).chain([15]) {
                assert_eq!(explain_by(&mut rng, number).number(), number);
            }
            for number in [0, 1, 2, 14, 17] {
                assert_eq!(build_by(&mut rng, number).answer().0, number as u64);
            }
        }
    }
}

/// Steps with edge values are completed, but for STP and WIT.
#[test]
fn valued_steps_are_completed() {
    let mut rng = Rng::new(3);
    for (page, code) in (0..3).flat_map(|page| (0..=255).map(move |code| (page, code))) {
        let entry = codes::entry_of(page, code);
        for widths in [0, 0x10, 0x20, 0x30] {
            if !entry.carried {
                continue;
            }
            let halts = matches!(entry.word, Word::STP | Word::WIT);
            let end = if halts { 22 << 8 } else { 0 };
            for case in valued_steps(&mut rng, page, code, widths) {
                assert_eq!(case.answer().0 & 0xFFFF, end, "{entry:?} {case:02X?}");
            }
        }
    }
}

/// What a placed step begins with: page and code, m and x, S, open calls.
type Begin = (usize, u8, u16, u16, usize);

fn begin(case: &RunCase) -> Option<Begin> {
    let r = Registers::read(&case.state);
    let at = r.pc.checked_sub(case.base)? as usize;
    let page = codes::page_of(*case.image.get(at)?);
    let code = *case.image.get(at + (page > 0) as usize)?;
    Some((page, code, r.ps & 0x30, r.s, depth(&case.state)))
}

/// Stops of placed steps by code, and what S and the open calls were.
fn placed() -> BTreeMap<(usize, u8), Vec<(u8, Begin)>> {
    let mut all: BTreeMap<_, Vec<_>> = BTreeMap::new();
    for case in placed_steps(&mut Rng::new(21)) {
        let stop = (case.answer().0 >> 8) as u8;
        if let Some(begin) = begin(&case) {
            let code = (begin.0, begin.1);
            all.entry(code).or_default().push((stop, begin));
        }
    }
    all
}

/// Every storing, pushing, pulling, returning, calling and adding code stops
/// with each number that it can, words and bytes, wherever S is.
#[test]
fn placed_steps_stop_at_each_place() {
    use Word::*;
    let placed = placed();
    let stops = |page: usize, code: u8, wanted: &dyn Fn(&Begin) -> bool| -> BTreeSet<u8> {
        let all = placed.get(&(page, code)).into_iter().flatten();
        all.filter(|(_, b)| wanted(b)).map(|&(n, _)| n).collect()
    };
    for (page, code) in (0..3).flat_map(|page| (0..=255).map(move |code| (page, code))) {
        let entry = codes::entry_of(page, code);
        let any = stops(page, code, &|_| true);
        let holds = |numbers: &[u8]| numbers.iter().all(|n| any.contains(n));
        let (m, x) = (0x20, 0x10);
        match entry.word {
            STA | STX | STY | LDM | SEB | CLB | ASL | LSR | ROL | ROR | INC | DEC
                if entry.mode != Mode::ACC =>
            {
                let by = if matches!(entry.word, STX | STY) {
                    x
                } else {
                    m
                };
                for width in [0, by] {
                    let at_width = stops(page, code, &|b| b.2 & by == width);
                    assert!(
                        at_width.is_superset(&BTreeSet::from([0, 23, 26])),
                        "{entry:?}"
                    );
                }
            }
            PHA | PHB | PHD | PHG | PHP | PHT | PHX | PHY | PEA | PEI | PER | JSR
                if entry.carried =>
            {
                assert!(holds(&[0, 23, 26]), "{entry:?} {any:?}");
                let bytes = match (entry.word, entry.mode) {
                    (JSR, Mode::ABL) => 3,
                    (PHG | PHT, _) => 1,
                    _ => 2,
                };
                let by = match entry.word {
                    PHA | PHB => m,
                    PHX | PHY => x,
                    _ => 0,
                };
                for s in [0, 1, 2, 0xFFFE, 0xFFFF] {
                    let at = stops(page, code, &|b| b.3 == s && b.4 < 23 && b.2 & by == 0);
                    // Past 0000 is FFFF: nothing, or the image's last byte.
                    let fails = s > 2 || s + 1 < bytes;
                    let wanted = BTreeSet::from(if fails { [23, 26] } else { [0, 0] });
                    assert!(at.is_superset(&wanted), "{entry:?} {s:X} {at:?}");
                }
            }
            PLA | PLB | PLD | PLT | PLX | PLY => assert!(holds(&[0, 23]), "{entry:?} {any:?}"),
            RTS | RTL => assert!(holds(&[0, 23, 24]), "{entry:?} {any:?}"),
            ADC | SBC => assert!(holds(&[20, 27]), "{entry:?} {any:?}"),
            _ => {}
        }
        if entry.word == JSR && entry.carried {
            // 25 wherever S is; one call fewer, and S decides.
            assert_eq!(stops(page, code, &|b| b.4 == 24), BTreeSet::from([25]));
            let below = stops(page, code, &|b| b.4 == 23);
            assert_eq!(below, BTreeSet::from([0, 23, 26]));
        }
        if entry.word != Unassigned && entry.lengths[3] > 1 + (page > 0) as u8 {
            assert!(
                any.contains(&if entry.carried { 20 } else { 21 }),
                "{entry:?}"
            );
        }
    }
}

/// Transfers into X and Y are completed, from an upper byte that is not 00 to
/// 00; runs show it by a store, and what is no transfer keeps it.
#[test]
fn transfers_have_upper_bytes() {
    let mut cleared = 0;
    for case in transfer_steps(&mut Rng::new(2)) {
        let (answer, after, _) = case.answer();
        assert_eq!(answer, 1 << 16);
        let (before, after) = (Registers::read(&case.state), Registers::read(&after));
        assert!(before.x > 0xFF && before.y > 0xFF && before.x_flag());
        cleared += (after.x < 0x100) as u32 + (after.y < 0x100) as u32;
    }
    assert_eq!(cleared, 70);
    let mut above = [0, 0];
    for case in transfer_runs(&mut Rng::new(2)) {
        let (answer, _, ram) = case.answer();
        assert_eq!(answer >> 8 & 0xFF, 22);
        if answer >> 16 & 0xFF_FFFF == 3 {
            above[(ram[0x41] != 0) as usize] += 1;
        }
    }
    assert_eq!(above, [7, 10]);
}

/// Runs of one program: each from the last one's end, refused ones between.
#[test]
fn continued_runs_continue() {
    let mut rng = Rng::new(17);
    let (mut refused, mut steps) = (0, 0);
    for _ in 0..100 {
        let runs = continued_runs(&mut rng);
        let (mut state, mut ram) = (runs[0].state.clone(), runs[0].ram.clone());
        let mut first = true;
        for run in &runs {
            assert!(run.image == runs[0].image && run.base == runs[0].base);
            let (answer, state_after, ram_after) = run.answer();
            assert!(run.ram == ram);
            if answer & 0xFF != 0 {
                refused += 1;
                assert!(state_after == run.state && ram_after == ram);
            } else {
                assert!(first || run.state == state);
                first = false;
                steps += answer >> 16 & 0xFF_FFFF;
                (state, ram) = (state_after, ram_after);
            }
        }
    }
    assert!(refused > 50 && steps > 1_000, "{refused} and {steps}");
}

/// Of the texts that are not quite lists few are read: the list itself in six
/// digits and in four, and it with other widths or without a line. None is there
/// twice.
#[test]
fn out_of_form_is_mostly_14() {
    let mut count = BTreeMap::new();
    let mut seen = BTreeSet::new();
    for case in out_of_form() {
        *count.entry(case.answer().0 as u8).or_insert(0) += 1;
        seen.insert((case.text, case.marks_len));
    }
    assert!(count[&14] > 500 && count[&0] >= 10, "{count:?}");
    assert!(count[&1] >= 8 && count[&3] >= 1, "{count:?}");
    assert_eq!(seen.len(), count.values().sum::<usize>());
}
