//! Many addresses in one reading (02, R-4): the check's own refusals, then 16,
//! then 15.

use crate::print::REFUSED;
use sim7700::codes::{entry_of, page_of};
use sim7700::generate::{self, CheckCase, LocateCase, Rng};
use sim7700::locate;

/// Places before a call.
const BEFORE: u32 = 0x5555_5555;

/// What a place has from bit 24 on.
const INSIDE: u32 = 1;
const GAP: u32 = 2;

/// Three bytes before the first start; LDA of three bytes; BRA of two over a
/// gap of two; SEM; LDA of two; STP; a gap of one.
const IMAGE: [u8; 15] = [
    0xEA, 0xEA, 0xEA, 0xA9, 0x34, 0x12, 0x80, 0x02, 0xEA, 0xEA, 0xF8, 0xA9, 0x56, 0xDB, 0xEA,
];
const MARKS: [u8; 15] = [0, 0, 0, 1, 0, 0, 1, 0, 0, 0, 1, 3, 0, 3, 0];

/// For each byte of it the offset of the nearest start, and what the place
/// says above it.
const WHERE: [(u32, u32); 15] = [
    (0, 0),
    (0, 0),
    (0, 0),
    (3, INSIDE),
    (3, INSIDE),
    (3, INSIDE),
    (6, INSIDE),
    (6, INSIDE),
    (6, GAP),
    (6, GAP),
    (10, INSIDE),
    (11, INSIDE),
    (11, INSIDE),
    (13, INSIDE),
    (13, GAP),
];

/// Asks for addresses in that image at a base, with so many places.
fn ask(base: u32, addresses: &[u32], places_len: usize) -> (u64, Vec<u32>) {
    let mut places = vec![BEFORE; places_len];
    let reset = base + 3;
    let answer = locate(&IMAGE, &MARKS, base, reset, addresses, &mut places);
    (answer, places)
}

/// The place of each byte of that image at a base.
fn wanted(base: u32) -> Vec<u32> {
    let place = |&(start, lies): &(u32, u32)| match lies {
        0 => 0,
        _ => base + start + 0x100_0000 * lies,
    };
    WHERE.iter().map(place).collect()
}

/// Within a bank, up to its end, across it, up to FFFFFF, and from 000000.
const BASES: [u32; 7] = [
    0x00_0000, 0x00_C000, 0x12_FFF1, 0x12_FFF6, 0x12_FFFF, 0x13_0000, 0xFF_FFF1,
];

#[test]
fn starts_later_bytes_gaps_and_bytes_below() {
    for base in BASES {
        let all: Vec<u32> = (base..base + 15).collect();
        assert_eq!(ask(base, &all, 15), (15 << 8, wanted(base)), "{base:06X}");
    }
}

/// Any choice of the bytes: the places of those bytes, and the marks read as
/// far as the highest one.
#[test]
fn every_choice_of_addresses() {
    let base = 0x12_FFF1;
    let wanted = wanted(base);
    for choice in 0..1u32 << 15 {
        let offsets: Vec<usize> = (0..15).filter(|at| choice >> at & 1 == 1).collect();
        let addresses: Vec<u32> = offsets.iter().map(|&at| base + at as u32).collect();
        let places: Vec<u32> = offsets.iter().map(|&at| wanted[at]).collect();
        let read = offsets.last().map_or(0, |at| at + 1) as u64;
        let answer = ask(base, &addresses, places.len());
        assert_eq!(answer, (read << 8, places), "{choice:b}");
    }
}

/// A start at 000000 is not the place of an address below all starts.
#[test]
fn a_start_at_000000() {
    let mut places = [BEFORE; 2];
    let answer = locate(&[0xDB, 0xDB], &[1, 0], 0, 0, &[0, 1], &mut places);
    assert_eq!((answer, places), (2 << 8, [0x100_0000, 0x200_0000]));
}

#[test]
fn no_addresses_read_no_mark() {
    for places_len in [0, 1, 300] {
        let (answer, places) = ask(0xC000, &[], places_len);
        assert_eq!((answer, places), (0, vec![BEFORE; places_len]));
    }
}

/// The place of an address by another way: down from it to a start.
fn searched(case: &CheckCase, address: u32) -> u32 {
    let at = (address - case.base) as usize;
    let Some(start) = (0..=at).rev().find(|&k| case.marks[k] != 0) else {
        return 0;
    };
    let prefix = page_of(case.image[start]);
    let code = case.image[start + (prefix > 0) as usize];
    let (m, x) = (case.marks[start] & 2 != 0, case.marks[start] & 4 != 0);
    let length = entry_of(prefix, code).length(m, x);
    let lies = if at - start < length { INSIDE } else { GAP };
    case.base + start as u32 + 0x100_0000 * lies
}

/// Every byte of an image, up to 256 in a call.
fn all_bytes(case: &CheckCase) {
    let all: Vec<u32> = (case.base..).take(case.image.len()).collect();
    for part in all.chunks(256) {
        let located = LocateCase::exact(case.clone(), part.to_vec());
        let (answer, places) = located.answer();
        let read = part[part.len() - 1] - case.base + 1;
        assert_eq!(answer, (read as u64) << 8);
        let searched: Vec<u32> = part.iter().map(|&a| searched(case, a)).collect();
        assert_eq!(places, searched, "{case:02X?}");
    }
}

#[test]
fn drawn_images_agree_with_a_search() {
    let mut rng = Rng::new(41);
    for _ in 0..2_000 {
        all_bytes(&generate::accepted(&mut rng));
        all_bytes(&generate::locate_by(&mut rng, 0).checked);
    }
}

/// Each carried code at each pair of widths.
#[test]
fn every_code_has_its_length() {
    for case in generate::every_code(&mut Rng::new(4)) {
        all_bytes(&case);
    }
}

/// Each address alone gives what it gives among others.
#[test]
fn alone_as_together() {
    let mut rng = Rng::new(42);
    let mut several = 0;
    for _ in 0..2_000 {
        let case = generate::locate_by(&mut rng, 0);
        let (_, places) = case.answer();
        several += (case.addresses.len() > 1) as u32;
        for (&address, &place) in case.addresses.iter().zip(&places) {
            let alone = LocateCase::exact(case.checked.clone(), vec![address]);
            let read = (address - case.checked.base + 1) as u64;
            assert_eq!(alone.answer(), (read << 8, vec![place]));
        }
    }
    assert!(several > 1_000, "{several}");
}

/// 256 addresses go, 257 are 16, with all else in form.
#[test]
fn as_many_as_256() {
    let image = [vec![0xEA; 299], vec![0xDB]].concat();
    for (count, answer) in [
        (255, 256 << 8),
        (256, 257 << 8),
        (257, 16),
        (258, 16),
        (299, 16),
    ] {
        let addresses: Vec<u32> = (0xC001..).take(count).collect();
        let mut places = vec![BEFORE; 300];
        let given = locate(&image, &[1; 300], 0xC000, 0xC000, &addresses, &mut places);
        assert_eq!(given, answer, "{count}");
        let located = if answer == 16 { 0 } else { count };
        assert!(places[located..].iter().all(|&p| p == BEFORE));
        let whole = |k: usize| 0x100_C001 + k as u32;
        assert!((0..located).all(|k| places[k] == whole(k)));
    }
}

/// A list that is refused with 16, whatever the places.
fn refused(base: u32, addresses: &[u32]) {
    for places_len in [0, addresses.len(), 20] {
        let (answer, places) = ask(base, addresses, places_len);
        assert_eq!(answer, 16, "{addresses:X?}");
        assert_eq!(places, vec![BEFORE; places_len]);
    }
}

/// Equal and descending neighbours at each place of a list.
#[test]
fn unordered_is_16() {
    let base = 0x12_C000;
    let all: Vec<u32> = (base..base + 15).collect();
    for at in 0..14 {
        let mut addresses = all.clone();
        addresses[at + 1] = addresses[at];
        refused(base, &addresses);
        addresses.swap(at, at + 1);
        addresses[at] += 1;
        refused(base, &addresses);
    }
    refused(base, &[base + 14, base]);
    refused(base, &[base, base]);
}

/// Right before the image and right behind it, in other banks, and above
/// FFFFFF: alone, before others and behind them.
#[test]
fn outside_is_16() {
    for base in BASES {
        let beside = [base.wrapping_sub(1), base + 15, 0x100_0000, u32::MAX];
        let other_bit = (16..32).map(|bit| base + 3 ^ 1 << bit);
        for outside in beside.into_iter().chain(other_bit) {
            refused(base, &[outside]);
            let mut addresses = vec![base, base + 14, outside];
            refused(base, &addresses);
            addresses.sort_unstable();
            refused(base, &addresses);
        }
    }
}

/// 15 with a place too few; places past the addresses stay.
#[test]
fn places_short_exact_and_more() {
    let base = 0xC000;
    let addresses = [base, base + 3, base + 8, base + 14];
    let wanted = [0, 0x100_C003, 0x200_C006, 0x200_C00D];
    for places_len in 0..=9 {
        let (answer, places) = ask(base, &addresses, places_len);
        if places_len < 4 {
            assert_eq!((answer, places), (15, vec![BEFORE; places_len]));
        } else {
            assert_eq!(answer, 15 << 8);
            assert_eq!(places[..4], wanted);
            assert_eq!(places[4..], vec![BEFORE; places_len - 4]);
        }
    }
}

/// Each of the check's numbers with its offset, whatever addresses and places.
#[test]
fn the_checks_own_refusals_go_first() {
    for (image, marks, base, reset, answer) in REFUSED {
        let lists: [&[u32]; 4] = [&[], &[base], &[base, base], &[u32::MAX; 257]];
        for (addresses, places_len) in lists.iter().flat_map(|l| [(l, 0), (l, 300)]) {
            let mut places = vec![BEFORE; places_len];
            let given = locate(image, marks, base, reset, addresses, &mut places);
            assert_eq!(given, answer);
            assert!(places.iter().all(|&p| p == BEFORE), "{answer:X}");
        }
    }
}

/// The longest image up to FFFFFF: its last byte alone, and the offset of a
/// refusal there.
#[test]
fn the_longest_image() {
    let mut image = vec![0xEA; 65_536];
    image[65_535] = 0xDB;
    let marks = vec![1; 65_536];
    let mut places = [BEFORE];
    let mut ask = |image: &[u8]| {
        let addresses = [0xFF_FFFF];
        locate(image, &marks, 0xFF_0000, 0xFF_0000, &addresses, &mut places)
    };
    assert_eq!(ask(&image), 65_536 << 8);
    image[65_535] = 0x00;
    assert_eq!(ask(&image), 5 | 65_535 << 8);
    assert_eq!(places, [0x1FF_FFFF]);
}
