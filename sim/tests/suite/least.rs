//! The least marks by their meaning (02, R-6): all markings of very short
//! images are tried, and what those have in common that pass the check, hold
//! every listed routine as listed and have all call targets on the list.

use crate::build::listed;
use crate::check_rules::good_marks;
use sim7700::check;
use sim7700::generate::{self, BuildCase, CheckCase, Rng};

/// Calls `visit` with each marking that has one of these marks at each place.
fn each_marking(choices: &[Vec<u8>], visit: &mut impl FnMut(&[u8])) {
    fn from(at: usize, marking: &mut [u8], choices: &[Vec<u8>], visit: &mut impl FnMut(&[u8])) {
        let Some(here) = choices.get(at) else {
            return visit(marking);
        };
        for &mark in here {
            marking[at] = mark;
            from(at + 1, marking, choices, visit);
        }
    }
    from(0, &mut vec![0; choices.len()], choices, visit)
}

/// An image of a few bytes.
struct Tiny<'a> {
    image: &'a [u8],
    base: u32,
    /// The offset of the reset.
    reset: usize,
}

impl Tiny<'_> {
    fn is_accepted(&self, marking: &[u8]) -> bool {
        let reset = self.base + self.reset as u32;
        check(self.image, marking, self.base, reset) == 0
    }

    /// All markings of good form that pass the check, however many there are
    /// to try.
    fn accepted(&self) -> Vec<Vec<u8>> {
        let mut accepted = Vec::new();
        let choices = vec![good_marks(); self.image.len()];
        each_marking(&choices, &mut |marking| {
            if self.is_accepted(marking) {
                accepted.push(marking.to_vec());
            }
        });
        accepted
    }

    /// Whether an accepted marking holds each of the routines, whose marks
    /// stand at their offsets, and has all call targets among them.
    fn fits(&self, marking: &[u8], listed: &[u8]) -> bool {
        let held = listed.iter().zip(marking).all(|(&l, &m)| l == 0 || l == m);
        let calls = (0..marking.len()).filter(|&at| marking[at] != 0);
        held && calls.into_iter().all(|at| match self.image[at..] {
            [0x20, low, high, ..] => {
                let next = self.base + at as u32 + 3;
                self.is_listed([low, high, (next >> 16) as u8], listed)
            }
            [0x22, low, high, bank, ..] => self.is_listed([low, high, bank], listed),
            _ => true,
        })
    }

    fn is_listed(&self, [low, high, bank]: [u8; 3], listed: &[u8]) -> bool {
        let address = u32::from_le_bytes([low, high, bank, 0]);
        let offset = address.wrapping_sub(self.base) as usize;
        listed.get(offset).is_some_and(|&mark| mark != 0)
    }

    /// What the library says: the marks, or `None` for 17.
    fn built(&self, listed: &[u8]) -> Option<Vec<u8>> {
        let program = CheckCase {
            image: self.image.to_vec(),
            marks: Vec::new(),
            base: self.base,
            reset: self.base + self.reset as u32,
        };
        let case = BuildCase::listing(program, listed);
        match case.answer() {
            (0, marks) => Some(marks),
            (answer, marks) => {
                assert_eq!(answer, 17, "{case:02X?}");
                assert_eq!(marks, case.marks);
                None
            }
        }
    }
}

/// What markings have in common: their starts that all of them have, equally
/// marked.
#[derive(Default)]
struct Common(Option<Vec<u8>>);

impl Common {
    fn meet(&mut self, marking: &[u8]) {
        let common = self.0.get_or_insert_with(|| marking.to_vec());
        for (mark, &other) in common.iter_mut().zip(marking) {
            if *mark != other {
                *mark = 0;
            }
        }
    }
}

/// Of all markings that pass the check, those with this list: the least of
/// them is among them, and is what the library says.
fn agree(tiny: &Tiny, accepted: &[Vec<u8>], listed: &[u8]) -> bool {
    let mut common = Common::default();
    for marking in accepted.iter().filter(|m| tiny.fits(m, listed)) {
        common.meet(marking);
    }
    compare(tiny, common, listed)
}

/// The same without all accepted markings at hand: only such are tried that
/// have the reset's mark, without which the check gives 3, and the routines as
/// listed.
fn agree_by_choices(tiny: &Tiny, listed: &[u8]) -> bool {
    let choice = |at: usize| {
        let held = |mark: &u8| listed[at] == 0 || listed[at] == *mark;
        let reset = |mark: &u8| at != tiny.reset || *mark == 0x01;
        let good = good_marks().into_iter();
        good.filter(|m| held(m) && reset(m)).collect()
    };
    let choices: Vec<Vec<u8>> = (0..tiny.image.len()).map(choice).collect();
    let mut common = Common::default();
    each_marking(&choices, &mut |marking| {
        if tiny.is_accepted(marking) && tiny.fits(marking, listed) {
            common.meet(marking);
        }
    });
    compare(tiny, common, listed)
}

fn compare(tiny: &Tiny, common: Common, listed: &[u8]) -> bool {
    let Common(least) = common;
    if let Some(least) = &least {
        assert!(
            tiny.is_accepted(least) && tiny.fits(least, listed),
            "{:02X?} {listed:02X?}: no marking is the least",
            tiny.image
        );
    }
    let built = tiny.built(listed);
    assert_eq!(built, least, "{:02X?} {listed:02X?}", tiny.image);
    built.is_some()
}

/// Codes and operands, some of them both.
const ALPHABET: [u8; 16] = [
    0xDB, 0xEA, 0xF8, 0xD8, 0xE2, 0x30, 0x60, 0x6B, 0x80, 0xF0, 0xFE, 0x00, 0x01, 0xA9, 0x42, 0xC2,
];

/// Images of two bytes across a bank's end with each reset, and all of one byte,
/// with every list that there is: no routine, or one of any form, on each byte.
#[test]
fn all_lists_of_two_bytes() {
    let good = good_marks();
    let mut built = 0;
    for &first in &ALPHABET[..11] {
        for (second, reset) in ALPHABET[..11].iter().flat_map(|&b| [(b, 0), (b, 1)]) {
            let image = [first, second];
            let tiny = Tiny {
                image: &image,
                base: 0xFFFF,
                reset,
            };
            let accepted = tiny.accepted();
            let lists = good.iter().flat_map(|&a| good.iter().map(move |&b| [a, b]));
            for listed in lists {
                built += agree(&tiny, &accepted, &listed) as u32;
            }
        }
    }
    for byte in 0..=255 {
        let tiny = Tiny {
            image: &[byte],
            base: 0xFFFF,
            reset: 0,
        };
        let accepted = tiny.accepted();
        for &mark in &good {
            agree(&tiny, &accepted, &[mark]);
        }
    }
    assert!(built > 200, "{built}");
}

/// Routines at some bytes, of few marks, so that several often agree.
fn drawn_list(rng: &mut Rng, length: usize) -> Vec<u8> {
    let good = good_marks();
    let few = [0x01, 0x09, *rng.pick(&good), *rng.pick(&good)];
    let mark = |_| if rng.chance(1, 3) { *rng.pick(&few) } else { 0 };
    (0..length).map(mark).collect()
}

fn drawn_image(rng: &mut Rng, length: usize) -> Vec<u8> {
    (0..length).map(|_| *rng.pick(&ALPHABET)).collect()
}

/// All markings of drawn images of three bytes and of a few of four, each
/// with many lists.
#[test]
fn all_markings_of_three_and_four_bytes() {
    let mut rng = Rng::new(66);
    let (mut built, mut refused) = (0, 0);
    for draw in 0..212 {
        let length = if draw < 200 { 3 } else { 4 };
        let image = drawn_image(&mut rng, length);
        let reset = if rng.chance(1, 4) {
            rng.index(length)
        } else {
            0
        };
        let tiny = Tiny {
            image: &image,
            base: *rng.pick(&[0xC000, 0x12_FFFE]),
            reset,
        };
        let accepted = tiny.accepted();
        let lists = if accepted.is_empty() { 20 } else { 100 };
        for _ in 0..lists {
            match agree(&tiny, &accepted, &drawn_list(&mut rng, length)) {
                true => built += 1,
                false => refused += 1,
            }
        }
    }
    assert!(built > 500 && refused > 500, "{built} and {refused}");
}

/// A call takes five bytes at least: its own three, the one after and the
/// target's, or the reset's before a routine that calls itself. Such images,
/// their target on the list so or otherwise; also across a bank's end.
#[test]
fn calls_in_five_bytes() {
    let mut rng = Rng::new(67);
    let (mut built, mut refused) = (0, 0);
    for _ in 0..500 {
        let base: u32 = *rng.pick(&[0xC000, 0xFFFD, 0xFFFE, 0x12_FFFC]);
        let target = *rng.pick(&[1, 3, 4, 4, 4, 4]);
        let [low, high, ..] = (base + target).to_le_bytes();
        let [first_low, first_high, ..] = (base + 1).to_le_bytes();
        let last = *rng.pick(&[0xDB, 0xDB, 0x60, 0x60, 0xF8, 0x6B]);
        let stop = *rng.pick(&[0xDB, 0xDB, 0xDB, 0xEA, 0xF8]);
        let image = match rng.chance(2, 3) {
            true => [0x20, low, high, stop, last],
            false => [stop, 0x20, first_low, first_high, last],
        };
        let reset = if rng.chance(1, 8) { rng.index(5) } else { 0 };
        let mut listed = [0; 5];
        let mark = |rng: &mut Rng| *rng.pick(&[0x09, 0x09, 0x09, 0x29, 0x49, 0x0B, 0x11, 0x01]);
        let called = if image[0] == 0x20 { target } else { 1 };
        listed[called as usize] = mark(&mut rng);
        if rng.chance(1, 4) {
            listed[1 + rng.index(4)] = mark(&mut rng);
        }
        let tiny = Tiny {
            image: &image,
            base,
            reset,
        };
        match agree_by_choices(&tiny, &listed) {
            true => built += 1,
            false => refused += 1,
        }
    }
    assert!(built > 20 && refused > 50, "{built} and {refused}");
}

/// The reset's offset and the routines' marks of a case, if it has few bytes
/// that neither of them hold and would be refused with 17 alone.
fn few_free(case: &BuildCase) -> Option<(usize, Vec<u8>)> {
    let length = case.image.len();
    let reset = case.reset.checked_sub(case.base)? as usize;
    let placed = case.base.checked_add(length as u32)? <= 0x100_0000;
    if !placed || case.marks.len() != length || !(3..10).contains(&length) {
        return None;
    }
    let mut marks = vec![0; length];
    for (address, mark) in listed(&case.routines, case.base)? {
        *marks.get_mut(address.checked_sub(case.base)? as usize)? = mark;
    }
    let free = (0..length).filter(|&at| at != reset && marks[at] == 0);
    (reset < length && free.count() <= 3).then_some((reset, marks))
}

#[test]
fn drawn_cases_by_their_meaning() {
    let mut rng = Rng::new(68);
    let (mut built, mut refused) = (0, 0);
    while built + refused < 400 {
        let case = match rng.below(8) {
            0 => generate::build_case(&mut rng),
            _ => generate::build_by(&mut rng, 0),
        };
        let Some((reset, marks)) = few_free(&case) else {
            continue;
        };
        let (image, base) = (&case.image, case.base);
        match agree_by_choices(&Tiny { image, base, reset }, &marks) {
            true => built += 1,
            false => refused += 1,
        }
    }
    assert!(built > 50 && refused > 50, "{built} and {refused}");
}

/// The hand-made cases with few bytes that neither reset nor routines hold.
#[test]
fn hand_made_cases_by_their_meaning() {
    let mut tried = 0;
    for made in generate::hand_made() {
        let (image, listed) = (made.image, made.listed());
        let free = (1..image.len()).filter(|&at| listed[at] == 0).count();
        if free <= 4 {
            let tiny = Tiny {
                image,
                base: 0xC000,
                reset: 0,
            };
            let built = agree_by_choices(&tiny, &listed);
            assert_eq!(built, made.least.is_some());
            tried += 1;
        }
    }
    assert!(tried > 70, "{tried}");
}

/// Without 'all call targets on the list' there would be no least marking:
/// two of these pass the check, and what they have in common does not.
#[test]
fn without_the_list_there_is_no_least() {
    let tiny = Tiny {
        image: &[0x20, 0x04, 0xC0, 0xDB, 0xDB],
        base: 0xC000,
        reset: 0,
    };
    assert!(tiny.is_accepted(&[1, 0, 0, 1, 0x09]));
    assert!(tiny.is_accepted(&[1, 0, 0, 3, 0x29]));
    assert!(!tiny.is_accepted(&[1, 0, 0, 0, 0]));
    assert_eq!(tiny.built(&[0; 5]), None);
}
