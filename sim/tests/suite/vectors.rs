//! The vector files: read back by README.md's format and tried again.

use sim7700::codes::{entry_of, page_of, Register, Word};
use sim7700::generate::VALUES;
use sim7700::state::{depth, Registers};
use sim7700::vectors::*;
use sim7700::{build_marks, check, explain, locate, print, read_list, run, write_list};
use std::collections::{BTreeMap, BTreeSet};

#[test]
fn the_same_seed_gives_the_same_bytes() {
    let first = files(DEFAULT_SEED);
    assert!(first == files(DEFAULT_SEED));
    assert!(first != files(DEFAULT_SEED + 1));
    for (name, bytes) in first {
        assert!(bytes.len() <= MAX_FILE, "{name} has {} bytes", bytes.len());
    }
}

/// The check, read, write, print, locate, build and explain files hang on no
/// machine and are kept elsewhere too: their bytes stay (FNV-1a, 64 bits, over
/// names and bytes).
#[test]
fn kept_files_stay() {
    let files = files(DEFAULT_SEED);
    for (kind, kept) in [
        ("check", 0x24B5_00CD_C46F_2892u64),
        ("read", 0x07C8_DFBB_906E_1483),
        ("write", 0x26B2_3034_693E_2E6B),
        ("print", 0x480D_A9B8_3BF8_37B9),
        ("locate", 0x92C9_B147_CB17_9F4F),
        ("build", 0xC38C_4BA6_3BBF_1F65),
        ("explain", 0x561E_423F_051A_C3DD),
    ] {
        let mut hash = 0xCBF2_9CE4_8422_2325u64;
        for (name, bytes) in files.iter().filter(|(name, _)| kind_of(name).0 == kind) {
            for &byte in name.as_bytes().iter().chain(bytes) {
                hash = (hash ^ byte as u64).wrapping_mul(0x100_0000_01B3);
            }
        }
        assert_eq!(hash, kept, "{kind} {hash:016X}");
    }
}

/// A reader of the format, as README.md tells it.
struct Reader<'a>(&'a [u8]);

impl<'a> Reader<'a> {
    fn take(&mut self, count: usize) -> &'a [u8] {
        let (taken, rest) = self.0.split_at(count);
        self.0 = rest;
        taken
    }

    fn number(&mut self, bytes: usize) -> u64 {
        let bytes = self.take(bytes).iter().rev();
        bytes.fold(0, |value, &byte| value << 8 | byte as u64)
    }

    fn bytes(&mut self) -> &'a [u8] {
        let length = self.number(4) as usize;
        self.take(length)
    }

    fn pieces(&mut self, onto: &mut [u8]) {
        for _ in 0..self.number(2) {
            let at = self.number(2) as usize;
            let count = self.number(2) as usize;
            onto[at..at + count].copy_from_slice(self.take(count));
        }
    }

    fn buffer(&mut self) -> Vec<u8> {
        let length = self.number(2) as usize;
        self.filled(length)
    }

    fn filled(&mut self, length: usize) -> Vec<u8> {
        let (first, by) = (self.number(1) as u8, self.number(1) as u8);
        let mut bytes: Vec<u8> = (0..length)
            .map(|k| first.wrapping_add(by.wrapping_mul(k as u8)))
            .collect();
        self.pieces(&mut bytes);
        bytes
    }
}

/// A file's kind, and whether its images and marks are long buffers.
fn kind_of(name: &str) -> (&str, bool) {
    let (kind, rest) = name.split_once('-').unwrap();
    (kind, rest == "long.bin")
}

impl Reader<'_> {
    /// Image or marks.
    fn sized(&mut self, long: bool) -> Vec<u8> {
        if !long {
            let bytes = self.bytes().to_vec();
            assert!(bytes.len() < 2_000, "{} bytes", bytes.len());
            return bytes;
        }
        let length = self.number(4) as usize;
        self.filled(length)
    }

    /// Marks after a call, of which there are so many.
    fn known(&mut self, long: bool, length: usize) -> Vec<u8> {
        if long {
            return self.sized(long);
        }
        self.take(length).to_vec()
    }
}

/// Reads one record, tries it, and returns its number.
fn try_record((kind, long): (&str, bool), r: &mut Reader) -> u64 {
    match kind {
        "check" => {
            let (base, reset) = (r.number(4) as u32, r.number(4) as u32);
            let (image, marks) = (r.sized(long), r.sized(long));
            let answer = r.number(4);
            assert_eq!(check(&image, &marks, base, reset) as u64, answer);
            answer >> 16
        }
        "read" => {
            let text = r.bytes();
            let mut marks = vec![0x5A; r.number(4) as usize];
            let answer = r.number(8);
            let mut expected = marks.clone();
            if answer & 0xFF == 0 {
                expected = r.known(long, marks.len());
            }
            assert_eq!(read_list(text, &mut marks), answer);
            assert!(marks == expected, "{}", text.escape_ascii());
            answer & 0xFF
        }
        "write" => try_write(r, long),
        "print" => try_paged(r, long, print).0,
        "explain" => try_explain(r, long),
        "locate" => try_locate(r, long),
        "build" => try_build(r, long),
        _ => try_run(r, long),
    }
}

fn try_write(r: &mut Reader, long: bool) -> u64 {
    let (base, reset) = (r.number(4) as u32, r.number(4) as u32);
    let marks = r.sized(long);
    let mut page = vec![0xA5; r.number(4) as usize];
    let answer = r.number(8);
    let mut expected = page.clone();
    if answer & 0xFF == 0 {
        let text = r.take((answer >> 8) as usize);
        expected[..text.len()].copy_from_slice(text);
    }
    assert_eq!(write_list(&marks, base, reset, &mut page), answer);
    assert_eq!(page, expected);
    answer & 0xFF
}

/// A function that writes onto a page.
type Paged = fn(&[u8], &[u8], u32, u32, &mut [u8]) -> u64;

/// The answer's number, and what is written.
fn try_paged<'a>(r: &mut Reader<'a>, long: bool, paged: Paged) -> (u64, &'a [u8]) {
    let (base, reset) = (r.number(4) as u32, r.number(4) as u32);
    let (image, marks) = (r.sized(long), r.sized(long));
    let mut page = vec![0xA5; r.number(4) as usize];
    let answer = r.number(8);
    let mut expected = page.clone();
    let written = match answer & 0xFF {
        0 => r.take((answer >> 8) as usize),
        _ => &[],
    };
    expected[..written.len()].copy_from_slice(written);
    assert_eq!(paged(&image, &marks, base, reset, &mut page), answer);
    assert!(page == expected, "{image:02X?} {marks:02X?}");
    (answer & 0xFF, written)
}

/// The number that the line begins with, or 15.
fn try_explain(r: &mut Reader, long: bool) -> u64 {
    let (number, line) = try_paged(r, long, explain);
    let line = std::str::from_utf8(line).unwrap();
    match line.split_once(' ') {
        Some((first, _)) => first.parse().unwrap(),
        None if number == 0 => {
            assert_eq!(line, "accepted\n");
            0
        }
        None => number,
    }
}

fn try_locate(r: &mut Reader, long: bool) -> u64 {
    let (base, reset) = (r.number(4) as u32, r.number(4) as u32);
    let (image, marks) = (r.sized(long), r.sized(long));
    let count = r.number(4) as usize;
    let addresses: Vec<u32> = (0..count).map(|_| r.number(4) as u32).collect();
    let mut places = vec![0xA5A5_A5A5; r.number(4) as usize];
    assert!(places.len() <= 300);
    let answer = r.number(8);
    let mut expected = places.clone();
    if answer & 0xFF == 0 {
        expected[..count].fill_with(|| r.number(4) as u32);
    }
    let given = locate(&image, &marks, base, reset, &addresses, &mut places);
    assert_eq!(given, answer);
    assert!(places == expected, "{image:02X?} {marks:02X?}");
    answer & 0xFF
}

fn try_build(r: &mut Reader, long: bool) -> u64 {
    let (base, reset) = (r.number(4) as u32, r.number(4) as u32);
    let (image, routines) = (r.sized(long), r.bytes());
    let mut marks = r.sized(long);
    let answer = r.number(8);
    let mut expected = marks.clone();
    if answer & 0xFF == 0 {
        expected = r.known(long, marks.len());
    }
    let given = build_marks(&image, base, reset, routines, &mut marks);
    assert_eq!(given, answer);
    assert!(marks == expected, "{image:02X?}");
    answer
}

fn try_run(r: &mut Reader, long: bool) -> u64 {
    let (base, steps) = (r.number(4) as u32, r.number(4) as u32);
    let image = r.sized(long);
    let (mut state, mut ram) = (r.buffer(), r.buffer());
    let answer = r.number(8);
    let (mut state_after, mut ram_after) = (state.clone(), ram.clone());
    r.pieces(&mut state_after);
    r.pieces(&mut ram_after);
    assert_eq!(run(&image, base, &mut state, &mut ram, steps), answer);
    assert!(state == state_after && ram == ram_after);
    match answer & 0xFF {
        0 => answer >> 8 & 0xFF,
        refusal => refusal,
    }
}

/// Tries every record and counts the numbers of each kind.
fn try_all() -> BTreeMap<(String, u64), u32> {
    let mut count = BTreeMap::new();
    for (name, bytes) in files(DEFAULT_SEED) {
        let (kind, long) = kind_of(&name);
        let mut reader = Reader(&bytes);
        for _ in 0..reader.number(4) {
            let number = try_record((kind, long), &mut reader);
            *count.entry((kind.to_string(), number)).or_default() += 1;
        }
        assert!(reader.0.is_empty(), "{name} has bytes behind its records");
    }
    count
}

/// Every record is read back with its answer, and every number stands
/// often enough among them.
#[test]
fn records_agree_and_every_number_stands() {
    let count = try_all();
    let least = |kind: &str, numbers: &[u64], times: u32| {
        for &number in numbers {
            let stands = count.get(&(kind.to_string(), number)).copied();
            assert!(stands >= Some(times), "{kind} {number}: {stands:?}");
        }
    };
    let all = |numbers: &[u8]| -> Vec<u64> {
        let besides = numbers.iter().map(|&number| number as u64);
        std::iter::once(0).chain(besides).collect()
    };
    least("check", &[0, 1, 2, 3, 4, 5, 6, 7, 8, 9, 10], 100);
    least("step", &all(&STEP_NUMBERS), 100);
    least("run", &all(&RUN_NUMBERS), 100);
    least("read", &all(&READ_NUMBERS), 100);
    least("write", &all(&WRITE_NUMBERS), 100);
    least("print", &all(&PRINT_NUMBERS), 100);
    least("locate", &all(&LOCATE_NUMBERS), 100);
    least("build", &all(&BUILD_NUMBERS), 100);
    least("explain", &all(&EXPLAIN_NUMBERS), 100);
}

/// Every carried code is printed at each pair of widths.
#[test]
fn carried_codes_are_printed() {
    let mut printed = BTreeSet::new();
    for (_, bytes) in print_files(DEFAULT_SEED) {
        let mut r = Reader(&bytes);
        for _ in 0..r.number(4) {
            printed.extend(codes_on_a_page(&mut r));
        }
    }
    assert_eq!(printed.len(), 4 * 380);
}

/// At most four files of locations.
#[test]
fn locations_take_four_files() {
    assert_eq!(locate_files(DEFAULT_SEED).len(), 4);
}

/// Three files of lines that explain.
#[test]
fn explained_lines_take_three_files() {
    assert_eq!(explain_files(DEFAULT_SEED).len(), 3);
}

/// What a record of a build file has, its answer last.
fn build_parts<'a>(r: &mut Reader<'a>) -> (&'a [u8], &'a [u8], u64) {
    r.take(8);
    let (image, routines) = (r.bytes(), r.bytes());
    let marks = r.bytes();
    let answer = r.number(8);
    if answer & 0xFF == 0 {
        r.take(marks.len());
    }
    (image, routines, answer)
}

/// At most 800 records, few of them long: with 256 routines and with one more,
/// with a malformed line behind 299 others.
#[test]
fn build_records_are_few() {
    let (mut records, mut long) = (0, 0);
    let mut seen = BTreeSet::new();
    for (_, bytes) in build_files(DEFAULT_SEED) {
        let mut r = Reader(&bytes);
        for _ in 0..r.number(4) {
            let (image, routines, answer) = build_parts(&mut r);
            records += 1;
            long += (image.len() + routines.len() > 300) as u32;
            let lines = routines.iter().filter(|&&b| b == b'\n').count();
            seen.insert((lines.clamp(256, 300), answer));
        }
    }
    assert!((400..=800).contains(&records), "{records}");
    assert!(long < 30, "{long}");
    for wanted in [(256, 0), (257, 17), (300, 17), (300, 14)] {
        assert!(seen.contains(&wanted), "{wanted:?}");
    }
}

/// Long images and marks stand in the long files alone: in each kind one of
/// 65,536 bytes that is not refused for its length, another of 65,537 that is,
/// and only a handful.
#[test]
fn long_images_are_few() {
    let mut records = 0;
    for (name, bytes) in files(DEFAULT_SEED) {
        let (kind, long) = kind_of(&name);
        if !long {
            assert!(bytes.len() <= MAX_FILE);
            continue;
        }
        let mut r = Reader(&bytes);
        let count = r.number(4);
        let mut numbers = BTreeSet::new();
        for _ in 0..count {
            numbers.insert(try_record((kind, long), &mut r));
        }
        assert!(numbers.iter().any(|&number| number != 1 && number != 2));
        assert!(numbers.contains(&1), "{kind}");
        assert!(bytes.len() < 3_000, "{name} has {} bytes", bytes.len());
        records += count;
    }
    assert!(records <= 30, "{records}");
}

/// Page, code and widths of each row in a record of a print file.
fn codes_on_a_page(r: &mut Reader) -> Vec<(usize, u8, u8)> {
    r.take(8);
    let (image, marks) = (r.bytes(), r.bytes());
    r.take(4);
    let answer = r.number(8);
    if answer & 0xFF != 0 {
        return Vec::new();
    }
    r.take((answer >> 8) as usize);
    let code_at = |(at, mark): (usize, &u8)| {
        let page = page_of(image[at]);
        (page, image[at + (page > 0) as usize], mark & 6)
    };
    let starts = marks.iter().enumerate().filter(|(_, m)| **m != 0);
    starts.map(code_at).collect()
}

/// A run's or step's record without its RAM: image, base, state before,
/// answer, state after.
struct Ran {
    image: Vec<u8>,
    base: u32,
    before: Vec<u8>,
    ram: Vec<u8>,
    answer: u64,
    after: Vec<u8>,
    ram_after: Vec<u8>,
}

fn ran(kind: &str) -> Vec<Ran> {
    let mut all = Vec::new();
    for (name, bytes) in files(DEFAULT_SEED) {
        if kind_of(&name) != (kind, false) {
            continue;
        }
        let mut r = Reader(&bytes);
        for _ in 0..r.number(4) {
            let (base, _) = (r.number(4) as u32, r.number(4));
            let image = r.bytes().to_vec();
            let (before, ram) = (r.buffer(), r.buffer());
            let answer = r.number(8);
            let (mut after, mut ram_after) = (before.clone(), ram.clone());
            r.pieces(&mut after);
            r.pieces(&mut ram_after);
            all.push(Ran {
                image,
                base,
                before,
                ram,
                answer,
                after,
                ram_after,
            });
        }
    }
    all
}

/// Page, code and PS bits of m and x of the instruction that a step begins
/// with, if it is in the image.
fn instruction(step: &Ran) -> Option<(usize, u8, u16)> {
    if step.answer & 0xFF != 0 {
        return None;
    }
    let r = Registers::read(&step.before);
    let at = r.pc.checked_sub(step.base)? as usize;
    let page = page_of(*step.image.get(at)?);
    let code = *step.image.get(at + (page > 0) as usize)?;
    Some((page, code, r.ps & 0x30))
}

/// Every carried code is completed at each pair of widths with each edge
/// value in the accumulator of its syntax (A if it names none), with each
/// flag set and with each flag clear.
#[test]
fn carried_codes_stand_with_edge_values_and_flags() {
    let mut values = BTreeSet::new();
    let mut flags = BTreeMap::new();
    for step in ran("step") {
        let Some((page, code, widths)) = instruction(&step) else {
            continue;
        };
        let entry = entry_of(page, code);
        let halts = matches!(entry.word, Word::STP | Word::WIT);
        if (step.answer >> 8 & 0xFF == 0) != halts {
            let r = Registers::read(&step.before);
            let value = if entry.register == Register::B {
                r.b
            } else {
                r.a
            };
            values.insert((page, code, widths, value));
            let (set, clear) = flags.entry((page, code, widths)).or_insert((0, 0));
            *set |= r.ps;
            *clear |= !r.ps;
        }
    }
    let mut carried = 0;
    for (page, code) in (0..3).flat_map(|page| (0..=255).map(move |code| (page, code))) {
        let entry = entry_of(page, code);
        if !entry.carried {
            continue;
        }
        carried += 1;
        for widths in [0, 0x10, 0x20, 0x30] {
            for value in VALUES {
                assert!(values.contains(&(page, code, widths, value)), "{entry:?}");
            }
            let decimal = matches!(entry.word, Word::ADC | Word::SBC) as u16 * 8;
            let (set, clear) = flags[&(page, code, widths)];
            assert_eq!(set & 0x7CF, 0x7CF & !decimal, "{entry:?}");
            assert_eq!(clear & 0x7CF, 0x7CF, "{entry:?}");
        }
    }
    assert_eq!(carried, 380);
}

/// Each of the seven transfers into X or Y stands under x=1 at both m, with an
/// upper byte that is not 00 before it and is 00 after it.
#[test]
fn transfers_stand_with_upper_bytes() {
    let mut seen = BTreeSet::new();
    for step in ran("step") {
        let Some((page, code, widths)) = instruction(&step) else {
            continue;
        };
        let (before, after) = (Registers::read(&step.before), Registers::read(&step.after));
        let (from, to) = match entry_of(page, code).word {
            Word::TAX | Word::TBX | Word::TSX | Word::TYX => (before.x, after.x),
            Word::TAY | Word::TBY | Word::TXY => (before.y, after.y),
            _ => continue,
        };
        if widths & 0x10 != 0 && from > 0xFF {
            assert!(to <= 0xFF, "{code:02X}");
            seen.insert((page, code, widths));
        }
    }
    assert_eq!(seen.len(), 14);
}

/// JSR, JSR long, RTS and RTL stand with each number of open calls, and are
/// completed but for a call with 24 and a return with none. States with more
/// are refused, and so are those of the former length.
#[test]
fn each_number_of_open_calls_stands() {
    let mut stands = BTreeSet::new();
    let (mut deeper, mut former) = (BTreeSet::new(), BTreeSet::new());
    for step in ran("step") {
        let end = (step.answer >> 8) as u8;
        if let (0, Some((0, code @ (0x20 | 0x22 | 0x60 | 0x6B), _))) = (end, instruction(&step)) {
            stands.insert((code, depth(&step.before)));
        }
        match step.before.len() {
            212 if depth(&step.before) > 24 => {
                assert!(step.answer < 20, "refused");
                deeper.insert(depth(&step.before));
            }
            532 => {
                assert!(step.answer < 20, "refused");
                former.insert(depth(&step.before));
            }
            _ => {}
        }
    }
    assert_eq!(stands.len(), 4 * 24);
    assert!(stands.iter().all(|&(code, open)| match code {
        0x20 | 0x22 => open < 24,
        _ => open > 0,
    }));
    assert!((25..=65).all(|open| deeper.contains(&open)));
    assert!(former.is_superset(&[0, 1, 23, 24, 25, 64].into()));
}

/// Among the runs are such that begin with image, state and RAM of the end
/// of one before, and refused ones of the same program between them.
#[test]
fn runs_go_on_from_ends() {
    let runs = ran("run");
    let (mut on, mut between) = (0, 0);
    for k in 1..runs.len() {
        let goes_on = |from: &Ran, to: &Ran| {
            from.image == to.image && from.after == to.before && from.ram_after == to.ram
        };
        let steps = |run: &Ran| run.answer >> 16 & 0xFF_FFFF;
        let fine = |run: &Ran| run.answer & 0xFF == 0;
        if fine(&runs[k - 1]) && fine(&runs[k]) && steps(&runs[k - 1]) > 0 {
            on += (goes_on(&runs[k - 1], &runs[k]) && steps(&runs[k]) > 0) as u32;
        }
        if k > 1 && fine(&runs[k - 2]) && !fine(&runs[k - 1]) && fine(&runs[k]) {
            between += (goes_on(&runs[k - 2], &runs[k]) && steps(&runs[k]) > 0) as u32;
        }
    }
    assert!(on > 50 && between > 20, "{on} and {between}");
}
