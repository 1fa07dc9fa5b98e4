//! The harness itself: planted differences are found, guards fault.

use sim7700::generate::{check_case, CheckCase, Rng};
use std::env;
use std::os::unix::process::ExitStatusExt;
use std::process::{Command, Output};
use std::slice::from_raw_parts;
use trial7700::check::cases::{mixed_code, one_byte_codes, sweeps};
use trial7700::check::{Call, Subject, NUMBERS};
use trial7700::faults;
use trial7700::guard::Guarded;
use trial7700::tally::Tally;

type Bytes = *const u8;

/// The simulator in the library's place.
unsafe extern "C" fn same(i: Bytes, il: usize, m: Bytes, ml: usize, base: u32, reset: u32) -> u32 {
    sim7700::check(from_raw_parts(i, il), from_raw_parts(m, ml), base, reset)
}

/// The offset of 9 is one too high, from 32 on.
unsafe extern "C" fn shifts(i: Bytes, il: usize, m: Bytes, ml: usize, b: u32, r: u32) -> u32 {
    let answer = same(i, il, m, ml, b, r);
    answer + (answer >> 16 == 9 && answer & 0xFFFF >= 32) as u32
}

/// The last mark is changed where the answer is 10.
unsafe extern "C" fn writes(i: Bytes, il: usize, m: Bytes, ml: usize, b: u32, r: u32) -> u32 {
    let answer = same(i, il, m, ml, b, r);
    if answer >> 16 == 10 {
        *m.add(ml - 1).cast_mut() ^= 1;
    }
    answer
}

/// A byte in front of the image is changed where the answer is 10.
unsafe extern "C" fn writes_in_front(
    i: Bytes,
    il: usize,
    m: Bytes,
    ml: usize,
    b: u32,
    r: u32,
) -> u32 {
    let answer = same(i, il, m, ml, b, r);
    if answer >> 16 == 10 {
        *i.sub(1).cast_mut() ^= 1;
    }
    answer
}

/// The byte behind the image is read.
unsafe extern "C" fn reads_on(i: Bytes, il: usize, _: Bytes, _: usize, _: u32, _: u32) -> u32 {
    i.add(il).read_volatile() as u32
}

/// Which of the drawn cases a function differs in, and which ones it should.
fn found(call: Call, planted: impl Fn(u32) -> bool) -> (Vec<usize>, Vec<usize>) {
    let mut rng = Rng::new(3);
    let mut subject = Subject::new(call);
    let (mut found, mut planted_at) = (Vec::new(), Vec::new());
    for at in 0..20_000 {
        let case = check_case(&mut rng);
        if subject.compare(&case).is_err() {
            found.push(at);
        }
        if planted(answer(&case)) {
            planted_at.push(at);
        }
    }
    (found, planted_at)
}

fn answer(case: &CheckCase) -> u32 {
    sim7700::check(&case.image, &case.marks, case.base, case.reset)
}

#[test]
fn the_same_answers_differ_nowhere() {
    let (found, _) = found(same, |_| false);
    assert!(found.is_empty());
}

#[test]
fn a_shifted_offset_is_found() {
    let (found, planted) = found(shifts, |answer| answer >> 16 == 9 && answer & 0xFFFF >= 32);
    assert!(found == planted && !found.is_empty());
}

#[test]
fn a_written_byte_is_found() {
    for call in [writes as Call, writes_in_front] {
        let (found, planted) = found(call, |answer| answer >> 16 == 10);
        assert!(found == planted && !found.is_empty());
    }
}

#[test]
fn a_difference_shows_the_case() {
    let case = CheckCase {
        image: vec![0xDB, 0x60],
        marks: vec![0x01, 0x0B],
        base: 0xC000,
        reset: 0xC000,
    };
    let shown = Subject::new(writes).compare(&case).unwrap_err();
    let wanted = "marks after the call: 010A\n  base 00C000, reset 00C000\n  \
                  image, 2 bytes: DB60\n  marks, 2 bytes: 010B";
    assert_eq!(shown, wanted);
}

/// Runs `child` in a process of its own, as a fault ends the whole process.
fn in_child(task: &str, length: usize) -> Output {
    let mut command = Command::new(env::current_exe().expect("this program"));
    command.args(["--ignored", "--exact", "child", "--nocapture"]);
    command.env("CHILD_TASK", task);
    command.env("CHILD_LENGTH", length.to_string());
    command.output().expect("the program runs")
}

#[test]
#[ignore = "run by in_child"]
fn child() {
    let number = env::var("CHILD_LENGTH").unwrap_or_default();
    let length: usize = number.parse().unwrap_or(1);
    let mut buffer = Guarded::new(5000);
    buffer.fill(&vec![7; length]);
    let end = buffer.pointer().wrapping_add(length);
    match env::var("CHILD_TASK").as_deref() {
        // SAFETY: the last byte is mapped; the faults are what is tried.
        Ok("touch the last byte") => unsafe { *end.wrapping_sub(1) += 1 },
        Ok("read on") => assert_eq!(unsafe { end.read_volatile() }, 0),
        Ok("write on") => unsafe { end.write_volatile(0) },
        Ok("fault in a call") => {
            faults::report();
            let case = one_byte_codes(&mut Rng::new(1), length);
            let _ = Subject::new(reads_on).compare(&case);
        }
        _ => {}
    }
}

#[test]
fn the_byte_behind_a_buffer_faults() {
    const SIGSEGV: i32 = 11;
    for length in [0, 1, 4096, 5000] {
        let touched = in_child("touch the last byte", length);
        assert!(touched.status.success());
        for task in ["read on", "write on"] {
            let ended = in_child(task, length);
            assert_eq!(ended.status.signal(), Some(SIGSEGV), "{task} {length}");
        }
    }
}

#[test]
fn a_fault_in_a_call_shows_the_case() {
    let ended = in_child("fault in a call", 1);
    let said = String::from_utf8_lossy(&ended.stdout);
    assert_eq!(ended.status.code(), Some(1));
    assert!(said.contains("signal 11 within the call\n"), "{said}");
    assert!(said.contains("image, 1 bytes: DB\n"), "{said}");
}

#[test]
fn long_images_are_accepted() {
    let mut rng = Rng::new(5);
    for length in [8_192, 32_768, 65_535, 65_536] {
        for case in [
            mixed_code(&mut rng, length),
            one_byte_codes(&mut rng, length),
        ] {
            assert_eq!(case.image.len(), length);
            assert_eq!(answer(&case), 0);
        }
    }
    let case = mixed_code(&mut rng, 65_536);
    let starts = case.marks.iter().filter(|&&mark| mark != 0).count();
    assert!((12_000..40_000).contains(&starts), "{starts}");
}

#[test]
fn sweeps_meet_every_number() {
    let mut tally = Tally::new(&NUMBERS);
    sweeps(&mut Rng::new(1), |case| {
        tally.note(Ok((answer(case) >> 16) as u8))
    });
    assert!(tally.missing().is_empty());
}

#[test]
fn what_occurs_too_seldom_is_named() {
    let mut tally = Tally::of("some", &[(1, "one"), (2, "two"), (3, "three")], 2);
    for number in [1, 2, 1, 1] {
        tally.note(Ok(number));
    }
    assert_eq!(tally.missing(), [(2, "two"), (3, "three")]);
    tally.lack("a code".into());
    assert_eq!(tally.lacks(), ["2 two", "3 three", "a code"]);
}

fn trial(args: &[&str]) -> Output {
    let command = Command::new(env!("CARGO_BIN_EXE_trial"))
        .args(args)
        .output();
    command.expect("the program runs")
}

#[test]
fn the_seed_alone_decides() {
    for name in [
        "check", "lists", "print", "locate", "build", "steps", "runs",
    ] {
        let once = trial(&[name, "5000", "1"]);
        assert!(once.status.success());
        assert_eq!(once.stdout, trial(&[name, "5000", "1"]).stdout);
        assert_ne!(once.stdout, trial(&[name, "5000", "2"]).stdout);
    }
}

#[test]
fn other_arguments_are_refused() {
    for args in [
        &[][..],
        &["chek"],
        &["check", "x"],
        &["check", "1", "2", "3"],
    ] {
        assert_eq!(trial(args).status.code(), Some(2));
    }
}
