//! bench check|lists|print|locate|build|explain|runs: times the library beside
//! the simulator on the same inputs. Every ratio is library time over simulator
//! time.

mod builds;
mod clock;
mod locates;
mod pages;
mod runs;

use clock::{row, Input};
use sim7700::generate::{backwards, calling, straight, BuildCase, CheckCase, Rng};
use sim7700::numbers::MAX_IMAGE;
use std::env;
use std::process::ExitCode;
use trial7700::check::cases::{mixed_code, one_byte_codes};
use trial7700::library::{m7700_check, m7700_read_list, m7700_write_list};
use trial7700::lists::cases::{every_start, Marked};

/// Calls in a batch, long beside the clock's own cost.
const CALLS: usize = 20;
const SEED: u64 = 7700;
/// Bytes of code that the benchmarks of check, page, location, building and
/// line go through in a call.
const BYTES: usize = 262_144;
/// The longest image, and one of half its bytes.
const LENGTHS: [(usize, &str); 2] = [(MAX_IMAGE, "65,536"), (MAX_IMAGE / 2, "32,768")];

fn main() -> ExitCode {
    let args: Vec<String> = env::args().skip(1).collect();
    match args.iter().map(String::as_str).collect::<Vec<_>>()[..] {
        ["check"] => check(),
        ["lists"] => lists(),
        ["print"] => print(),
        ["locate"] => locate(),
        ["build"] => build(),
        ["explain"] => explain(),
        ["runs"] => runs::timed(),
        _ => {
            eprintln!("usage: bench check|lists|print|locate|build|explain|runs");
            return ExitCode::from(2);
        }
    }
    ExitCode::SUCCESS
}

fn check() {
    println!("accepted images, ns per byte        library  simulator  ratio");
    let times = LENGTHS.map(|(length, said)| {
        let images = drawn(mixed_code, length);
        checked(&format!("mixed, {said}"), &images)
    });
    checked("one-byte, 65,536", &drawn(one_byte_codes, MAX_IMAGE));
    linear("mixed code", times);
}

/// Different images of a length, together so many bytes at every length: one
/// image repeated would let the processor learn more of a short one's branches.
fn drawn<T>(draw: fn(&mut Rng, usize) -> T, length: usize) -> Vec<T> {
    (0..(BYTES / length) as u64)
        .map(|k| draw(&mut Rng::new(SEED + k), length))
        .collect()
}

fn lists() {
    println!("lists of starts, ns per start       library  simulator  ratio");
    let marked = LENGTHS.map(|(length, _)| every_start(&mut Rng::new(SEED), length));
    linear("written", marked.each_ref().map(written));
    linear("read", marked.each_ref().map(read));
}

fn print() {
    println!("printed images, ns per byte         library  simulator  ratio");
    let times = LENGTHS.map(|(length, said)| {
        let images = drawn(mixed_code, length);
        pages::PRINT.timed(&format!("mixed, {said}"), CALLS, &images)
    });
    linear("printed", times);
}

fn locate() {
    println!("256 addresses, ns per byte          library  simulator  ratio");
    let times = LENGTHS.map(|(length, said)| {
        let images = drawn(mixed_code, length);
        locates::located(&format!("mixed, {said}"), CALLS, images)
    });
    linear("located", times);
}

fn build() {
    println!("marks built, ns per byte            library  simulator  ratio");
    let sorts: [(&str, fn(&mut Rng, usize) -> BuildCase); 3] = [
        ("straight", straight),
        ("backwards", backwards),
        ("calls", calling),
    ];
    for (name, sort) in sorts {
        let times = LENGTHS.map(|(length, said)| {
            let images = drawn(sort, length);
            builds::built(&format!("{name}, {said}"), CALLS, &images)
        });
        linear(name, times);
    }
}

fn explain() {
    println!("refused images, ns per byte         library  simulator  ratio");
    let times = LENGTHS.map(|(length, said)| {
        let images = drawn(refused_at_its_end, length);
        pages::EXPLAIN.timed(&format!("mixed, {said}"), CALLS, &images)
    });
    linear("explained", times);
}

/// Mixed code with BRK, which is not carried, as its last byte.
fn refused_at_its_end(rng: &mut Rng, length: usize) -> CheckCase {
    let mut case = mixed_code(rng, length);
    case.image[length - 1] = 0x00;
    case
}

/// Near 2 is linear.
fn linear(name: &str, [whole, half]: [f64; 2]) {
    let ratio = whole / half;
    println!("library, {name}, t(65,536) / t(32,768): {ratio:.2}");
}

/// Times the check of accepted images; the library's best time of one in ns.
fn checked(name: &str, cases: &[CheckCase]) -> f64 {
    for case in cases {
        let answer = sim7700::check(&case.image, &case.marks, case.base, case.reset);
        assert_eq!(answer, 0, "not accepted");
    }
    let bytes: usize = cases.iter().map(|case| case.image.len()).sum();
    let time = row(
        Input {
            name,
            unit: "bytes",
            units: bytes,
            calls: CALLS,
        },
        || {
            let answer = |case: &CheckCase| {
                let (image, marks) = (case.image.as_ptr(), case.marks.as_ptr());
                let (image_len, marks_len) = (case.image.len(), case.marks.len());
                // SAFETY: the pointers are valid for the lengths.
                unsafe { m7700_check(image, image_len, marks, marks_len, case.base, case.reset) }
            };
            cases.iter().map(|case| answer(case) as u64).sum()
        },
        || {
            let answer =
                |case: &CheckCase| sim7700::check(&case.image, &case.marks, case.base, case.reset);
            cases.iter().map(|case| answer(case) as u64).sum()
        },
    );
    time / cases.len() as f64
}

/// Times the writing of a list; the library's best time in ns.
fn written(marked: &Marked) -> f64 {
    let Marked { marks, base, reset } = marked;
    let (base, reset) = (*base, *reset);
    let starts = marks.len();
    let [mut page, mut other] = [0; 2].map(|byte| vec![byte; marked.list().len()]);
    let time = row(
        Input {
            name: "written",
            unit: "starts",
            units: starts,
            calls: CALLS,
        },
        // SAFETY: the pointers are valid for the lengths, and the page is
        // lent to nothing else.
        || unsafe {
            let (lent, length) = (page.as_mut_ptr(), page.len());
            m7700_write_list(marks.as_ptr(), starts, base, reset, lent, length)
        },
        || sim7700::write_list(marks, base, reset, &mut other),
    );
    assert_eq!(page, marked.list(), "not written");
    time
}

/// Times the reading of a list; the library's best time in ns.
fn read(marked: &Marked) -> f64 {
    let text = marked.list();
    let starts = marked.marks.len();
    let [mut marks, mut other] = [0; 2].map(|byte| vec![byte; starts]);
    let time = row(
        Input {
            name: "read",
            unit: "starts",
            units: starts,
            calls: CALLS,
        },
        // SAFETY: the pointers are valid for the lengths, and the marks are
        // lent to nothing else.
        || unsafe { m7700_read_list(text.as_ptr(), text.len(), marks.as_mut_ptr(), starts) },
        || sim7700::read_list(&text, &mut other),
    );
    assert_eq!(marks, marked.marks, "not read");
    time
}
