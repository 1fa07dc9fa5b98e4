//! 01, "Proved set": the ten cases.

use crate::common::Bench;
use sim7700::check;

const IMAGE_1: [u8; 7] = [0x49, 0x34, 0x12, 0xF8, 0x49, 0x56, 0xDB];
const MARKS_1: [u8; 7] = [1, 0, 0, 1, 3, 0, 3];
const IMAGE_6: [u8; 5] = [0x20, 0x04, 0xC0, 0xDB, 0x60];

fn at_c000(image: &[u8], marks: &[u8]) -> u32 {
    check(image, marks, 0xC000, 0xC000)
}

#[test]
fn case_1_is_accepted() {
    assert_eq!(at_c000(&IMAGE_1, &MARKS_1), 0);
}

#[test]
fn case_2_stops_at_stp_after_three_steps() {
    let mut bench = Bench::new(&IMAGE_1);
    assert_eq!(bench.run(1_000_000), (22, 3, 0));
    assert_eq!(bench.r.a, 0x1262);
    assert_eq!(bench.r.pc, 0xC006);
}

#[test]
fn case_3_ends_with_the_asked_steps() {
    let mut bench = Bench::new(&IMAGE_1);
    assert_eq!(bench.run(3), (0, 3, 0));
    assert_eq!(bench.r.a, 0x1262);
    let before = bench.clone();
    assert_eq!(bench.run(0), (0, 0, 0));
    assert_eq!(bench, before);
}

#[test]
fn case_4_widths_after_sem() {
    let marks = [1, 0, 0, 1, 1, 0, 3];
    assert_eq!(at_c000(&IMAGE_1, &marks), 9 << 16 | 3);
}

#[test]
fn case_5_no_start_behind() {
    let marks = [1, 0, 0, 1, 3, 0, 0];
    assert_eq!(at_c000(&IMAGE_1, &marks), 8 << 16 | 4);
}

#[test]
fn case_6_call_and_return() {
    assert_eq!(at_c000(&IMAGE_6, &[1, 0, 0, 1, 9]), 0);
    let mut bench = Bench::new(&IMAGE_6);
    assert_eq!(bench.run(10), (22, 2, 1));
    assert_eq!((bench.ram[0x1FF], bench.ram[0x1FE]), (0xC0, 0x03));
    assert_eq!((bench.r.s, bench.r.pc), (0x1FF, 0xC003));
}

#[test]
fn case_7_push_past_the_ram() {
    let mut bench = Bench::new(&IMAGE_6);
    bench.r.s = 0;
    bench.stops(23);
}

#[test]
fn case_8_call_target_of_kind_0() {
    assert_eq!(at_c000(&IMAGE_6, &[1, 0, 0, 1, 1]), 9 << 16);
}

#[test]
fn case_9_return_without_a_call() {
    let mut bench = Bench::new(&IMAGE_6);
    bench.r.pc = 0xC004;
    bench.r.s = 0x1FD;
    bench.stops(24);
    bench.r.s = 0x1FF;
    bench.stops(23);
}

#[test]
fn case_10_branch_to_itself() {
    let image = [0x80, 0xFE];
    assert_eq!(at_c000(&image, &[1, 0]), 0);
    let mut bench = Bench::new(&image);
    let before = bench.clone();
    for steps in [1, 2, 1000, 1_000_000] {
        assert_eq!(bench.run(steps), (0, steps, 0));
        assert_eq!(bench, before);
    }
}
