//! At length 0 the library takes any pointer (include/m7700.h).

use sim7700::state::STATE_BYTES;
use std::ptr::{null_mut, without_provenance_mut};
use trial7700::library::{
    m7700_build_marks, m7700_check, m7700_explain, m7700_locate, m7700_print, m7700_read_list,
    m7700_run, m7700_step, m7700_write_list,
};

#[test]
fn at_length_0_any_pointer_will_do() {
    let byte = [1];
    for nowhere in [
        null_mut(),
        without_provenance_mut(1),
        without_provenance_mut(usize::MAX),
    ] {
        // SAFETY: each pointer is valid for its length.
        let answers = unsafe {
            [
                m7700_check(nowhere, 0, nowhere, 0, 0, 0),
                m7700_check(nowhere, 0, byte.as_ptr(), 1, 0, 0),
                m7700_check(byte.as_ptr(), 1, nowhere, 0, 0, 0),
            ]
        };
        assert_eq!(answers, [1 << 16; 3]);
        // SAFETY: likewise.
        let answers = unsafe {
            [
                m7700_read_list(nowhere, 0, nowhere, 0),
                m7700_read_list(b"I\t000000\t0\t0000\n".as_ptr(), 16, nowhere, 0),
                m7700_write_list(nowhere, 0, 0, 0, nowhere, 0),
                m7700_write_list(byte.as_ptr(), 1, 0, 0, nowhere, 0),
            ]
        };
        assert_eq!(answers, [14, 1, 1, 15]);
        // SAFETY: likewise.
        let answers = unsafe {
            let (stp, start) = ([0xDB], byte.as_ptr());
            [
                m7700_print(nowhere, 0, nowhere, 0, 0, 0, nowhere, 0),
                m7700_print(stp.as_ptr(), 1, nowhere, 0, 0, 0, nowhere, 0),
                m7700_print(stp.as_ptr(), 1, start, 1, 0, 0, nowhere, 0),
            ]
        };
        assert_eq!(answers, [1, 1, 15]);
    }
}

#[test]
fn at_length_0_any_pointer_will_do_for_a_line() {
    let (image, marks) = ([0xDB], [1]);
    let mut page = [0; 27];
    for nowhere in [
        null_mut(),
        without_provenance_mut(1),
        without_provenance_mut(usize::MAX),
    ] {
        let (i, m) = (image.as_ptr(), marks.as_ptr());
        let line = page.as_mut_ptr();
        // SAFETY: each pointer is valid for its length, and the page overlaps
        // nothing.
        let answers = unsafe {
            [
                m7700_explain(nowhere, 0, nowhere, 0, 0, 0, nowhere, 0),
                m7700_explain(i, 1, m, 1, 0, 0, nowhere, 0),
                m7700_explain(nowhere, 0, nowhere, 0, 0, 0, line, 27),
            ]
        };
        assert_eq!(answers, [15, 15, 27 << 8]);
        assert_eq!(&page, b"1 length: image 0, marks 0\n");
    }
}

#[test]
fn at_length_0_any_pointer_will_do_for_addresses() {
    let (image, marks) = ([0xDB], [1]);
    let mut place = 0;
    for nowhere in [
        null_mut(),
        without_provenance_mut(4),
        without_provenance_mut(usize::MAX - 3),
    ] {
        let (i, m) = (image.as_ptr(), marks.as_ptr());
        // SAFETY: each pointer is valid for its length, and the place overlaps
        // nothing.
        let answers = unsafe {
            [
                m7700_locate(null_mut(), 0, null_mut(), 0, 0, 0, nowhere, 0, nowhere, 0),
                m7700_locate(i, 1, m, 1, 0, 0, nowhere, 0, nowhere, 0),
                m7700_locate(i, 1, m, 1, 0, 0, nowhere, 0, &mut place, 1),
                m7700_locate(i, 1, m, 1, 0, 0, &0, 1, nowhere, 0),
                m7700_locate(i, 1, m, 1, 0, 0, &1, 1, nowhere, 0),
            ]
        };
        assert_eq!(answers, [1, 0, 0, 15, 16]);
    }
    assert_eq!(place, 0);
}

#[test]
fn at_length_0_any_pointer_will_do_for_routines() {
    let image = [0xDB];
    let mut mark = [0];
    let (i, m) = (image.as_ptr(), mark.as_mut_ptr());
    let line = b"0000\t1\t0\tN\t0\t0\n";
    for nowhere in [
        null_mut(),
        without_provenance_mut(1),
        without_provenance_mut(usize::MAX),
    ] {
        // SAFETY: each pointer is valid for its length, and the mark overlaps
        // nothing.
        let answers = unsafe {
            [
                m7700_build_marks(nowhere, 0, 0, 0, nowhere, 0, nowhere, 0),
                m7700_build_marks(i, 1, 0, 0, nowhere, 0, nowhere, 0),
                m7700_build_marks(nowhere, 0, 0, 0, line.as_ptr(), 14, nowhere, 0),
                m7700_build_marks(i, 1, 0, 0, line.as_ptr(), 15, m, 1),
                m7700_build_marks(i, 1, 0, 0, nowhere, 0, m, 1),
            ]
        };
        assert_eq!(answers, [1, 1, 14, 17, 0]);
    }
    assert_eq!(mark, [1]);
}

#[test]
fn at_length_0_any_pointer_will_do_for_steps() {
    let image = [0xEA];
    let mut ram = [0];
    let mut state = [0; STATE_BYTES];
    let (code, state, ram) = (image.as_ptr(), state.as_mut_ptr(), ram.as_mut_ptr());
    for nowhere in [
        null_mut(),
        without_provenance_mut(1),
        without_provenance_mut(usize::MAX),
    ] {
        // SAFETY: each pointer is valid for its length, and what is written
        // overlaps nothing.
        let answers = unsafe {
            [
                m7700_step(nowhere, 0, 0, nowhere, 0, nowhere, 0),
                m7700_step(code, 1, 1, state, STATE_BYTES, nowhere, 0),
                m7700_step(code, 1, 1, nowhere, 0, ram, 1),
                m7700_run(nowhere, 0, 0, nowhere, 0, nowhere, 0, 0),
                m7700_run(code, 1, 1, state, STATE_BYTES, nowhere, 0, 1),
                m7700_run(code, 1, 1, nowhere, 0, ram, 1, 1),
            ]
        };
        assert_eq!(answers, [1, 11, 12, 1, 11, 12]);
    }
}
