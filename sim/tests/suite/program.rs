//! The answer line of the program `check` and the page of `print`, by library
//! and by the binary.

use sim7700::answer::{answer, page};
use std::path::PathBuf;
use std::process::Command;

const LIST_1: &str = "I\t00C000\t7\tC000\nC000\t0\t0\tN\t0\t0\nC003\t0\t0\tN\t0\t0\n\
C004\t1\t0\tN\t0\t0\nC006\t1\t0\tN\t0\t0\n";
const IMAGE_1: [u8; 7] = [0x49, 0x34, 0x12, 0xF8, 0x49, 0x56, 0xDB];

#[test]
fn accepted_and_refused() {
    assert_eq!(answer(&IMAGE_1, LIST_1.as_bytes()), "A\t4\n");
    let widths = LIST_1.replace("C004\t1", "C004\t0");
    assert_eq!(answer(&IMAGE_1, widths.as_bytes()), "R\t9\t3\n");
    let flow = LIST_1.replace("C006\t1\t0\tN\t0\t0\n", "");
    assert_eq!(answer(&IMAGE_1, flow.as_bytes()), "R\t8\t4\n");
    assert_eq!(answer(&IMAGE_1[..6], LIST_1.as_bytes()), "R\t1\t0\n");
    assert_eq!(answer(&[], LIST_1.as_bytes()), "R\t1\t0\n");
    assert_eq!(answer(&[], b""), "R\t14\t0\n");
    assert_eq!(answer(&IMAGE_1, b"I\n"), "R\t14\t0\n");
    let reset = LIST_1.replace("7\tC000", "7\tC003");
    assert_eq!(answer(&IMAGE_1, reset.as_bytes()), "A\t4\n");
    let base = LIST_1.replace("00C000", "12C000");
    assert_eq!(answer(&IMAGE_1, base.as_bytes()), "A\t4\n");
}

const PAGE_1: &str = "00C000 49 34 12          EOR  0 0 N\n\
00C003 F8                SEM  0 0 N\n\
00C004 49 56             EOR  1 0 N\n\
00C006 DB                STP  1 0 N\n";

#[test]
fn printed_and_refused() {
    assert_eq!(page(&IMAGE_1, LIST_1.as_bytes()), PAGE_1);
    let base = LIST_1.replace("00C000", "12C000");
    let other_bank = PAGE_1.replace("00C00", "12C00");
    assert_eq!(page(&IMAGE_1, base.as_bytes()), other_bank);
    let widths = LIST_1.replace("C004\t1", "C004\t0");
    assert_eq!(page(&IMAGE_1, widths.as_bytes()), "R\t9\t3\n");
    assert_eq!(page(&IMAGE_1[..6], LIST_1.as_bytes()), "R\t1\t0\n");
    assert_eq!(page(&IMAGE_1, b"I\n"), "R\t14\t0\n");
}

#[test]
fn pages_of_files() {
    let image = file("printed-image", &IMAGE_1);
    let list = file("printed-list", LIST_1.as_bytes());
    let none = std::env::temp_dir().join("sim7700-no-such-file");
    assert_eq!(said("print", &image, &list), PAGE_1);
    assert_eq!(said("print", &list, &list), "R\t1\t0\n");
    assert_eq!(said("print", &image, &image), "R\t14\t0\n");
    assert_eq!(said("print", &none, &list), "L\n");
    assert_eq!(said("print", &image, &none), "L\n");
    for path in [image, list] {
        std::fs::remove_file(path).unwrap();
    }
}

fn file(name: &str, bytes: &[u8]) -> PathBuf {
    let path = std::env::temp_dir().join(format!("sim7700-{}-{name}", std::process::id()));
    std::fs::write(&path, bytes).unwrap();
    path
}

fn program(image: &PathBuf, list: &PathBuf) -> String {
    said("check", image, list)
}

fn said(command: &str, image: &PathBuf, list: &PathBuf) -> String {
    let output = Command::new(env!("CARGO_BIN_EXE_sim7700"))
        .arg(command)
        .args([image, list])
        .output()
        .unwrap();
    assert!(output.status.success());
    String::from_utf8(output.stdout).unwrap()
}

#[test]
fn files_and_their_limits() {
    let image = file("image", &IMAGE_1);
    let list = file("list", LIST_1.as_bytes());
    assert_eq!(program(&image, &list), "A\t4\n");
    let none = std::env::temp_dir().join("sim7700-no-such-file");
    assert_eq!(program(&none, &list), "L\n");
    assert_eq!(program(&image, &none), "L\n");
    assert_eq!(program(&image, &std::env::temp_dir()), "L\n");
    let longest = file("longest", &[0xEA; 65_536]);
    let too_long = file("too-long", &[0xEA; 65_537]);
    assert_eq!(program(&longest, &list), "R\t1\t0\n");
    assert_eq!(program(&too_long, &list), "L\n");
    let most = file("most", &[b'I'; 61_440]);
    let too_much = file("too-much", &[b'I'; 61_441]);
    assert_eq!(program(&image, &most), "R\t14\t0\n");
    assert_eq!(program(&image, &too_much), "L\n");
    let empty = file("empty", &[]);
    assert_eq!(program(&empty, &list), "R\t1\t0\n");
    for path in [image, list, longest, too_long, most, too_much, empty] {
        std::fs::remove_file(path).unwrap();
    }
}

#[test]
fn listing_is_printed() {
    let output = Command::new(env!("CARGO_BIN_EXE_sim7700"))
        .arg("listing")
        .output()
        .unwrap();
    assert!(output.stdout == include_bytes!("../../data/codemap.txt"));
}
