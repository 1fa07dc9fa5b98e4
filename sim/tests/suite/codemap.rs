//! The code map against the instructions' own pages (manual 4.2).

use sim7700::listing::listing;
use std::collections::BTreeMap;

/// The stored listing is what `sim7700 listing` prints.
#[test]
fn stored_listing_is_current() {
    assert_eq!(listing(), include_str!("../../data/codemap.txt"));
}

#[test]
fn listing_has_three_pages_in_order() {
    let text = listing();
    let lines: Vec<&str> = text.lines().collect();
    assert_eq!(lines.len(), 768);
    for (index, line) in lines.iter().enumerate() {
        let page = ["--", "42", "89"][index / 256];
        let head = format!("{page} {:02X} ", index % 256);
        assert!(line.starts_with(&head), "{line}");
        assert_eq!(line.split(' ').count(), 10, "{line}");
    }
}

/// Every assigned entry as the tables of chapter 4.2 give it: machine code,
/// syntax, addressing mode and bytes, grown by the notes on m, x and B.
fn pages() -> BTreeMap<String, String> {
    let mut entries = BTreeMap::new();
    let mut insert = |page: &str, code: &str, rest: String| {
        let old = entries.insert(format!("{page} {code}"), rest);
        assert!(old.is_none(), "{page} {code} twice");
    };
    for line in include_str!("data/pages.txt").lines() {
        let f: Vec<&str> = line.split('|').collect();
        let (codes, word, register, mode, grows) = (f[0], f[1], f[2], f[3], f[5]);
        let bytes: usize = f[4].parse().unwrap();
        let fields = |register: &str, n: usize| {
            let (m, x) = ((grows == "m") as usize, (grows == "x") as usize);
            let (l00, l01, l10) = (n + m + x, n + m, n + x);
            format!("{word} {register} {mode} {l00} {l01} {l10} {n}")
        };
        match codes.split_once(' ') {
            Some((page, code)) => insert(page, code, fields(register, bytes)),
            None => insert("--", codes, fields(register, bytes)),
        }
        if register == "A" {
            insert("42", codes, fields("B", bytes + 1));
        }
    }
    entries
}

#[test]
fn entries_agree_with_the_instruction_pages() {
    let pages = pages();
    for line in listing().lines() {
        let (place, rest) = line.split_at(5);
        let (fields, _) = rest[1..].rsplit_once(' ').unwrap();
        let expected = pages.get(place).map_or("- - - 0 0 0 0", String::as_str);
        assert_eq!(fields, expected, "{place}");
    }
}

/// 01: "a carried code has 1 to 6 bytes at each of the four widths".
#[test]
fn carried_codes_have_one_to_six_bytes() {
    for line in listing().lines() {
        let f: Vec<&str> = line.split(' ').collect();
        for length in &f[5..9] {
            let length: u32 = length.parse().unwrap();
            assert!(f[9] == "no" || (1..=6).contains(&length), "{line}");
        }
    }
}

/// 01, "Not carried", as sets of machine codes.
#[test]
fn uncarried_codes_are_those_of_01() {
    let plain = [
        "00", "02", "28", "40", "42", "44", "54", "6C", "7C", "89", "DC", "EB", "FB", "FC",
    ];
    let text = listing();
    let uncarried = |page: &str| -> Vec<String> {
        let lines = text
            .lines()
            .filter(|l| l.starts_with(page) && l.ends_with(" no"));
        lines.map(|l| l[3..5].to_string()).collect()
    };
    assert_eq!(uncarried("--"), plain);
    let carried_89: Vec<&str> = text
        .lines()
        .filter(|l| l.starts_with("89") && l.ends_with("yes"))
        .map(|l| &l[3..5])
        .collect();
    assert_eq!(carried_89, ["28", "49", "C2"]);
    assert_eq!(uncarried("42").len(), 256 - 135);
}
