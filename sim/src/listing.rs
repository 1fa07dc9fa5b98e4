//! The listing of the code map, in the agreed format (data/codemap.txt).

use crate::codes::{entry_of, Entry, Mode, Register, Word};
use std::fmt::Write;

/// Appendix B's symbol of a mode, without blanks.
pub fn symbol(mode: Mode) -> &'static str {
    match mode {
        Mode::IMP => "IMP",
        Mode::IMM => "IMM",
        Mode::ACC => "A",
        Mode::DIR => "DIR",
        Mode::DIR_b => "DIR,b",
        Mode::DIR_X => "DIR,X",
        Mode::DIR_Y => "DIR,Y",
        Mode::I_DIR => "(DIR)",
        Mode::I_DIR_X => "(DIR,X)",
        Mode::I_DIR_Y => "(DIR),Y",
        Mode::L_DIR => "L(DIR)",
        Mode::L_DIR_Y => "L(DIR),Y",
        Mode::ABS => "ABS",
        Mode::ABS_b => "ABS,b",
        Mode::ABS_X => "ABS,X",
        Mode::ABS_Y => "ABS,Y",
        Mode::ABL => "ABL",
        Mode::ABL_X => "ABL,X",
        Mode::I_ABS => "(ABS)",
        Mode::L_ABS => "L(ABS)",
        Mode::I_ABS_X => "(ABS,X)",
        Mode::STK => "STK",
        Mode::REL => "REL",
        Mode::DIR_b_REL => "DIR,b,REL",
        Mode::ABS_b_REL => "ABS,b,REL",
        Mode::SR => "SR",
        Mode::I_SR_Y => "(SR),Y",
        Mode::BLK => "BLK",
        Mode::None => "-",
    }
}

fn line(out: &mut String, page: &str, code: u8, e: &Entry) -> std::fmt::Result {
    if e.word == Word::Unassigned {
        return writeln!(out, "{page} {code:02X} - - - 0 0 0 0 no");
    }
    let register = match e.register {
        Register::A => "A",
        Register::B => "B",
        Register::None => "-",
    };
    let [l00, l01, l10, l11] = e.lengths;
    let carried = if e.carried { "yes" } else { "no" };
    let (word, mode) = (e.word.mnemonic(), symbol(e.mode));
    writeln!(
        out,
        "{page} {code:02X} {word} {register} {mode} {l00} {l01} {l10} {l11} {carried}"
    )
}

/// The 768 lines.
pub fn listing() -> String {
    let mut out = String::new();
    for (page, name) in ["--", "42", "89"].iter().enumerate() {
        for code in 0..=255 {
            line(&mut out, name, code, entry_of(page, code)).expect("writing to a String");
        }
    }
    out
}
