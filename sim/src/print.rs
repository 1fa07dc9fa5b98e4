//! The printed page of an accepted image (02, R-1).

use crate::check::verdict;
use crate::codes::{entry_of, page_of, Entry, Mode, Word};
use crate::marks::{self, digit, is_start, kind_letter};
use crate::numbers::PAGE;

/// Bytes of a row: 35 columns and 0A.
pub const ROW_BYTES: usize = 36;

/// Where the fields begin; R-1 counts columns from 1.
const BYTES: usize = 8 - 1;
const WORD: usize = 26 - 1;
const M: usize = 31 - 1;
const X: usize = 33 - 1;
const KIND: usize = 35 - 1;

/// The C interface's `m7700_print`: bits 0-7 number; above it on 0 the length
/// of the page, on the check's own numbers the check's offset.
pub fn print(image: &[u8], marks: &[u8], base: u32, reset: u32, page: &mut [u8]) -> u64 {
    if let Err((number, offset)) = verdict(image, marks, base, reset) {
        return number as u64 | (offset as u64) << 8;
    }
    let length = ROW_BYTES * marks.iter().filter(|&&m| is_start(m)).count();
    if length > page.len() {
        return PAGE as u64;
    }
    let starts = marks.iter().enumerate().filter(|(_, &m)| is_start(m));
    for ((at, &mark), row) in starts.zip(page.chunks_exact_mut(ROW_BYTES)) {
        write_row(&image[at..], mark, base + at as u32, row);
    }
    (length as u64) << 8
}

/// The row of the instruction that these bytes begin with.
fn write_row(bytes: &[u8], mark: u8, address: u32, row: &mut [u8]) {
    let page = page_of(bytes[0]);
    let entry = entry_of(page, bytes[(page > 0) as usize]);
    let length = entry.length(mark & marks::M != 0, mark & marks::X != 0);
    row.fill(b' ');
    let [_, bank, high, low] = address.to_be_bytes();
    for (pair, byte) in row.chunks_exact_mut(2).zip([bank, high, low]) {
        write_pair(byte, pair);
    }
    // Pairs parted by a blank: three columns each.
    for (place, &byte) in row[BYTES..].chunks_exact_mut(3).zip(&bytes[..length]) {
        write_pair(byte, &mut place[..2]);
    }
    write_word(entry, &mut row[WORD..]);
    row[M] = digit(mark & marks::M);
    row[X] = digit(mark & marks::X);
    row[KIND] = kind_letter(mark);
    row[ROW_BYTES - 1] = b'\n';
}

fn write_pair(byte: u8, pair: &mut [u8]) {
    const DIGITS: &[u8; 16] = b"0123456789ABCDEF";
    pair[0] = DIGITS[(byte >> 4) as usize];
    pair[1] = DIGITS[(byte & 15) as usize];
}

fn write_word(entry: &Entry, columns: &mut [u8]) {
    let [mnemonic, l] = first_word(entry);
    for (column, letter) in columns.iter_mut().zip(mnemonic.bytes().chain(l.bytes())) {
        *column = letter;
    }
}

/// The first word of the syntax on the instruction's page: its mnemonic, and
/// an L behind it in a long form.
pub fn first_word(entry: &Entry) -> [&'static str; 2] {
    let l = if has_l(entry) { "L" } else { "" };
    [entry.word.mnemonic(), l]
}

/// Absolute long has an L for jumps and calls alone, absolute indirect long is
/// of JMP alone; BRAL is BRA's second form, of three bytes.
fn has_l(entry: &Entry) -> bool {
    match (entry.word, entry.mode) {
        (_, Mode::L_DIR | Mode::L_DIR_Y | Mode::L_ABS) => true,
        (Word::JMP | Word::JSR, Mode::ABL) => true,
        (Word::BRA, _) => entry.lengths == [3; 4],
        _ => false,
    }
}
