//! The mark list: its reader and its writer (01, "The mark list"; 02, R-7).

use crate::marks::{self, digit, forms_and_reset, is_start, kind_letter};
use crate::numbers::*;

/// How a list writes its addresses, from its first one to its last.
#[derive(Clone, Copy)]
pub enum Addresses {
    /// Whole, in six digits.
    Whole,
    /// As before R-7: within this bank, in four digits.
    Within(u32),
}

impl Addresses {
    /// 1, then 2: as of the image, and of a list in four digits if the image
    /// doesn't fit one bank.
    pub fn place(self, length: usize, base: u32) -> Result<(), u8> {
        image_place(length, base)?;
        match self {
            Addresses::Within(_) if !in_one_bank(length, base) => Err(BASE),
            _ => Ok(()),
        }
    }
}

/// What the first line says, the reset as a whole address.
struct Head {
    base: u32,
    length: usize,
    reset: u32,
    addresses: Addresses,
}

/// The C interface's `m7700_read_list`: bits 0-7 number; on 0 bits 8-31 base,
/// 32-55 reset.
pub fn read_list(text: &[u8], marks: &mut [u8]) -> u64 {
    match accept(text, marks.len()) {
        Ok(head) => {
            fill(text, &head, marks);
            (head.base as u64) << 8 | (head.reset as u64) << 32
        }
        Err(number) => number as u64,
    }
}

/// 14, 1, 2, 3, with nothing written yet.
fn accept(text: &[u8], marks_len: usize) -> Result<Head, u8> {
    let mut rest = Cursor { text };
    let head = rest.head().ok_or(LIST)?;
    let end = head.base + head.length as u32;
    let mut lowest = head.base;
    let mut reset_mark = 0;
    while !rest.text.is_empty() {
        let (address, mark) = rest.start(head.addresses).ok_or(LIST)?;
        if address < lowest || address >= end {
            return Err(LIST);
        }
        lowest = address + 1;
        if address == head.reset {
            reset_mark = mark;
        }
    }
    // 1: an empty or over-long image, or marks of another length; then 2.
    if head.length != marks_len {
        return Err(LENGTH);
    }
    head.addresses.place(head.length, head.base)?;
    if reset_mark != marks::RESET_MARK {
        return Err(RESET);
    }
    Ok(head)
}

/// Writes the marks of an accepted list.
fn fill(text: &[u8], head: &Head, marks: &mut [u8]) {
    let mut rest = Cursor { text };
    rest.head();
    marks.fill(0);
    while let Some((address, mark)) = rest.start(head.addresses) {
        marks[(address - head.base) as usize] = mark;
    }
}

/// The rest of a list's text; each method takes one thing off its front, or
/// says `None` when something else stands there.
pub struct Cursor<'a> {
    pub text: &'a [u8],
}

impl Cursor<'_> {
    fn byte(&mut self) -> Option<u8> {
        let (&first, rest) = self.text.split_first()?;
        self.text = rest;
        Some(first)
    }

    fn expect(&mut self, wanted: u8) -> Option<()> {
        (self.byte()? == wanted).then_some(())
    }

    fn tab(&mut self) -> Option<()> {
        self.expect(b'\t')
    }

    fn hex(&mut self, digits: u32) -> Option<u32> {
        let mut value = 0;
        for _ in 0..digits {
            value = value << 4 | hex_digit(self.byte()?)? as u32;
        }
        Some(value)
    }

    /// How the address that stands next is written: six hex digits, or four
    /// for one in the bank of this base.
    pub fn addresses(&self, base: u32) -> Option<Addresses> {
        let digits = self.text.iter().map_while(|&byte| hex_digit(byte));
        match digits.count() {
            6 => Some(Addresses::Whole),
            4 => Some(Addresses::Within(bank(base))),
            _ => None,
        }
    }

    /// An address, written so.
    fn address(&mut self, written: Addresses) -> Option<u32> {
        match written {
            Addresses::Whole => self.hex(6),
            Addresses::Within(bank) => Some(bank | self.hex(4)?),
        }
    }

    /// 1 to 5 decimal digits closed by a tab, no leading zero but a lone 0.
    fn length(&mut self) -> Option<usize> {
        let mut value = 0;
        for count in 0..6 {
            match self.byte()? {
                b'\t' if count > 0 => return Some(value),
                d @ b'0'..=b'9' if count < 5 && (count == 0 || value > 0) => {
                    value = value * 10 + (d - b'0') as usize;
                }
                _ => return None,
            }
        }
        None
    }

    fn bit(&mut self) -> Option<bool> {
        match self.byte()? {
            b'0' => Some(false),
            b'1' => Some(true),
            _ => None,
        }
    }

    fn head(&mut self) -> Option<Head> {
        self.expect(b'I')?;
        self.tab()?;
        let base = self.hex(6)?;
        self.tab()?;
        let length = self.length()?;
        let addresses = self.addresses(base)?;
        let reset = self.address(addresses)?;
        self.expect(b'\n')?;
        Some(Head {
            base,
            length,
            reset,
            addresses,
        })
    }

    /// A start's line: its address and its mark.
    pub fn start(&mut self, addresses: Addresses) -> Option<(u32, u8)> {
        let address = self.address(addresses)?;
        let mut mark = marks::START;
        self.tab()?;
        mark |= if self.bit()? { marks::M } else { 0 };
        self.tab()?;
        mark |= if self.bit()? { marks::X } else { 0 };
        self.tab()?;
        mark |= match self.byte()? {
            b'N' => 0,
            b'S' => marks::KIND_RTS,
            b'L' => marks::KIND_RTL,
            _ => return None,
        };
        self.tab()?;
        mark |= if self.bit()? { marks::RETURN_M } else { 0 };
        self.tab()?;
        mark |= if self.bit()? { marks::RETURN_X } else { 0 };
        self.expect(b'\n')?;
        // Under N the last two are 0: exactly the form of a mark.
        marks::well_formed(mark).then_some((address, mark))
    }
}

/// The value of a hex digit, letters as capitals.
fn hex_digit(byte: u8) -> Option<u8> {
    match byte {
        b'0'..=b'9' => Some(byte - b'0'),
        b'A'..=b'F' => Some(byte - b'A' + 10),
        _ => None,
    }
}

/// The C interface's `m7700_write_list`: bits 0-7 number; on 0 bits 8-63 the
/// length of the list.
pub fn write_list(marks: &[u8], base: u32, reset: u32, page: &mut [u8]) -> u64 {
    match fits(marks, base, reset, page.len()) {
        Ok(length) => {
            write(marks, base, reset, page);
            (length as u64) << 8
        }
        Err(number) => number as u64,
    }
}

/// Bytes of a start's line, and of the first line without its length's digits.
const START_LINE: usize = 17;
const HEAD_LINE: usize = 17;

/// 1, 2, 4, 3, 15; else the list's length.
fn fits(marks: &[u8], base: u32, reset: u32, page_len: usize) -> Result<usize, u8> {
    image_place(marks.len(), base)?;
    forms_and_reset(marks, base, reset).map_err(|(number, _)| number)?;
    let starts = marks.iter().filter(|&&m| is_start(m)).count();
    let length = HEAD_LINE + digits(marks.len()) + START_LINE * starts;
    if length > page_len {
        return Err(PAGE);
    }
    Ok(length)
}

fn digits(number: usize) -> usize {
    number.checked_ilog10().unwrap_or(0) as usize + 1
}

fn write(marks: &[u8], base: u32, reset: u32, page: &mut [u8]) {
    let mut line = Line { page, at: 0 };
    line.put(b"I\t");
    line.hex(base, 6);
    line.put(b"\t");
    line.decimal(marks.len());
    line.put(b"\t");
    line.hex(reset, 6);
    line.put(b"\n");
    for (offset, &mark) in marks.iter().enumerate().filter(|(_, &m)| is_start(m)) {
        line.hex(base + offset as u32, 6);
        line.field(digit(mark & marks::M));
        line.field(digit(mark & marks::X));
        line.field(kind_letter(mark));
        line.field(digit(mark & marks::RETURN_M));
        line.field(digit(mark & marks::RETURN_X));
        line.put(b"\n");
    }
}

/// The place in the page where the next byte goes.
struct Line<'a> {
    page: &'a mut [u8],
    at: usize,
}

impl Line<'_> {
    fn put(&mut self, bytes: &[u8]) {
        self.page[self.at..self.at + bytes.len()].copy_from_slice(bytes);
        self.at += bytes.len();
    }

    fn field(&mut self, byte: u8) {
        self.put(&[b'\t', byte]);
    }

    fn hex(&mut self, value: u32, digits: u32) {
        for place in (0..digits).rev() {
            let digit = value >> (4 * place) & 15;
            self.put(&[b"0123456789ABCDEF"[digit as usize]]);
        }
    }

    fn decimal(&mut self, value: usize) {
        for place in (0..digits(value) as u32).rev() {
            self.put(&[b'0' + (value / 10usize.pow(place) % 10) as u8]);
        }
    }
}
