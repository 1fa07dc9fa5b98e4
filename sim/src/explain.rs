//! What the check's refusal is about, in one line of text.

use crate::check::{verdict, View};
use crate::codes::{page_of, Entry};
use crate::marks::{
    digit, is_start, kind_letter, return_widths, widths, KIND, M, RETURN_M, RETURN_X, START, X,
};
use crate::numbers::*;
use crate::print::first_word;
use crate::rules::{resumed, Asks, Image, Instruction};
use std::fmt::{self, Display, Formatter, Write};

/// Bytes of the longest line, its 0A among them: 9 at an instruction of six.
pub const LINE_BYTES: usize = 79;

/// The C interface's `m7700_explain`: bits 0-7 number, 0 or 15; on 0 from bit 8
/// on the length of the line.
pub fn explain(image: &[u8], marks: &[u8], base: u32, reset: u32, page: &mut [u8]) -> u64 {
    let image = Image { bytes: image, base };
    let mut line = Line {
        bytes: [0; LINE_BYTES],
        length: 0,
    };
    write_line(&mut line, &View { image, marks }, reset).expect("no line has more bytes");
    match page.get_mut(..line.length) {
        Some(place) => {
            place.copy_from_slice(&line.bytes[..line.length]);
            (line.length as u64) << 8
        }
        None => PAGE as u64,
    }
}

/// A line, as far as it is written.
struct Line {
    bytes: [u8; LINE_BYTES],
    length: usize,
}

impl Write for Line {
    fn write_str(&mut self, text: &str) -> fmt::Result {
        let end = self.length + text.len();
        let place = self.bytes.get_mut(self.length..end).ok_or(fmt::Error)?;
        place.copy_from_slice(text.as_bytes());
        self.length = end;
        Ok(())
    }
}

fn write_line(line: &mut Line, view: &View, reset: u32) -> fmt::Result {
    let View { image, marks } = *view;
    let Image { bytes, base } = image;
    let (number, at) = match verdict(bytes, marks, base, reset) {
        Ok(()) => return writeln!(line, "accepted"),
        Err(refusal) => refusal,
    };
    match number {
        LENGTH => {
            let (image, marks) = (bytes.len(), marks.len());
            writeln!(line, "1 length: image {image}, marks {marks}")
        }
        BASE => writeln!(line, "2 base: {base:08X}, length {}", bytes.len()),
        RESET => {
            let is = Found(view, reset);
            writeln!(line, "3 reset: {reset:08X} must be 0 0 N 0 0, is {is}")
        }
        MARK => {
            let (address, mark) = (base + at as u32, marks[at]);
            writeln!(line, "4 mark: {address:06X} has {mark:02X}: {}", part(mark))
        }
        _ => Start::new(view, at).write(line, number),
    }
}

/// The first part of a mark that is not of the form.
fn part(mark: u8) -> &'static str {
    if !is_start(mark) {
        "bits without a start"
    } else if mark & 0x80 != 0 {
        "bit 7"
    } else if mark & KIND == KIND {
        "kind 3"
    } else {
        "return widths of kind N"
    }
}

/// The start whose rule is broken.
struct Start<'a> {
    view: &'a View<'a>,
    at: usize,
    mark: u8,
    /// Its code, if it is not missing behind a prefix.
    entry: Option<&'static Entry>,
    /// The bytes of the instruction; without a carried code those of prefix
    /// and code.
    length: usize,
    /// As many of them as stand in the image.
    bytes: &'a [u8],
}

impl<'a> Start<'a> {
    fn new(view: &'a View<'a>, at: usize) -> Start<'a> {
        let mark = view.marks[at];
        let rest = &view.image.bytes[at..];
        let entry = view.image.entry(at);
        let length = match entry.filter(|entry| entry.carried) {
            Some(entry) => entry.length(mark & M != 0, mark & X != 0),
            None => 1 + (page_of(rest[0]) > 0) as usize,
        };
        Start {
            view,
            at,
            mark,
            entry,
            length,
            bytes: &rest[..length.min(rest.len())],
        }
    }

    /// 5 to 10.
    fn write(&self, line: &mut Line, number: u8) -> fmt::Result {
        match number {
            CODE => writeln!(line, "5 code: {self}: not carried"),
            CUT_OFF if self.entry.is_none() => {
                writeln!(line, "6 cut off: {self}: the code is missing")
            }
            CUT_OFF => {
                let missing = self.length - self.bytes.len();
                writeln!(line, "6 cut off: {self}: {missing} missing")
            }
            OVERLAP => {
                let address = self.inside();
                writeln!(line, "7 overlap: {self}: {address:06X} starts inside it")
            }
            RETURN => self.write_return(line),
            FLOW => self.write_flow(line),
            _ => self.write_widths(line),
        }
    }

    /// The lowest start on a later byte of the instruction.
    fn inside(&self) -> u32 {
        let later = self.view.marks[self.at + 1..].iter();
        let unmarked = later.take_while(|&&mark| !is_start(mark)).count();
        self.view.image.base + (self.at + 1 + unmarked) as u32
    }

    fn write_return(&self, line: &mut Line) -> fmt::Result {
        let Asks::Return(kind) = self.instruction().asks() else {
            unreachable!("10 is for RTS and RTL alone");
        };
        let returns = Return {
            kind,
            widths: widths(self.mark),
        };
        let marked = Return {
            kind: self.mark,
            widths: return_widths(self.mark),
        };
        writeln!(
            line,
            "10 return: {self}: returns {returns}, is marked {marked}"
        )
    }

    fn write_flow(&self, line: &mut Line) -> fmt::Result {
        let Wanted { address, .. } = self.first(|_, found| found.is_none());
        let is = Found(self.view, address);
        writeln!(line, "8 flow: {self}: {address:06X} is {is}")
    }

    fn write_widths(&self, line: &mut Line) -> fmt::Result {
        let Wanted { address, must } = self.first(|must, found| !must.admit(found));
        let is = Found(self.view, address);
        writeln!(
            line,
            "9 widths: {self}: {address:06X} must be {must}, is {is}"
        )
    }

    /// The first mark asked for of which this holds, with what is found there.
    fn first(&self, broken: impl Fn(&Fields, Option<u8>) -> bool) -> Wanted {
        let mut asked = self.asked().into_iter().flatten();
        let first = asked.find(|w| broken(&w.must, self.view.start_at(w.address)));
        first.expect("8 and 9 are about one of them")
    }

    /// The marks that the instruction asks for, in the order of the check.
    fn asked(&self) -> [Option<Wanted>; 2] {
        match self.instruction().asks() {
            Asks::Nothing | Asks::Return(_) => [None, None],
            Asks::Successor(mark, address) => [Some(Wanted::new(address, mark)), None],
            Asks::Successors(mark, addresses) => {
                addresses.map(|address| Some(Wanted::new(address, mark)))
            }
            Asks::Call(call) => {
                let mut target = Wanted::new(call.target, START | widths(self.mark) | call.kind);
                target.must.free = RETURN_M | RETURN_X;
                let entered = self.view.start_at(call.target).unwrap_or(0);
                let after = Wanted::new(call.after, resumed(self.mark, entered));
                [Some(target), Some(after)]
            }
        }
    }

    /// The instruction, which is whole from 7 on.
    fn instruction(&self) -> Instruction<'a> {
        let whole = self.view.image.instruction(self.at, self.mark);
        whole.unwrap_or_else(|number| unreachable!("{number} goes first"))
    }
}

/// Address, bytes, and the word of the code.
impl Display for Start<'_> {
    fn fmt(&self, f: &mut Formatter) -> fmt::Result {
        write!(f, "{:06X}", self.view.image.base + self.at as u32)?;
        for byte in self.bytes {
            write!(f, " {byte:02X}")?;
        }
        match self.entry.map(first_word) {
            Some([word, l]) => write!(f, " {word}{l}"),
            None => Ok(()),
        }
    }
}

/// A mark that must stand at an address.
struct Wanted {
    address: u32,
    must: Fields,
}

impl Wanted {
    fn new(address: u32, mark: u8) -> Wanted {
        let must = Fields { mark, free: 0 };
        Wanted { address, must }
    }
}

/// A mark in the fields of a list's line. Some of its bits may be free.
struct Fields {
    mark: u8,
    free: u8,
}

impl Fields {
    fn admit(&self, found: Option<u8>) -> bool {
        found.is_some_and(|mark| mark & !self.free == self.mark)
    }

    fn digit(&self, bit: u8) -> char {
        if self.free & bit != 0 {
            '-'
        } else {
            digit(self.mark & bit) as char
        }
    }
}

impl Display for Fields {
    fn fmt(&self, f: &mut Formatter) -> fmt::Result {
        let kind = kind_letter(self.mark) as char;
        let [m, x, return_m, return_x] = [M, X, RETURN_M, RETURN_X].map(|bit| self.digit(bit));
        write!(f, "{m} {x} {kind} {return_m} {return_x}")
    }
}

/// What is found at an address.
struct Found<'a>(&'a View<'a>, u32);

impl Display for Found<'_> {
    fn fmt(&self, f: &mut Formatter) -> fmt::Result {
        let Found(view, address) = *self;
        match (view.image.offset(address), view.start_at(address)) {
            (None, _) => write!(f, "outside the image"),
            (_, None) => write!(f, "no start"),
            (_, Some(mark)) => write!(f, "{}", Fields { mark, free: 0 }),
        }
    }
}

/// A return: its kind, in the bits of a mark, and the widths there.
struct Return {
    kind: u8,
    widths: u8,
}

impl Display for Return {
    fn fmt(&self, f: &mut Formatter) -> fmt::Result {
        let kind = kind_letter(self.kind) as char;
        let [m, x] = [M, X].map(|bit| digit(self.widths & bit) as char);
        write!(f, "{kind} {m} {x}")
    }
}
