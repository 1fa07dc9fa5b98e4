//! Trial data for other programs: cases with their expected answers and
//! buffers, in the binary format of README.md, "Vector files".

use crate::alu;
use crate::codes::{entry_of, Mode, Word};
use crate::generate::*;
use crate::numbers::MAX_IMAGE;
use crate::state::{Registers, STATE_BYTES};
use crate::{check, ROW_BYTES};

pub const DEFAULT_SEED: u64 = 7700;

/// No file is longer.
pub const MAX_FILE: usize = 65_536;

/// Cases aimed at each number that a kind can give: so many stand at least.
pub const LEAST: usize = 100;

/// The numbers that a step, a run, a read, a write, a page, a location, a
/// building and a line can give, besides 0.
pub const STEP_NUMBERS: [u8; 12] = [1, 2, 11, 12, 20, 21, 22, 23, 24, 25, 26, 27];
pub const RUN_NUMBERS: [u8; 13] = [1, 2, 11, 12, 13, 20, 21, 22, 23, 24, 25, 26, 27];
pub const READ_NUMBERS: [u8; 4] = [14, 1, 2, 3];
pub const WRITE_NUMBERS: [u8; 5] = [1, 2, 4, 3, 15];
pub const PRINT_NUMBERS: [u8; 11] = [1, 2, 4, 3, 5, 6, 7, 10, 8, 9, 15];
pub const LOCATE_NUMBERS: [u8; 12] = [1, 2, 4, 3, 5, 6, 7, 10, 8, 9, 16, 15];
pub const BUILD_NUMBERS: [u8; 4] = [14, 1, 2, 17];
/// Those that a line explains, and 15.
pub const EXPLAIN_NUMBERS: [u8; 11] = PRINT_NUMBERS;

/// Turns the seed into the printed pages' own, so that they stay what they
/// are when others are drawn before them.
const PRINT_SEED: u64 = 0x5052_494E_5400_0000;
/// Likewise for the lists.
const LIST_SEED: u64 = 0x4C49_5354_5300_0000;
/// Likewise for the transfers into X and Y, which came later.
const TRANSFER_SEED: u64 = 0x5452_414E_5300_0000;

/// Likewise for each number of open calls.
const DEPTH_SEED: u64 = 0x4445_5054_4800_0000;
/// Likewise for the ends of banks.
const BANK_SEED: u64 = 0x4241_4E4B_5300_0000;
/// Likewise for the locations.
const LOCATE_SEED: u64 = 0x4C4F_4341_5445_0000;
/// Likewise for the marks that are built.
const BUILD_SEED: u64 = 0x4255_494C_4400_0000;
/// Likewise for the lines that explain.
const EXPLAIN_SEED: u64 = 0x4558_504C_4149_4E00;

/// All files of a seed, by name.
pub fn files(seed: u64) -> Vec<(String, Vec<u8>)> {
    let mut rng = Rng::new(seed);
    let checks = check_records(&mut rng);
    let mut steps = step_records(&mut rng);
    let mut runs = run_records(&mut rng);
    let mut lists = Rng::new(seed ^ LIST_SEED);
    let reads = read_records(&mut lists);
    let writes = write_records(&mut lists);
    let mut own = Rng::new(seed ^ TRANSFER_SEED);
    steps.extend(transfer_steps(&mut own).iter().map(run_record));
    runs.extend(transfer_runs(&mut own).iter().map(run_record));
    let mut own = Rng::new(seed ^ DEPTH_SEED);
    steps.extend(depth_steps(&mut own).iter().map(run_record));
    runs.extend(depth_runs(&mut own).iter().map(run_record));
    let mut own = Rng::new(seed ^ BANK_SEED);
    steps.extend(bank_steps(&mut own).iter().map(run_record));
    runs.extend(bank_runs(&mut own).iter().map(run_record));
    let kinds = [
        ("check", checks),
        ("step", steps),
        ("run", runs),
        ("read", reads),
        ("write", writes),
    ];
    let files = kinds.into_iter();
    let files = files.flat_map(|(kind, records)| pack(kind, records));
    let files = files.chain(print_files(seed));
    let files = files.chain(locate_files(seed));
    let files = files.chain(build_files(seed));
    let files = files.chain(explain_files(seed));
    files.chain(long_files()).collect()
}

/// The print files alone, which hang on no machine.
pub fn print_files(seed: u64) -> Vec<(String, Vec<u8>)> {
    let mut rng = Rng::new(seed ^ PRINT_SEED);
    pack("print", print_records(&mut rng))
}

/// The files of locations alone, likewise.
pub fn locate_files(seed: u64) -> Vec<(String, Vec<u8>)> {
    let mut rng = Rng::new(seed ^ LOCATE_SEED);
    pack("locate", locate_records(&mut rng))
}

/// The files of marks that are built alone, likewise.
pub fn build_files(seed: u64) -> Vec<(String, Vec<u8>)> {
    let mut rng = Rng::new(seed ^ BUILD_SEED);
    pack("build", build_records(&mut rng))
}

/// The files of lines that explain alone, likewise.
pub fn explain_files(seed: u64) -> Vec<(String, Vec<u8>)> {
    let mut rng = Rng::new(seed ^ EXPLAIN_SEED);
    pack("explain", explain_records(&mut rng))
}

/// Puts records into numbered files: a count, then record after record.
fn pack(kind: &str, records: Vec<Vec<u8>>) -> Vec<(String, Vec<u8>)> {
    let mut files = Vec::new();
    let mut body = Vec::new();
    let mut count = 0u32;
    let close = |files: &mut Vec<(String, Vec<u8>)>, count: u32, body: &mut Vec<u8>| {
        let name = format!("{kind}-{:02}.bin", files.len());
        files.push((name, file(count, body)));
        body.clear();
    };
    for record in records {
        if 4 + body.len() + record.len() > MAX_FILE {
            close(&mut files, count, &mut body);
            count = 0;
        }
        body.extend_from_slice(&record);
        count += 1;
    }
    close(&mut files, count, &mut body);
    files
}

/// The bytes of a file with so many records.
fn file(count: u32, records: &[u8]) -> Vec<u8> {
    [&count.to_le_bytes()[..], records].concat()
}

fn put_u16(out: &mut Vec<u8>, value: usize) {
    let value = u16::try_from(value).expect("a number of 16 bits");
    out.extend_from_slice(&value.to_le_bytes());
}

fn put_u32(out: &mut Vec<u8>, value: u32) {
    out.extend_from_slice(&value.to_le_bytes());
}

fn put_u64(out: &mut Vec<u8>, value: u64) {
    out.extend_from_slice(&value.to_le_bytes());
}

/// Bytes with their length before them.
fn put_bytes(out: &mut Vec<u8>, bytes: &[u8]) {
    put_u32(out, bytes.len() as u32);
    out.extend_from_slice(bytes);
}

/// How image and marks stand in a record.
#[derive(Clone, Copy)]
enum Size {
    /// Byte for byte.
    Short,
    /// As what differs from their most frequent byte.
    Long,
}

impl Size {
    fn put(self, out: &mut Vec<u8>, bytes: &[u8]) {
        match self {
            Size::Short => put_bytes(out, bytes),
            Size::Long => put_long(out, bytes),
        }
    }

    /// Bytes whose length stands in the record already.
    fn put_known(self, out: &mut Vec<u8>, bytes: &[u8]) {
        match self {
            Size::Short => out.extend_from_slice(bytes),
            Size::Long => put_long(out, bytes),
        }
    }
}

/// A long buffer: as a buffer, but with a length of 32 bits.
fn put_long(out: &mut Vec<u8>, bytes: &[u8]) {
    let mut counts = [0; 256];
    bytes.iter().for_each(|&byte| counts[byte as usize] += 1);
    let often = (0..=255).max_by_key(|&byte: &u8| counts[byte as usize]);
    let often = often.unwrap_or(0);
    put_u32(out, bytes.len() as u32);
    out.extend_from_slice(&[often, 0]);
    put_pieces(out, &vec![often; bytes.len()], bytes);
}

/// The places where `new` differs from `old`, as runs of bytes.
fn put_pieces(out: &mut Vec<u8>, old: &[u8], new: &[u8]) {
    let mut pieces: Vec<(usize, usize)> = Vec::new();
    for k in (0..new.len()).filter(|&k| old[k] != new[k]) {
        match pieces.last_mut() {
            // Four bytes head a piece: a short gap is cheaper inside it.
            Some((_, end)) if k - *end <= 4 => *end = k + 1,
            _ => pieces.push((k, k + 1)),
        }
    }
    put_u16(out, pieces.len());
    for (start, end) in pieces {
        put_u16(out, start);
        put_u16(out, end - start);
        out.extend_from_slice(&new[start..end]);
    }
}

/// A buffer as its length, its fill rule, and what differs from that.
fn put_buffer(out: &mut Vec<u8>, bytes: &[u8], fill: (u8, u8)) {
    let rule: Vec<u8> = (0..bytes.len())
        .map(|k| fill.0.wrapping_add(fill.1.wrapping_mul(k as u8)))
        .collect();
    put_u16(out, bytes.len());
    out.extend_from_slice(&[fill.0, fill.1]);
    put_pieces(out, &rule, bytes);
}

fn check_record(case: &CheckCase) -> Vec<u8> {
    check_sized(case, Size::Short)
}

fn check_sized(case: &CheckCase, size: Size) -> Vec<u8> {
    let mut out = Vec::new();
    put_u32(&mut out, case.base);
    put_u32(&mut out, case.reset);
    size.put(&mut out, &case.image);
    size.put(&mut out, &case.marks);
    put_u32(
        &mut out,
        check(&case.image, &case.marks, case.base, case.reset),
    );
    out
}

fn run_record(case: &RunCase) -> Vec<u8> {
    run_sized(case, Size::Short)
}

fn run_sized(case: &RunCase, size: Size) -> Vec<u8> {
    let (answer, state, ram) = case.answer();
    let mut out = Vec::new();
    put_u32(&mut out, case.base);
    put_u32(&mut out, case.steps);
    size.put(&mut out, &case.image);
    put_buffer(&mut out, &case.state, (0, 0));
    put_buffer(&mut out, &case.ram, case.fill);
    put_u64(&mut out, answer);
    put_pieces(&mut out, &case.state, &state);
    put_pieces(&mut out, &case.ram, &ram);
    out
}

fn read_record(case: &ReadCase) -> Vec<u8> {
    read_sized(case, Size::Short)
}

fn read_sized(case: &ReadCase, size: Size) -> Vec<u8> {
    let (answer, marks) = case.answer();
    let mut out = Vec::new();
    put_bytes(&mut out, &case.text);
    put_u32(&mut out, case.marks_len as u32);
    put_u64(&mut out, answer);
    if answer & 0xFF == 0 {
        size.put_known(&mut out, &marks);
    }
    out
}

fn write_record(case: &WriteCase) -> Vec<u8> {
    write_sized(case, Size::Short)
}

fn write_sized(case: &WriteCase, size: Size) -> Vec<u8> {
    let (answer, page) = case.answer();
    let mut out = Vec::new();
    put_u32(&mut out, case.base);
    put_u32(&mut out, case.reset);
    size.put(&mut out, &case.marks);
    put_u32(&mut out, case.page_len as u32);
    put_u64(&mut out, answer);
    if answer & 0xFF == 0 {
        out.extend_from_slice(&page[..(answer >> 8) as usize]);
    }
    out
}

fn print_record(case: &PrintCase) -> Vec<u8> {
    print_sized(case, Size::Short)
}

fn print_sized(case: &PrintCase, size: Size) -> Vec<u8> {
    paged(&case.checked, case.answer(), size)
}

fn explain_record(case: &ExplainCase) -> Vec<u8> {
    explain_sized(case, Size::Short)
}

fn explain_sized(case: &ExplainCase, size: Size) -> Vec<u8> {
    paged(&case.checked, case.answer(), size)
}

/// A case of the check with the answer and the page after it.
fn paged(case: &CheckCase, (answer, page): (u64, Vec<u8>), size: Size) -> Vec<u8> {
    let mut out = Vec::new();
    put_u32(&mut out, case.base);
    put_u32(&mut out, case.reset);
    size.put(&mut out, &case.image);
    size.put(&mut out, &case.marks);
    put_u32(&mut out, page.len() as u32);
    put_u64(&mut out, answer);
    if answer & 0xFF == 0 {
        out.extend_from_slice(&page[..(answer >> 8) as usize]);
    }
    out
}

fn locate_record(case: &LocateCase) -> Vec<u8> {
    locate_sized(case, Size::Short)
}

fn locate_sized(case: &LocateCase, size: Size) -> Vec<u8> {
    let (answer, places) = case.answer();
    let mut out = Vec::new();
    put_u32(&mut out, case.checked.base);
    put_u32(&mut out, case.checked.reset);
    size.put(&mut out, &case.checked.image);
    size.put(&mut out, &case.checked.marks);
    put_u32(&mut out, case.addresses.len() as u32);
    for &address in &case.addresses {
        put_u32(&mut out, address);
    }
    put_u32(&mut out, case.places_len as u32);
    put_u64(&mut out, answer);
    if answer & 0xFF == 0 {
        for &place in &places[..case.addresses.len()] {
            put_u32(&mut out, place);
        }
    }
    out
}

fn build_record(case: &BuildCase) -> Vec<u8> {
    build_sized(case, Size::Short)
}

fn build_sized(case: &BuildCase, size: Size) -> Vec<u8> {
    let (answer, marks) = case.answer();
    let mut out = Vec::new();
    put_u32(&mut out, case.base);
    put_u32(&mut out, case.reset);
    size.put(&mut out, &case.image);
    put_bytes(&mut out, &case.routines);
    size.put(&mut out, &case.marks);
    put_u64(&mut out, answer);
    if answer & 0xFF == 0 {
        size.put_known(&mut out, &marks);
    }
    out
}

/// Every carried code at every width, programs around the ends of banks, and
/// drawn cases, at most 300 of each number.
fn check_records(rng: &mut Rng) -> Vec<Vec<u8>> {
    let mut records: Vec<Vec<u8>> = every_code(rng).iter().map(check_record).collect();
    records.extend(bank_checks().iter().map(check_record));
    let mut count = [0; 11];
    for _ in 0..30_000 {
        let case = check_case(rng);
        let number = (check(&case.image, &case.marks, case.base, case.reset) >> 16) as usize;
        count[number] += 1;
        if case.image.len() < 2_000 && count[number] <= 300 {
            records.push(check_record(&case));
        }
    }
    records
}

/// Each carried code at all four widths with edge values, and at every edge
/// if it has a data address or uses the stack; each other code; stops at
/// each of their places; refused and drawn steps.
fn step_records(rng: &mut Rng) -> Vec<Vec<u8>> {
    let mut records = Vec::new();
    for page in 0..3 {
        for code in 0..=255 {
            for widths in [0, alu::X, alu::M, alu::M | alu::X] {
                let cases = steps_of(rng, page, code, widths);
                records.extend(cases.iter().map(run_record));
            }
        }
    }
    records.extend(crossed_steps(rng).iter().map(run_record));
    records.extend(placed_steps(rng).iter().map(run_record));
    for number in STEP_NUMBERS {
        for _ in 0..LEAST {
            records.push(run_record(&step_by(rng, number)));
        }
    }
    for _ in 0..2_500 {
        let case = step_case(rng);
        if case.image.len() < 400 {
            records.push(run_record(&case));
        }
    }
    records
}

/// A step with this number: refused, or the one that a run stops in.
fn step_by(rng: &mut Rng, number: u8) -> RunCase {
    let mut case = if number < 20 {
        refused_by(rng, number)
    } else {
        stopped_by(rng, number)
    };
    if number >= 20 {
        (_, case.state, case.ram) = case.answer();
    }
    case.steps = 1;
    case
}

fn steps_of(rng: &mut Rng, page: usize, code: u8, widths: u16) -> Vec<RunCase> {
    let entry = entry_of(page, code);
    let aimed = match entry.mode {
        _ if calls(entry.word) => 2 * EDGES,
        Mode::IMP | Mode::IMM | Mode::ACC | Mode::REL => 0,
        _ => EDGES,
    };
    if !entry.carried {
        return vec![aimed_step(rng, page, code, widths)];
    }
    let mut cases = valued_steps(rng, page, code, widths);
    // Each edge at two of the four pairs of widths: at both m and both x.
    let alike = (widths & alu::M != 0) == (widths & alu::X != 0);
    let edges = (0..aimed).filter(|k| (k % 2 == 0) == alike);
    cases.extend(edges.map(|k| edge_step(rng, page, code, widths, k % EDGES)));
    cases.push(aimed_step(rng, page, code, widths));
    cases
}

fn calls(word: Word) -> bool {
    matches!(word, Word::JSR | Word::RTS | Word::RTL)
}

/// Drawn runs, runs aimed at each number, and programs that are run on.
fn run_records(rng: &mut Rng) -> Vec<Vec<u8>> {
    let mut records = Vec::new();
    while records.len() < 1_400 {
        let case = match records.len() % 8 {
            0 => refused_run(rng),
            _ => run_case(rng),
        };
        if case.image.len() < 400 {
            records.push(run_record(&case));
        }
    }
    for number in RUN_NUMBERS {
        for _ in 0..LEAST {
            let case = if number < 20 {
                refused_by(rng, number)
            } else {
                stopped_by(rng, number)
            };
            records.push(run_record(&case));
        }
    }
    for _ in 0..60 {
        records.extend(continued_runs(rng).iter().map(run_record));
    }
    records
}

/// Drawn lists, texts aimed at each number, one list out of form in many
/// ways, and a few small ones damaged at every byte: each byte replaced in
/// several ways, removed, doubled, and the text cut there.
fn read_records(rng: &mut Rng) -> Vec<Vec<u8>> {
    let drawn = (0..1_500).map(|_| read_record(&read_case(rng)));
    // One long list stands below.
    let mut records: Vec<Vec<u8>> = drawn.filter(|record| record.len() < 4_000).collect();
    for number in READ_NUMBERS {
        for _ in 0..LEAST {
            records.push(read_record(&read_by(rng, number)));
        }
    }
    records.extend(out_of_form().iter().map(read_record));
    records.extend(digit_lists().iter().map(read_record));
    for (marks, base) in [
        (&[1, 0, 0, 1, 3, 0, 3][..], 0x12_FFFC),
        (&[1, 0x2F], 0x12_FFF9),
        (&[1, 0x57], 0xFF_FFFE),
        (&[1], 0x12_FFFF),
    ] {
        let page_len = 17 * marks.len() + 18;
        let reset = base;
        let marks = marks.to_vec();
        let marks_len = marks.len();
        let case = WriteCase {
            marks,
            base,
            reset,
            page_len,
        };
        let (answer, page) = case.answer();
        let text = &page[..(answer >> 8) as usize];
        for at in 0..text.len() {
            for text in damages(rng, text, at) {
                records.push(read_record(&ReadCase { text, marks_len }));
            }
        }
    }
    records
}

fn damages(rng: &mut Rng, text: &[u8], at: usize) -> Vec<Vec<u8>> {
    let mut texts = vec![text[..at].to_vec()];
    for byte in [
        b'0',
        b'1',
        b'F',
        b'\t',
        b'\n',
        b'S',
        text[at] ^ 0x20,
        rng.byte(),
    ] {
        let mut replaced = text.to_vec();
        replaced[at] = byte;
        texts.push(replaced);
    }
    let mut removed = text.to_vec();
    removed.remove(at);
    let mut doubled = text.to_vec();
    doubled.insert(at, text[at]);
    texts.extend([removed, doubled]);
    texts
}

/// Drawn marks, marks aimed at each number, and lists with pages exact and
/// one byte short and long.
fn write_records(rng: &mut Rng) -> Vec<Vec<u8>> {
    let mut records = Vec::new();
    while records.len() < 1_500 {
        let case = write_case(rng);
        if case.marks.len() < 400 {
            records.push(write_record(&case));
        }
    }
    for number in WRITE_NUMBERS {
        for _ in 0..LEAST {
            records.push(write_record(&write_by(rng, number)));
        }
    }
    let one_page = |marks: Vec<u8>, page_len: usize| {
        let (base, reset) = (0x12_FFFF, 0x12_FFFF);
        write_record(&WriteCase {
            marks,
            base,
            reset,
            page_len,
        })
    };
    for length in [1usize, 9, 10, 99, 100, 1_000] {
        let exact = 17 + length.to_string().len() + 17 * length;
        for page_len in [exact - 1, exact, exact + 1] {
            records.push(one_page(vec![1; length], page_len));
        }
    }
    // Every length of page for a list of two lines, and for one of three.
    for marks in [&[1][..], &[1, 0, 0x77]] {
        for page_len in 0..=54 {
            records.push(one_page(marks.to_vec(), page_len));
        }
    }
    // The lists of accepted programs around the ends of banks.
    for CheckCase {
        marks, base, reset, ..
    } in bank_programs()
    {
        records.push(write_record(&WriteCase {
            page_len: 18 + 17 * marks.len(),
            marks,
            base,
            reset,
        }));
    }
    records
}

/// Every carried code at every width, cases aimed at each number, drawn ones,
/// pages around their exact length, many rows, and programs around the ends of
/// banks.
fn print_records(rng: &mut Rng) -> Vec<Vec<u8>> {
    let mut cases: Vec<PrintCase> = every_code(rng).into_iter().map(PrintCase::exact).collect();
    for number in PRINT_NUMBERS {
        cases.extend((0..LEAST).map(|_| print_by(rng, number)));
    }
    let drawn = (0..200).map(|_| print_case(rng));
    cases.extend(drawn.filter(|case| case.checked.image.len() < 100));
    cases.extend(around_exact());
    cases.push(PrintCase::exact(nops(300, 0x12_FF80)));
    cases.extend(bank_programs().into_iter().map(PrintCase::exact));
    cases.iter().map(print_record).collect()
}

/// Three rows up to the end of a bank and of all addresses, with every length
/// of page from none to room for a row more.
fn around_exact() -> Vec<PrintCase> {
    let checked = CheckCase {
        image: vec![0x42, 0xA9, 0x34, 0x12, 0xF8, 0xDB],
        marks: vec![1, 0, 0, 0, 1, 3],
        base: 0x12_FFFA,
        reset: 0x12_FFFA,
    };
    let mut last = PrintCase::exact(checked.clone());
    (last.checked.base, last.checked.reset) = (0xFF_FFFA, 0xFF_FFFA);
    let mut cases = vec![last];
    for page_len in 0..=4 * ROW_BYTES {
        let checked = checked.clone();
        cases.push(PrintCase { checked, page_len });
    }
    cases
}

/// NOPs and a last STP, each of them a start.
fn nops(length: usize, base: u32) -> CheckCase {
    let mut image = vec![0xEA; length];
    image[length - 1] = 0xDB;
    CheckCase {
        image,
        marks: vec![1; length],
        base,
        reset: base,
    }
}

/// Cases aimed at each number and drawn ones in small images, each carried
/// code, as many addresses as go and one more, all lists of two in a short
/// image, and programs around the ends of banks.
fn locate_records(rng: &mut Rng) -> Vec<Vec<u8>> {
    let mut cases = Vec::new();
    // 0 twice: these alone have places.
    for number in [0, 0].into_iter().chain(LOCATE_NUMBERS) {
        let aimed = std::iter::repeat_with(|| locate_by(rng, number));
        cases.extend(aimed.filter(is_small).take(LEAST));
    }
    let drawn = (0..100).map(|_| locate_case(rng));
    cases.extend(drawn.filter(is_small));
    cases.extend(every_code(rng).into_iter().step_by(3).map(at_the_end));
    for count in [255, 256, 256, 257, 257, 300] {
        cases.push(crowd(rng, count));
    }
    cases.extend(pairs());
    cases.extend(bank_programs().into_iter().map(whole));
    cases.iter().map(locate_record).collect()
}

fn is_small(case: &LocateCase) -> bool {
    case.checked.image.len() < 60
}

/// All bytes of an image.
fn whole(checked: CheckCase) -> LocateCase {
    let end = checked.base + checked.image.len() as u32;
    let all = (checked.base..end).collect();
    LocateCase::exact(checked, all)
}

/// The image's last three bytes: a length that is too short has a gap there.
fn at_the_end(checked: CheckCase) -> LocateCase {
    let end = checked.base + checked.image.len() as u32;
    let first = end - checked.image.len().min(3) as u32;
    LocateCase::exact(checked, (first..end).collect())
}

/// Up to FFFFFF: two bytes before the first start, an instruction of two
/// bytes, a gap, one of a byte, a gap. Every two addresses in it and beside
/// it in either order, each alone, and all that are inside.
fn pairs() -> Vec<LocateCase> {
    let checked = CheckCase {
        image: vec![0, 0, 0x80, 0x02, 0xEA, 0xEA, 0xDB, 0xEA],
        marks: vec![0, 0, 1, 0, 0, 0, 1, 0],
        base: 0xFF_FFF8,
        reset: 0xFF_FFFA,
    };
    let all = 0xFF_FFF7..=0x100_0000u32;
    let mut lists = vec![(0xFF_FFF8..0x100_0000).collect(), Vec::new()];
    for first in all.clone() {
        lists.push(vec![first]);
        lists.extend(all.clone().map(|second| vec![first, second]));
    }
    let case = |addresses| LocateCase::exact(checked.clone(), addresses);
    lists.into_iter().map(case).collect()
}

/// Bases of the longest image: across a bank's end, and up to FFFFFF.
const ACROSS: u32 = 0x12_8000;
const TOP: u32 = 0xFF_0000;

/// For each kind the greatest length and a byte more.
fn long_files() -> Vec<(String, Vec<u8>)> {
    let [step, run] = [1, 1_000_000].map(long_runs);
    let kinds: [(&str, Vec<Vec<u8>>); 9] = [
        ("check", long_by(&long_checks(), check_sized)),
        ("step", long_by(&step, run_sized)),
        ("run", long_by(&run, run_sized)),
        ("read", long_by(&long_reads(), read_sized)),
        ("write", long_by(&long_writes(), write_sized)),
        ("print", long_by(&long_prints(), print_sized)),
        ("locate", long_by(&long_locates(), locate_sized)),
        ("build", long_by(&long_builds(), build_sized)),
        ("explain", long_by(&long_explains(), explain_sized)),
    ];
    let long = |(kind, records): (&str, Vec<Vec<u8>>)| {
        let bytes = file(records.len() as u32, &records.concat());
        (format!("{kind}-long.bin"), bytes)
    };
    kinds.into_iter().map(long).collect()
}

fn long_by<T>(cases: &[T], record: fn(&T, Size) -> Vec<u8>) -> Vec<Vec<u8>> {
    cases.iter().map(|case| record(case, Size::Long)).collect()
}

/// Accepted; refused at its last byte; past FFFFFF; too long.
fn long_checks() -> [CheckCase; 4] {
    let mut last = nops(MAX_IMAGE, TOP);
    last.image[MAX_IMAGE - 1] = 0x00;
    [
        nops(MAX_IMAGE, ACROSS),
        last,
        nops(MAX_IMAGE, TOP + 1),
        too_long(),
    ]
}

/// NOPs alone.
fn too_long() -> CheckCase {
    let mut case = nops(MAX_IMAGE + 1, ACROSS);
    case.image[MAX_IMAGE] = 0xEA;
    case
}

fn long_runs(steps: u32) -> [RunCase; 2] {
    [nops(MAX_IMAGE, ACROSS), too_long()].map(|case| {
        let mut state = vec![0; STATE_BYTES];
        let registers = Registers {
            pc: case.reset,
            ..Registers::default()
        };
        registers.write(&mut state);
        RunCase {
            image: case.image,
            base: case.base,
            state,
            ram: vec![0; 16],
            fill: (0, 0),
            steps,
        }
    })
}

/// Starts on the first byte and on the last: read in six digits; in four, from
/// a bank's first byte on, and not from its second; past FFFFFF; too long.
fn long_reads() -> Vec<ReadCase> {
    let list = |base: u32, marks_len: usize, digits: usize| {
        let last = base as usize + MAX_IMAGE - 1;
        let start = "\t0\t0\tN\t0\t0\n";
        let head = format!("I\t{base:06X}\t{marks_len}\t{base:06X}\n");
        let list = format!("{head}{base:06X}{start}{:06X}{start}", last.min(0xFF_FFFF));
        let text = rewritten(list.as_bytes(), |_| digits);
        ReadCase { text, marks_len }
    };
    vec![
        list(ACROSS, MAX_IMAGE, 6),
        list(0x12_0000, MAX_IMAGE, 4),
        // The last byte lies in the next bank, at 0000: it has no line.
        without_last_line(list(0x12_0001, MAX_IMAGE, 4)),
        list(TOP + 1, MAX_IMAGE, 6),
        list(ACROSS, MAX_IMAGE + 1, 6),
    ]
}

fn without_last_line(mut case: ReadCase) -> ReadCase {
    let lines: Vec<&[u8]> = case.text.split_inclusive(|&b| b == b'\n').collect();
    case.text = lines[..lines.len() - 1].concat();
    case
}

/// Written; past FFFFFF; too long.
fn long_writes() -> [WriteCase; 3] {
    [(ACROSS, 0), (TOP + 1, 0), (ACROSS, 1)].map(|(base, more)| {
        let mut marks = vec![0; MAX_IMAGE + more];
        (marks[0], marks[MAX_IMAGE - 1]) = (1, 0x6F);
        WriteCase {
            marks,
            base,
            reset: base,
            page_len: 100,
        }
    })
}

/// Two rows, and an image that is too long.
fn long_prints() -> [PrintCase; 2] {
    let mut case = PrintCase::exact(too_long());
    case.page_len = 100;
    [PrintCase::exact(first_and_last()), case]
}

/// A long jump from the first byte to the last.
fn first_and_last() -> CheckCase {
    let mut case = nops(MAX_IMAGE, ACROSS);
    let last = ACROSS + MAX_IMAGE as u32 - 1;
    let [low, middle, high, _] = last.to_le_bytes();
    case.image[..4].copy_from_slice(&[0x5C, low, middle, high]);
    case.marks[1..MAX_IMAGE - 1].fill(0);
    case
}

/// Every byte a start; the first and the last, which is a routine too; too long.
fn long_builds() -> [BuildCase; 3] {
    let mut last = vec![0; MAX_IMAGE];
    last[MAX_IMAGE - 1] = 1;
    [
        BuildCase::listing(nops(MAX_IMAGE, ACROSS), &[]),
        BuildCase::listing(first_and_last(), &last),
        BuildCase::listing(too_long(), &last),
    ]
}

/// Accepted; refused at the last byte, FFFFFF, and at the one before it; past
/// FFFFFF; too long.
fn long_explains() -> Vec<ExplainCase> {
    let mut before = nops(MAX_IMAGE, TOP);
    before.marks[MAX_IMAGE - 1] = 0x77;
    let cases = long_checks().into_iter().chain([before]);
    cases.map(ExplainCase::exact).collect()
}

/// Addresses all over two instructions and what lies between; too long.
fn long_locates() -> [LocateCase; 2] {
    [first_and_last(), too_long()].map(|checked| {
        let addresses = [0, 3, 4, 255, 256, 32_767, 32_768, 65_534, 65_535];
        let addresses = addresses.map(|at| checked.base + at);
        LocateCase::exact(checked, addresses.to_vec())
    })
}

/// Hand-made cases; cases aimed at each number in small images, more of those
/// that are built; each way not to fit; every carried code at every width; as
/// many routines as go and one more; lists by their digits, and programs around
/// the end of a bank.
fn build_records(rng: &mut Rng) -> Vec<Vec<u8>> {
    let mut cases: Vec<BuildCase> = hand_made().iter().map(HandMade::case).collect();
    for (number, more) in [(0, LEAST / 2), (14, 0), (1, 0), (2, 0), (17, 0)] {
        let aimed = std::iter::repeat_with(|| build_by(rng, number));
        cases.extend(aimed.filter(is_short).take(LEAST + more));
    }
    for way in 0..MISFITS {
        let broken = std::iter::repeat_with(|| misfit_by(rng, way));
        let refused = broken.filter(|case| case.answer().0 == 17);
        cases.extend(refused.filter(is_short).take(8));
    }
    cases.extend(codes_in_a_row(rng).into_iter().map(with_routines));
    for count in [255, 256, 256, 257, 257, 300] {
        cases.push(many_routines(rng, count));
    }
    cases.extend(too_many_and_more(rng));
    cases.extend(digit_routines());
    let jumps = bank_programs().into_iter().take(BANK_JUMPS);
    cases.extend(jumps.map(with_routines));
    cases.iter().map(build_record).collect()
}

fn is_short(case: &BuildCase) -> bool {
    case.image.len() < 60 && case.marks.len() < 400 && case.routines.len() < 200
}

/// A program with a list of the starts that its calls go to.
fn with_routines(program: CheckCase) -> BuildCase {
    let listed = called(&program);
    BuildCase::listing(program, &listed)
}

/// 257 routines and 300, which are too many, and something that is tested
/// before: a last line with N and a return width, with an address below the
/// others, without its 0A, with four digits; marks of another length; a base past
/// the last one.
fn too_many_and_more(rng: &mut Rng) -> Vec<BuildCase> {
    let mut cases = Vec::new();
    for count in [257, 300] {
        let case = many_routines(rng, count);
        let lines = [
            "FFFFFF\t0\t0\tN\t0\t1\n",
            "000000\t0\t0\tN\t0\t0\n",
            "FFFFFF\t0\t0\tN\t0\t0",
            "FFFF\t0\t0\tN\t0\t0\n",
        ];
        for line in lines {
            let mut case = case.clone();
            case.routines.truncate(17 * (count - 1));
            case.routines.extend_from_slice(line.as_bytes());
            cases.push(case);
        }
        let (mut shorter, mut above) = (case.clone(), case);
        shorter.marks.pop();
        above.base += 0x100_0000;
        cases.extend([shorter, above]);
    }
    cases
}

/// Hand-made cases, each carried code up to FFFFFF, each other one alone,
/// programs around the ends of banks, pages around their exact length, and as
/// many cases in small images aimed at each number as are lacking, but some in
/// any case.
fn explain_records(rng: &mut Rng) -> Vec<Vec<u8>> {
    let hand_made = explained().map(case_of).map(ExplainCase::exact);
    let mut cases: Vec<ExplainCase> = hand_made.collect();
    cases.extend(last_codes(rng));
    cases.extend(uncarried_codes());
    cases.extend(bank_explains());
    cases.extend(around_lines());
    for number in [0].into_iter().chain(EXPLAIN_NUMBERS) {
        let there = cases.iter().filter(|case| case.number() == number).count();
        let aimed = std::iter::repeat_with(|| explain_by(rng, number));
        let small = aimed.filter(|case| case.checked.image.len() < 60);
        cases.extend(small.take(LEAST.saturating_sub(there).max(LEAST / 4)));
    }
    cases.iter().map(explain_record).collect()
}

/// The shortest line and a longest one, with every length of page from none to
/// some bytes more.
fn around_lines() -> Vec<ExplainCase> {
    let lines = || explained().map(|row| (row.4.len(), row));
    let (shortest, longest) = (lines().min_by_key(|l| l.0), lines().max_by_key(|l| l.0));
    let mut cases = Vec::new();
    for (_, row) in shortest.into_iter().chain(longest) {
        let exact = ExplainCase::exact(case_of(row));
        for page_len in 0..=exact.page_len + 3 {
            let checked = exact.checked.clone();
            cases.push(ExplainCase { checked, page_len });
        }
    }
    cases
}
