//! `m7700_read_list` and `m7700_write_list` beside the simulator's.

pub mod cases;
pub mod reader;
pub mod writer;

use crate::library::{m7700_read_list, m7700_write_list};
use crate::tally::Tally;
use reader::Reader;
use sim7700::generate::Rng;
use sim7700::numbers::MAX_IMAGE;
use writer::Writer;

/// Marks somewhat over 01's limit are lent too.
const MARKS_CAPACITY: usize = 100_000;
/// A list of the most starts, with room for lines too many.
const TEXT_CAPACITY: usize = 17 * MAX_IMAGE + 4_096;

/// Compares the library with the simulator: the sweeps, then `count` drawn
/// cases, for reader and writer in turn. The reader's tally, and the writer's.
pub fn trial(count: u64, seed: u64) -> [Tally; 2] {
    let mut rng = Rng::new(seed);
    let mut tallies = [Tally::new(&reader::NUMBERS), Tally::new(&writer::NUMBERS)];
    let mut reader = Reader::new(m7700_read_list);
    let mut writer = Writer::new(m7700_write_list);
    cases::read_sweeps(|case| tallies[0].note(reader.compare(case)));
    cases::write_sweeps(|case| tallies[1].note(writer.compare(case)));
    let [read, written] = [0, 1].map(|k: usize| tallies[k].cases());
    println!("lists: {read} read and {written} written in sweeps, {count} drawn, seed {seed}");
    for turn in 0..count {
        if turn % 2 == 0 {
            tallies[0].note(reader.compare(&cases::drawn_read(&mut rng)));
        } else {
            tallies[1].note(writer.compare(&cases::drawn_write(&mut rng)));
        }
    }
    tallies
}
