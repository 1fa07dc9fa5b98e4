//! What the programs `check` and `print` say of two files.

use crate::marks::is_start;
use crate::numbers::MAX_IMAGE;
use crate::{print, read_list, verdict, ROW_BYTES};
use std::io::Read;
use std::path::Path;

/// A list file's limit in bytes.
pub const MAX_LIST: usize = 61_440;

/// A refusal: its number and the offset that goes with it.
type Refusal = (u8, usize);

/// What a list says of an image.
struct Listed {
    marks: Vec<u8>,
    base: u32,
    reset: u32,
}

impl Listed {
    /// The list of an image with so many bytes.
    fn read(list: &[u8], image_len: usize) -> Result<Listed, Refusal> {
        let mut marks = vec![0; image_len];
        let read = read_list(list, &mut marks);
        match read as u8 {
            0 => Ok(Listed {
                marks,
                base: (read >> 8) as u32 & 0xFF_FFFF,
                reset: (read >> 32) as u32,
            }),
            number => Err((number, 0)),
        }
    }

    fn starts(&self) -> usize {
        self.marks.iter().filter(|&&m| is_start(m)).count()
    }
}

fn refused((number, offset): Refusal) -> String {
    format!("R\t{number}\t{offset}\n")
}

/// The line of `check` for an image and a list within their limits, with its
/// 0A.
pub fn answer(image: &[u8], list: &[u8]) -> String {
    let accepted = Listed::read(list, image.len()).and_then(|listed| {
        verdict(image, &listed.marks, listed.base, listed.reset)?;
        Ok(format!("A\t{}\n", listed.starts()))
    });
    accepted.unwrap_or_else(refused)
}

/// The page for an image and a list within their limits, or the line of
/// `check` that refuses them.
pub fn page(image: &[u8], list: &[u8]) -> String {
    let printed = Listed::read(list, image.len()).and_then(|listed| {
        let mut page = vec![0; ROW_BYTES * listed.starts()];
        let answer = print(image, &listed.marks, listed.base, listed.reset, &mut page);
        match answer as u8 {
            0 => Ok(page.into_iter().map(char::from).collect()),
            number => Err((number, (answer >> 8) as usize)),
        }
    });
    printed.unwrap_or_else(refused)
}

/// A file's bytes, unless it can't be read or is longer than the limit.
fn within(path: &Path, limit: usize) -> Option<Vec<u8>> {
    let mut bytes = Vec::new();
    let file = std::fs::File::open(path).ok()?;
    // One byte more than the limit shows that a file is too long.
    file.take(limit as u64 + 1).read_to_end(&mut bytes).ok()?;
    (bytes.len() <= limit).then_some(bytes)
}

/// What a program says of two files: L alone where one can't be taken.
pub fn for_files(image: &Path, list: &Path, says: fn(&[u8], &[u8]) -> String) -> String {
    match (within(image, MAX_IMAGE), within(list, MAX_LIST)) {
        (Some(image), Some(list)) => says(&image, &list),
        _ => "L\n".to_string(),
    }
}
