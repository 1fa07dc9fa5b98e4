//! Buffers that end where mapped memory ends.

use crate::hex;
use std::ffi::{c_int, c_long, c_void};
use std::{ptr, slice};

extern "C" {
    fn mmap(
        at: *mut c_void,
        len: usize,
        prot: c_int,
        flags: c_int,
        fd: c_int,
        from: c_long,
    ) -> *mut c_void;
    fn mprotect(at: *mut c_void, len: usize, prot: c_int) -> c_int;
    fn munmap(at: *mut c_void, len: usize) -> c_int;
}

// Linux on x86-64, which the archive is for.
const PAGE: usize = 4096;
const PROT_NONE: c_int = 0;
const PROT_READ_WRITE: c_int = 3;
const MAP_PRIVATE_ANONYMOUS: c_int = 0x22;

/// Bytes in front of the buffer that show a write there.
const FRONT: usize = 64;
const FRONT_BYTE: u8 = 0xA5;

/// Bytes of a buffer that are shown whole; of a longer one those that differ.
const SHOWN: usize = 64;
/// Differing bytes of a longer one that are shown.
const SHOWN_PLACES: usize = 16;

/// A buffer to lend: its last byte lies right before an unmapped page, so
/// that a read or write past its end faults. A write in front of it is found
/// by `difference`.
pub struct Guarded {
    map: *mut u8,
    /// Mapped bytes before the unmapped page.
    room: usize,
    length: usize,
}

impl Guarded {
    /// A buffer for at most `capacity` bytes, empty at first.
    pub fn new(capacity: usize) -> Guarded {
        let room = (capacity + FRONT).next_multiple_of(PAGE);
        // SAFETY: a fresh mapping is asked for at no certain place, and the
        // protected page is its last.
        let map = unsafe {
            let flags = MAP_PRIVATE_ANONYMOUS;
            let map = mmap(ptr::null_mut(), room + PAGE, PROT_READ_WRITE, flags, -1, 0);
            assert!(map as isize != -1, "mmap failed");
            let guarded = mprotect(map.add(room), PAGE, PROT_NONE);
            assert!(guarded == 0, "mprotect failed");
            map.cast::<u8>()
        };
        let mut buffer = Guarded {
            map,
            room,
            length: 0,
        };
        buffer.fill(&[]);
        buffer
    }

    /// Makes these the buffer's bytes; its length follows.
    pub fn fill(&mut self, bytes: &[u8]) {
        assert!(bytes.len() + FRONT <= self.room, "over the capacity");
        self.length = bytes.len();
        // SAFETY: front and buffer lie within the mapped room, and only
        // `self` refers to it here.
        let room = unsafe { slice::from_raw_parts_mut(self.map, self.room) };
        let (front, buffer) = room[self.room - self.length - FRONT..].split_at_mut(FRONT);
        front.fill(FRONT_BYTE);
        buffer.copy_from_slice(bytes);
    }

    pub fn pointer(&mut self) -> *mut u8 {
        self.map.wrapping_add(self.room - self.length)
    }

    pub fn length(&self) -> usize {
        self.length
    }

    /// What a call left otherwise than expected, in the buffer or in front of
    /// it; empty if nothing.
    pub fn difference(&self, name: &str, expected: &[u8]) -> String {
        let used = &self.room()[self.room - self.length - FRONT..];
        let (front, bytes) = used.split_at(FRONT);
        let mut difference = String::new();
        if bytes != expected {
            difference += &format!("{name} after the call: {}\n", shown(bytes, expected));
        }
        if front != [FRONT_BYTE; FRONT] {
            difference += &format!("written in front of the {name}: {}\n", hex(front));
        }
        difference
    }

    fn room(&self) -> &[u8] {
        // SAFETY: mapped for as long as `self` lives, and no call is under
        // way that has the pointer.
        unsafe { slice::from_raw_parts(self.map, self.room) }
    }
}

/// The bytes, or the places where a long buffer is not as expected.
fn shown(bytes: &[u8], expected: &[u8]) -> String {
    if bytes.len() <= SHOWN || bytes.len() != expected.len() {
        return hex(bytes);
    }
    let differs = |&at: &usize| bytes[at] != expected[at];
    let place = |at: usize| format!("{:02X} for {:02X} at {at}", bytes[at], expected[at]);
    let places = (0..bytes.len()).filter(differs).map(place);
    places.take(SHOWN_PLACES).collect::<Vec<_>>().join(", ")
}

impl Drop for Guarded {
    fn drop(&mut self) {
        // SAFETY: the mapping of `new`, referred to by nothing any more.
        unsafe { munmap(self.map.cast(), self.room + PAGE) };
    }
}
