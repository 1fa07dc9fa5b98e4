//! Random bytes for buffers.

use sim7700::generate::Rng;

const BYTES: usize = 65_536;

/// Random bytes that are drawn once: buffers are cut out of them.
pub struct Noise {
    any: Vec<u8>,
    /// Mostly 0 and 1: pointers of two and three bytes that lead into RAM.
    low: Vec<u8>,
}

impl Noise {
    pub fn new(rng: &mut Rng) -> Noise {
        let any = (0..BYTES).map(|_| rng.byte()).collect();
        let low = (0..BYTES).map(|_| match rng.below(8) {
            0 => rng.byte(),
            few => few as u8 & 1,
        });
        let low = low.collect();
        Noise { any, low }
    }

    /// Bytes of any value.
    pub fn any(&self, rng: &mut Rng, length: usize) -> &[u8] {
        let from = rng.index(BYTES - length + 1);
        &self.any[from..from + length]
    }

    /// Bytes of any value, or half the time mostly small ones.
    pub fn mixed(&self, rng: &mut Rng, length: usize) -> &[u8] {
        let bytes = *rng.pick(&[&self.any, &self.low]);
        let from = rng.index(BYTES - length + 1);
        &bytes[from..from + length]
    }
}
