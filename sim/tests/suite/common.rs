//! A bench for single steps and short runs.

use sim7700::state::{self, Registers, STATE_BYTES};

pub const C: u16 = 0x01;
pub const Z: u16 = 0x02;
pub const I: u16 = 0x04;
pub const D: u16 = 0x08;
pub const X: u16 = 0x10;
pub const M: u16 = 0x20;
pub const V: u16 = 0x40;
pub const N: u16 = 0x80;

/// All four pairs of m and x.
pub const WIDTHS: [u16; 4] = [0, X, M, M | X];

/// An image at 00C000 with PG and PC at its first byte, 512 bytes of RAM
/// and S = 01FF, until a test says otherwise.
#[derive(Clone, PartialEq, Debug)]
pub struct Bench {
    pub image: Vec<u8>,
    pub base: u32,
    pub ram: Vec<u8>,
    pub r: Registers,
    pub calls: Vec<(u32, u8)>,
}

/// End, steps and calls of a run.
pub type Answer = (u8, u32, u32);

impl Bench {
    pub fn new(image: &[u8]) -> Bench {
        Bench {
            image: image.to_vec(),
            base: 0xC000,
            ram: vec![0; 512],
            r: Registers {
                s: 0x1FF,
                pc: 0xC000,
                ..Registers::default()
            },
            calls: Vec::new(),
        }
    }

    /// The same with the image elsewhere and PG and PC at its first byte.
    pub fn at(base: u32, image: &[u8]) -> Bench {
        let mut bench = Bench::new(image);
        bench.base = base;
        bench.r.pc = base;
        bench
    }

    pub fn state(&self) -> Vec<u8> {
        let mut bytes = vec![0; STATE_BYTES];
        self.r.write(&mut bytes);
        state::set_depth(&mut bytes, self.calls.len());
        for (index, &(address, kind)) in self.calls.iter().enumerate() {
            state::set_call(&mut bytes, index, address, kind);
        }
        bytes
    }

    /// Runs and takes over what the run leaves; a refusal fails the test.
    pub fn run(&mut self, steps: u32) -> Answer {
        let mut bytes = self.state();
        let image = self.image.clone();
        let packed = sim7700::run(&image, self.base, &mut bytes, &mut self.ram, steps);
        assert_eq!(packed & 0xFF, 0, "refused");
        self.r = Registers::read(&bytes);
        self.calls = (0..state::depth(&bytes))
            .map(|index| state::open_call(&bytes, index))
            .collect();
        (
            (packed >> 8) as u8,
            (packed >> 16) as u32 & 0xFF_FFFF,
            (packed >> 40) as u32,
        )
    }

    /// One completed step.
    pub fn step(&mut self) {
        assert_eq!(self.run(1).0, 0, "stopped: {:X?}", self);
    }

    /// One step that must stop with this number and change nothing.
    pub fn stops(&self, number: u8) {
        let mut after = self.clone();
        assert_eq!(after.run(1), (number, 0, 0), "{:X?}", self);
        assert_eq!(&after, self, "a stop undoes its step");
    }
}

/// One step from `before`: the registers must become `after` but for PC,
/// which goes on by the instruction's length, and RAM must stay.
pub fn registers_after(code: &[u8], before: Registers, after: Registers) {
    let mut bench = Bench::new(code);
    bench.r = Registers {
        pc: 0xC000,
        s: if before.s == 0 { 0x1FF } else { before.s },
        ..before
    };
    let (ram, given) = (bench.ram.clone(), bench.r);
    bench.step();
    let wanted = Registers {
        pc: 0xC000 + code.len() as u32,
        s: if after.s == 0 { 0x1FF } else { after.s },
        ..after
    };
    assert_eq!(bench.r, wanted, "code {code:02X?} from {given:X?}");
    assert_eq!(bench.ram, ram, "code {code:02X?}");
}

/// Registers with this PS and nothing else.
pub fn with(ps: u16) -> Registers {
    Registers {
        ps,
        ..Registers::default()
    }
}

/// N and Z of a result at a width of 8 or 16 bits.
pub fn nz(byte: bool, result: u16) -> u16 {
    let (value, sign) = if byte {
        (result & 0xFF, 0x80)
    } else {
        (result, 0x8000)
    };
    (if value & sign != 0 { N } else { 0 }) | (if value == 0 { Z } else { 0 })
}
