//! Records to read: a header block, and a body whose words are such as a recorder writes.

use crate::reader::Shape;
use crate::samples::Code;
use crate::traces::{Set as TraceSet, TraceShape, TRACE_HEADER};

/// I of a base scan interval of 2 ms, in 1/16 ms.
const TWO_MS: u8 = 32;

/// In so many words one is all ones, which is off rule in every code, and one is drawn from all bits.
const ODD_WORDS: u64 = 1000;

pub const CODES: [Code; 6] =
    [Code::C0022, Code::C0042, Code::C0024, Code::C0044, Code::C0015, Code::C0048];

pub const TRACE_CODES: [Code; 6] =
    [Code::C0022, Code::C0042, Code::C0024, Code::C0044, Code::C8015, Code::C0048];

/// The file number's digits.
const FILE: [u8; 2] = [0, 7];

/// A channel set: its channels, and the exponent S/C.
type Set = (u32, u32);

/// The paper's example of a scan: 148 samples.
pub const NARROW: &[Set] = &[(4, 0), (96, 0), (12, 2)];

/// A later crew's: 1,004 samples.
pub const WIDE: &[Set] = &[(4, 0), (1000, 0)];

/// What a record is like.
#[derive(Clone, Copy, Debug)]
pub struct Plan {
    pub code: Code,
    pub sets: &'static [Set],
    /// a body of traces, one to a block, and not of scans
    pub traces: bool,
    /// blocks of about so many bytes, or 0: one block
    pub block_bytes: u32,
    /// the body is not much longer than that
    pub bytes: u32,
}

/// What the header says of the body, by its kind.
#[derive(Clone, Debug)]
pub enum Kind {
    Scans(Shape),
    Traces(TraceShape),
}

pub struct Record {
    pub kind: Kind,
    pub header: Vec<u8>,
    pub body: Vec<u8>,
    /// the places of the block ends, each the bytes before it
    pub ends: Vec<usize>,
}

/// A small run of pseudo-random numbers (xorshift).
pub struct Draws(u64);

impl Draws {
    pub fn new(seed: u64) -> Draws {
        Draws(seed.wrapping_mul(0x9E37_79B9_7F4A_7C15) | 1)
    }

    pub fn draw(&mut self) -> u64 {
        self.0 ^= self.0 << 13;
        self.0 ^= self.0 >> 7;
        self.0 ^= self.0 << 17;
        self.0.wrapping_mul(0x2545_F491_4F6C_DD1D) >> 16
    }

    pub fn below(&mut self, bound: u64) -> u64 {
        self.draw() % bound
    }
}

/// The format code of a multiplexed record, as bytes 3 and 4 of the header have it.
fn tape_code(code: Code) -> u16 {
    match code {
        Code::C0015 => 0x0015,
        Code::C0022 => 0x0022,
        Code::C0024 => 0x0024,
        Code::C0042 => 0x0042,
        Code::C0044 => 0x0044,
        Code::C0048 => 0x0048,
        Code::C8015 => 0x8015,
    }
}

/// A number's digits, two to a byte.
fn packed(number: u32, bytes: usize) -> Vec<u8> {
    let pair = |i: usize| number / 100_u32.pow((bytes - 1 - i) as u32) % 100;
    (0..bytes).map(|i| (pair(i) / 10 * 16 + pair(i) % 10) as u8).collect()
}

impl Plan {
    /// S/S
    pub fn samples(&self) -> u32 {
        self.sets.iter().map(|(channels, exponent)| channels << exponent).sum()
    }

    /// The format code as bytes 3 and 4 of the header have it.
    pub fn tape_code(&self) -> u16 {
        tape_code(self.code) | if self.traces { 0x8000 } else { 0 }
    }

    /// B, which is recorded as 0 where the body is one of traces
    pub fn scan(&self) -> u32 {
        if self.traces {
            return 0;
        }
        let per_group = if self.code == Code::C0015 { 4 } else { 1 };
        8 + self.samples() / per_group * self.code.group() as u32
    }

    /// S/B and S/BX.
    fn block(&self) -> (u32, u32) {
        let scans = if self.traces { 0 } else { self.block_bytes / self.scan() };
        let exponent = (0..16).find(|e| scans >> e <= 255).expect("a block that a header can tell");
        (scans >> exponent, exponent)
    }

    fn shape(&self) -> Shape {
        let (scans, exponent) = self.block();
        let block = scans << exponent;
        Shape { code: self.code, scan: self.scan(), interval: TWO_MS, types: 2, block }
    }

    /// A general header, and the descriptors of two scan types, both with the same sets.
    fn header(&self) -> Vec<u8> {
        let (scans, exponent) = self.block();
        let mut header = FILE.to_vec();
        header.extend(self.tape_code().to_be_bytes());
        header.extend([0, 0, 0, 0, 0, 0, 0x80, 0x00, 0x45, 0x09, 0x30, 0x00, 0, 0, 1]);
        header.extend(packed(self.scan(), 3));
        header.extend([TWO_MS, exponent as u8, scans as u8, 0x80, 0x05, 0x02]);
        header.extend(packed(self.sets.len() as u32, 1));
        header.extend([0; 3]);
        for scan_type in 1..=2 {
            for (n, (channels, exponent)) in self.sets.iter().enumerate() {
                let mut descriptor = vec![scan_type, n as u8 + 1, 0, 0, 0, 2, 0, 0];
                descriptor.extend(packed(*channels, 2));
                descriptor.extend([0x10, (exponent << 4) as u8]);
                descriptor.resize(32, 0);
                header.extend(descriptor);
            }
        }
        header
    }

    /// A body of whole scans, and of whole blocks where there are any; the second half is of scan type 2.
    fn body(&self, draws: &mut Draws) -> Vec<u8> {
        let shape = self.shape();
        let unit = shape.block.max(1);
        let scans = (self.bytes / shape.scan).div_ceil(unit) * unit;
        let mut body = Vec::with_capacity((scans * shape.scan) as usize);
        for scan in 0..scans {
            let twi = if scan == scans / 3 { 0x40 } else { 0 };
            let dp = if scan < scans / 2 { 0 } else { 0x10 };
            let t = (scan * 16 * u32::from(TWO_MS)) << 8;
            body.extend([0xFF, 0xFF, 0xFF, 0x01 | 0x20 | twi | dp]);
            body.extend(t.to_be_bytes());
            groups_of(draws, self.code, (shape.scan - 8) as usize / self.code.group(), &mut body);
        }
        body
    }

    fn trace_shape(&self) -> TraceShape {
        let (mut sets, mut first) = (Vec::new(), 0);
        for scan_type in 1..=2 {
            for (set, (channels, exponent)) in (1..).zip(self.sets) {
                let (channels, exponent) = (*channels, *exponent);
                sets.push(TraceSet { scan_type, set, channels, exponent, first });
                first += channels;
            }
        }
        TraceShape { code: self.code, file: FILE, types: 2, sets }
    }

    /// The traces of two scan types, the second of twice as many scans; four or a multiple of it, for the groups of 8015.
    fn trace_record(&self, seed: u64) -> Record {
        let (shape, mut draws) = (self.trace_shape(), Draws::new(seed));
        let group = self.code.group() as u32;
        let groups = self.bytes / group * self.code.samples_of_group() / (3 * self.samples());
        let scans = (groups / 4).max(1) * 4;
        let (mut body, mut ends) = (Vec::new(), Vec::new());
        for set in &shape.sets {
            let samples = (scans * set.scan_type) << set.exponent;
            for channel in 1..=set.channels {
                body.extend(FILE);
                body.extend([packed(set.scan_type, 1), packed(set.set, 1)].concat());
                body.extend(packed(channel, 2));
                body.extend([0; TRACE_HEADER - 6]);
                let count = samples / self.code.samples_of_group();
                groups_of(&mut draws, self.code, count as usize, &mut body);
                ends.push(body.len());
            }
        }
        Record { kind: Kind::Traces(shape), header: self.header(), body, ends }
    }

    pub fn record(&self, seed: u64) -> Record {
        if self.traces {
            return self.trace_record(seed);
        }
        let shape = self.shape();
        let body = self.body(&mut Draws::new(seed));
        let block = if shape.block == 0 { body.len() } else { (shape.block * shape.scan) as usize };
        let ends = (1..=body.len() / block).map(|n| n * block).collect();
        Record { kind: Kind::Scans(shape), header: self.header(), body, ends }
    }
}

/// The bits of a word that is in rule with these bits kept and those set: as drawn, but for two in so many.
fn bits(draws: &mut Draws, kept: u64, set: u64) -> u64 {
    match draws.below(ODD_WORDS) {
        0 => u64::MAX,
        1 => draws.draw(),
        _ => draws.draw() & kept | set,
    }
}

/// Groups of samples. Those of 0048 are between 1/16 and 16^3, left justified.
fn groups_of(draws: &mut Draws, code: Code, count: usize, body: &mut Vec<u8>) {
    for _ in 0..count {
        match code {
            Code::C0022 | Code::C0042 => body.push(bits(draws, 0xFE, 0) as u8),
            Code::C0024 | Code::C0044 => body.extend((bits(draws, 0xFFFE, 0) as u16).to_be_bytes()),
            Code::C0048 => {
                body.extend((bits(draws, 0x83FF_FFFE, 0x4010_0000) as u32).to_be_bytes())
            }
            Code::C0015 | Code::C8015 => {
                body.extend((draws.draw() as u16).to_be_bytes());
                for _ in 0..4 {
                    body.extend((bits(draws, 0xFFFC, 0) as u16).to_be_bytes());
                }
            }
        }
    }
}
