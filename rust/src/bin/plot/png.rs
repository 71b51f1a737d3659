//! A picture as a PNG file: eight bits of red, green and blue, deflated with the fixed code and runs of one byte alone.

use crate::canvas::Canvas;

pub fn png(canvas: &Canvas) -> Vec<u8> {
    let mut head = Vec::new();
    head.extend((canvas.width as u32).to_be_bytes());
    head.extend((canvas.height as u32).to_be_bytes());
    head.extend([8, 2, 0, 0, 0]);
    let mut file = b"\x89PNG\r\n\x1a\n".to_vec();
    file.extend(chunk(b"IHDR", &head));
    file.extend(chunk(b"IDAT", &zlib(&filtered(canvas))));
    file.extend(chunk(b"IEND", &[]));
    file
}

/// Each row as its difference from the row above (filter 2), so that what goes on down the page is a run of zeros.
fn filtered(canvas: &Canvas) -> Vec<u8> {
    let mut above = vec![0; 3 * canvas.width];
    let mut bytes = Vec::with_capacity((3 * canvas.width + 1) * canvas.height);
    for row in canvas.pixels.chunks(canvas.width) {
        let row: Vec<u8> = row.iter().flatten().copied().collect();
        bytes.push(2);
        bytes.extend(row.iter().zip(&above).map(|(byte, up)| byte.wrapping_sub(*up)));
        above = row;
    }
    bytes
}

fn chunk(name: &[u8; 4], data: &[u8]) -> Vec<u8> {
    let named = [name, data].concat();
    [&(data.len() as u32).to_be_bytes(), &named[..], &crc32(&named).to_be_bytes()].concat()
}

fn crc32(bytes: &[u8]) -> u32 {
    let step = |crc: u32, _| if crc & 1 == 1 { crc >> 1 ^ 0xEDB8_8320 } else { crc >> 1 };
    !bytes.iter().fold(!0, |crc, byte| (0..8).fold(crc ^ u32::from(*byte), step))
}

fn adler32(bytes: &[u8]) -> u32 {
    let (a, b) = bytes.iter().fold((1, 0), |(a, b), byte| {
        let a = (a + u32::from(*byte)) % 65_521;
        (a, (b + a) % 65_521)
    });
    b << 16 | a
}

/// Bits packed from the lowest of each byte on.
#[derive(Default)]
struct Bits {
    bytes: Vec<u8>,
    held: u32,
    count: u32,
}

impl Bits {
    fn put(&mut self, value: u32, bits: u32) {
        self.held |= value << self.count;
        self.count += bits;
        while self.count >= 8 {
            self.bytes.push(self.held as u8);
            self.held >>= 8;
            self.count -= 8;
        }
    }

    /// A symbol in the fixed code, whose bits go the highest first.
    fn symbol(&mut self, symbol: u32) {
        let (code, bits) = match symbol {
            0..=143 => (0x30 + symbol, 8),
            144..=255 => (0x190 + symbol - 144, 9),
            256..=279 => (symbol - 256, 7),
            _ => (0xC0 + symbol - 280, 8),
        };
        self.put(code.reverse_bits() >> (32 - bits), bits);
    }

    /// The last byte again, 3 to 257 times: a copy from a distance of 1.
    fn again(&mut self, times: usize) {
        let more = times as u32 - 3;
        let extra = if more < 8 { 0 } else { more.ilog2() - 2 };
        self.symbol(257 + 4 * extra + (more >> extra));
        self.put(more & ((1 << extra) - 1), extra);
        self.put(0, 5);
    }
}

fn zlib(bytes: &[u8]) -> Vec<u8> {
    let mut bits = Bits { bytes: vec![0x78, 0x01], ..Bits::default() };
    bits.put(0b011, 3); // the last block, in the fixed code
    for run in bytes.chunk_by(|a, b| a == b) {
        bits.symbol(run[0].into());
        for part in run[1..].chunks(257) {
            match part.len() {
                1 | 2 => part.iter().for_each(|byte| bits.symbol((*byte).into())),
                times => bits.again(times),
            }
        }
    }
    bits.symbol(256);
    bits.put(0, 7); // what is held fills a last byte
    bits.bytes.extend(adler32(bytes).to_be_bytes());
    bits.bytes
}

#[cfg(test)]
mod tests {
    use super::*;

    #[test]
    fn sums_are_the_standards() {
        assert_eq!(crc32(b"IEND"), 0xAE42_6082);
        assert_eq!(crc32(b"123456789"), 0xCBF4_3926);
        assert_eq!(adler32(b"Wikipedia"), 0x11E6_0398);
    }

    /// A literal, a copy of ten and the end: 10010001, 0001000, 00000, 0000000.
    #[test]
    fn a_run_is_a_literal_and_a_copy() {
        let deflated = zlib(b"aaaaaaaaaaa");
        assert_eq!(deflated, b"\x78\x01\x4B\x44\x00\x00\x19\x0D\x04\x2C");
    }
}
