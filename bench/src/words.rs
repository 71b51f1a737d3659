//! Sample words: from the bits on the tape to M and X, and whether the word is off rule.

/// M, X, and whether the word is off rule.
pub type Word = (i32, i32, bool);

/// M of a fraction field under its sign bit, negatives complemented.
const fn complemented(negative: bool, q: i32, ones: i32) -> i32 {
    if negative {
        q - ones
    } else {
        q
    }
}

/// M of a fraction field and its sign bit.
const fn signed(negative: bool, q: i32) -> i32 {
    if negative {
        -q
    } else {
        q
    }
}

pub const fn word_0022(w: u8) -> Word {
    let (c, q) = ((w >> 4 & 7) as i32, (w & 0xF) as i32);
    (complemented(w >> 7 == 1, q, 0xF), 2 * c - 4, w & 0x8F == 0x8F)
}

pub const fn word_0042(w: u8) -> Word {
    let (c, q) = ((w >> 5 & 3) as i32, (w & 0x1F) as i32);
    (signed(w >> 7 == 1, q), 4 * c - 5, w == 0xFF)
}

pub const fn word_0024(w: u32) -> Word {
    let (c, q) = ((w >> 12 & 7) as i32, (w & 0xFFF) as i32);
    (complemented(w >> 15 == 1, q, 0xFFF), 2 * c - 12, w & 0x8FFF == 0x8FFF)
}

pub const fn word_0044(w: u32) -> Word {
    let (c, q) = ((w >> 13 & 3) as i32, (w & 0x1FFF) as i32);
    (signed(w >> 15 == 1, q), 4 * c - 13, w == 0xFFFF)
}

pub const fn word_0048(w: u32) -> Word {
    let (c, q) = ((w >> 24 & 0x7F) as i32, (w >> 1 & 0x7F_FFFF) as i32);
    let zero_but_signed = q == 0 && w >> 24 != 0;
    let not_justified = q != 0 && q >> 19 == 0;
    let off = (w & 1 == 1) | zero_but_signed | not_justified;
    (signed(w >> 31 == 1, q), 4 * (c - 64) - 23, off)
}

/// `c` is the exponent that stands apart.
pub const fn word_0015(c: u32, w: u32) -> Word {
    let q = (w >> 1 & 0x3FFF) as i32;
    let off = (w & 1 == 1) | (w & 0xFFFE == 0xFFFE);
    (complemented(w >> 15 == 1, q, 0x3FFF), c as i32 - 14, off)
}

/// The same of 8015, which has a bit of fraction more and none that is not used.
pub const fn word_8015(c: u32, w: u32) -> Word {
    let q = (w & 0x7FFF) as i32;
    (complemented(w >> 15 == 1, q, 0x7FFF), c as i32 - 15, w == 0xFFFF)
}

/// M and X of each one-byte word, as they go to the output.
pub type Table = [[i32; 2]; 256];

pub static TABLE_0022: Table = table(true);
pub static TABLE_0042: Table = table(false);

const fn table(complements: bool) -> Table {
    let mut table = [[0; 2]; 256];
    let mut w = 0;
    while w < 256 {
        let (m, x, _) = if complements { word_0022(w as u8) } else { word_0042(w as u8) };
        table[w] = [m, x];
        w += 1;
    }
    table
}
