//! A picture of pixels: blended ink, straight lines and text.

pub type Colour = [u8; 3];

/// The public domain X11 font 9x15: a line for each character from the space on, fifteen rows of eight pixels in hex.
const FONT: &str = include_str!("font.hex");
const FIRST: usize = ' ' as usize;
pub const LETTER: usize = 9;
const LETTER_ROWS: usize = 15;

pub struct Canvas {
    pub width: usize,
    pub height: usize,
    pub pixels: Vec<Colour>,
}

impl Canvas {
    pub fn new(width: usize, height: usize, paper: Colour) -> Canvas {
        Canvas { width, height, pixels: vec![paper; width * height] }
    }

    /// Covers a part of a pixel, from 0 (nothing) to 1 (all of it).
    pub fn blend(&mut self, x: usize, y: usize, colour: Colour, part: f32) {
        if x < self.width && y < self.height {
            let pixel = &mut self.pixels[y * self.width + x];
            for (under, over) in pixel.iter_mut().zip(colour) {
                let (u, o) = (f32::from(*under), f32::from(over));
                *under = (u + (o - u) * part).round() as u8;
            }
        }
    }

    pub fn fill(&mut self, x: usize, y: usize, width: usize, height: usize, colour: Colour) {
        for (row, column) in (y..y + height).flat_map(|row| (x..x + width).map(move |c| (row, c))) {
            self.blend(column, row, colour, 1.0);
        }
    }

    /// A line across, two pixels high, in dashes.
    pub fn dashes(&mut self, x: usize, y: usize, width: usize, colour: Colour) {
        for dash in (0..width).step_by(14) {
            self.fill(x + dash, y, 8.min(width - dash), 2, colour);
        }
    }

    /// A line of text whose middle is at `y`.
    pub fn text(&mut self, x: usize, y: usize, colour: Colour, text: &str) {
        let top = y.saturating_sub(LETTER_ROWS / 2);
        for (n, letter) in text.chars().enumerate() {
            for (row, bits) in glyph(letter).into_iter().enumerate() {
                for column in (0..8).filter(|column| bits << column & 0x80 != 0) {
                    self.blend(x + n * LETTER + column, top + row, colour, 1.0);
                }
            }
        }
    }

    /// The same, ending at `x`.
    pub fn text_before(&mut self, x: usize, y: usize, colour: Colour, text: &str) {
        self.text(x.saturating_sub(width_of(text)), y, colour, text);
    }
}

pub fn width_of(text: &str) -> usize {
    text.chars().count() * LETTER
}

/// A character's rows; those of the question mark where the font has none.
fn glyph(letter: char) -> [u8; LETTER_ROWS] {
    let line = |letter| FONT.lines().nth((letter as usize).checked_sub(FIRST)?);
    let rows = line(letter).or_else(|| line('?')).expect("the font has a question mark");
    std::array::from_fn(|row| {
        u8::from_str_radix(&rows[2 * row..2 * row + 2], 16).expect("the font is in hex")
    })
}
