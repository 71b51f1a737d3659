//! The traces themselves, drawn on a plane of their own in fractions of a pixel's ink.

/// A place on the plane, in pixels.
#[derive(Clone, Copy)]
pub struct Dot {
    pub x: f64,
    pub y: f64,
}

/// Half of a trace's line.
const HALF_WIDTH: f64 = 0.55;

/// Lines at which the filling of a lobe is measured in each row of pixels.
const SUBROWS: f64 = 8.0;

pub struct Ink {
    width: usize,
    height: usize,
    /// How much of each pixel lines cover, and filled lobes. Lines overlap; lobes add up.
    lines: Vec<f32>,
    lobes: Vec<f32>,
}

impl Ink {
    pub fn new(width: usize, height: usize) -> Ink {
        let empty = vec![0.0; width * height];
        Ink { width, height, lines: empty.clone(), lobes: empty }
    }

    pub fn at(&self, x: usize, y: usize) -> f32 {
        let place = y * self.width + x;
        self.lines[place].max(self.lobes[place].min(1.0))
    }

    /// A trace's step from one sample to the next, its positive side filled from `base` on.
    pub fn step(&mut self, base: f64, from: Dot, to: Dot) {
        self.line(from, to);
        self.lobe(base, from, to);
    }

    fn line(&mut self, from: Dot, to: Dot) {
        let near = HALF_WIDTH + 0.5;
        let (left, right) = (from.x.min(to.x) - near, from.x.max(to.x) + near);
        for y in pixels(from.y - near, to.y + near, self.height) {
            for x in pixels(left, right, self.width) {
                let middle = Dot { x: x as f64 + 0.5, y: y as f64 + 0.5 };
                let part = (near - distance(middle, from, to)).clamp(0.0, 1.0) as f32;
                let pixel = &mut self.lines[y * self.width + x];
                *pixel = pixel.max(part);
            }
        }
    }

    fn lobe(&mut self, base: f64, from: Dot, to: Dot) {
        let subrow = |y: f64| (y * SUBROWS - 0.5).ceil();
        let (first, end) = (subrow(from.y).max(0.0), subrow(to.y));
        for n in first as usize..end.max(first) as usize {
            let y = (n as f64 + 0.5) / SUBROWS;
            let edge = from.x + (to.x - from.x) * (y - from.y) / (to.y - from.y);
            let row = y as usize;
            if row < self.height {
                self.span(row, base, edge);
            }
        }
    }

    fn span(&mut self, row: usize, left: f64, right: f64) {
        for x in pixels(left, right, self.width) {
            let part = (right.min(x as f64 + 1.0) - left.max(x as f64)).max(0.0);
            self.lobes[row * self.width + x] += (part / SUBROWS) as f32;
        }
    }
}

/// The pixels between two places that lie on the plane.
fn pixels(from: f64, to: f64, end: usize) -> std::ops::Range<usize> {
    from.max(0.0) as usize..(to.max(0.0).ceil() as usize).min(end)
}

/// How far a place is from the straight between two others.
fn distance(place: Dot, from: Dot, to: Dot) -> f64 {
    let (dx, dy) = (to.x - from.x, to.y - from.y);
    let along = ((place.x - from.x) * dx + (place.y - from.y) * dy) / (dx * dx + dy * dy);
    let along = if along.is_nan() { 0.0 } else { along.clamp(0.0, 1.0) };
    (place.x - from.x - along * dx).hypot(place.y - from.y - along * dy)
}
