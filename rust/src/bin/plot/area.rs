//! The area inside the frame: where times and traces lie in it, and the two ways to draw traces.

use crate::canvas::{Canvas, Colour};
use crate::ink::{Dot, Ink};
use crate::traces::{Point, Trace};

/// How far a wiggle may go to either side, in traces.
const FARTHEST: f64 = 1.6;

/// A trace, and what a millivolt of it is drawn as: 1 is as far as the next trace, or the full colour.
pub type Scaled<'a> = (&'a Trace, f64);

pub struct Area {
    pub left: usize,
    pub top: usize,
    pub width: usize,
    pub height: usize,
    pub columns: usize,
    /// The times at its top and bottom, in 1/4096 ms.
    pub from: i64,
    pub to: i64,
    /// A base scan's time: points of a trace that are two or more apart are not joined.
    pub scan: i64,
}

impl Area {
    /// How far down a time is, in pixels.
    pub fn down(&self, time: i64) -> f64 {
        (time - self.from) as f64 * self.height as f64 / (self.to - self.from) as f64
    }

    /// How far across the left edge of a column is, in pixels.
    pub fn across(&self, column: usize) -> f64 {
        column as f64 * self.width as f64 / self.columns as f64
    }

    /// What a trace goes on to from a point: the next one, or the same value held for a scan where that is too far away.
    fn after(&self, points: &[Point], n: usize) -> Point {
        let Point { time, value } = points[n];
        let near = |next: &Point| next.time - time < 2 * self.scan;
        let held = Point { time: time + self.scan, value };
        points.get(n + 1).copied().filter(near).unwrap_or(held)
    }

    /// Each trace as a line that swings about its column's middle, its positive side filled.
    pub fn wiggles<'a>(
        &self,
        canvas: &mut Canvas,
        traces: impl Iterator<Item = Scaled<'a>>,
        colour: Colour,
    ) {
        let mut ink = Ink::new(self.width, self.height);
        let spacing = self.across(1);
        for (column, (trace, scale)) in traces.enumerate() {
            let base = self.across(column) + spacing / 2.0;
            let dot = |point: Point| {
                let swing = (point.value * scale).clamp(-FARTHEST, FARTHEST);
                Dot { x: base + swing * spacing, y: self.down(point.time) }
            };
            for (n, point) in trace.points.iter().enumerate() {
                ink.step(base, dot(*point), dot(self.after(&trace.points, n)));
            }
        }
        for (x, y) in (0..self.height).flat_map(|y| (0..self.width).map(move |x| (x, y))) {
            canvas.blend(self.left + x, self.top + y, colour, ink.at(x, y));
        }
    }

    /// Each trace as a column whose colour is its value; where several samples share a pixel, the one that is farthest from zero.
    pub fn density<'a>(&self, canvas: &mut Canvas, traces: impl Iterator<Item = Scaled<'a>>) {
        let mut values = vec![None; self.width * self.height];
        for (column, (trace, scale)) in traces.enumerate() {
            let columns = pixels(self.across(column), self.across(column + 1), self.width);
            for (n, point) in trace.points.iter().enumerate() {
                let end = self.after(&trace.points, n).time;
                let value = (point.value * scale).clamp(-1.0, 1.0);
                for y in pixels(self.down(point.time), self.down(end), self.height) {
                    for x in columns.clone() {
                        let held: &mut Option<f64> = &mut values[y * self.width + x];
                        *held = held.filter(|held| held.abs() > value.abs()).or(Some(value));
                    }
                }
            }
        }
        for (place, value) in values.into_iter().enumerate() {
            let (x, y) = (self.left + place % self.width, self.top + place / self.width);
            value.inspect(|value| canvas.blend(x, y, shade(*value), 1.0));
        }
    }
}

/// From white, the most negative, to black.
fn shade(value: f64) -> Colour {
    [(127.5 - 127.5 * value) as u8; 3]
}

/// The pixels from one place to another, at least one.
fn pixels(from: f64, to: f64, end: usize) -> std::ops::Range<usize> {
    let first = from.max(0.0) as usize;
    first.min(end)..(to as usize).max(first + 1).min(end)
}
