//! The chart around the traces: frame, axes, marks and title.

use crate::area::Area;
use crate::canvas::{width_of, Canvas, Colour, LETTER};
use crate::options::{Options, Style};
use crate::traces::{Trace, Traces, MS};
use segd::reel::Reading;

const PAPER: Colour = [255, 255, 255];
const INK: Colour = [20, 24, 36];
const FAINT: Colour = [105, 111, 123];
const GRID: Colour = [224, 228, 234];
const ALARM: Colour = [208, 30, 30];
const SWITCH: Colour = [24, 92, 190];

const LEFT: usize = 90;
const RIGHT: usize = 150;
const TOP: usize = 116;
const BOTTOM: usize = 48;
const HEIGHT: usize = 1320;
/// The area's width; more where a channel would have less than a pixel.
const WIDTH: usize = 1080;
const WIDEST: usize = 4000;

/// More traces than this are drawn by density, unless asked otherwise.
const MOST_WIGGLES: usize = 60;
/// What a trace's level is drawn as at a gain of 1.
const FULL: f64 = 0.8;

pub struct Chart<'a> {
    traces: &'a Traces,
    style: Style,
    /// What a millivolt is drawn as, for each trace.
    scales: Vec<f64>,
    area: Area,
    /// The first line, in two parts; the second; and the last, below the area.
    title: [(String, Colour); 2],
    about: String,
    note: String,
}

impl Chart<'_> {
    /// The chart of some traces that have a sample, all of them in the times asked for.
    pub fn new<'a>(options: &Options, reading: &Reading, traces: &'a Traces) -> Chart<'a> {
        let columns = traces.all.len();
        let usual = if columns > MOST_WIGGLES { Style::Density } else { Style::Wiggle };
        let style = options.style.unwrap_or(usual);
        let Traces { from, to, scan, .. } = *traces;
        let (left, top, width, height) = (LEFT, TOP, columns.clamp(WIDTH, WIDEST), HEIGHT);
        let area = Area { left, top, width, height, columns, from, to, scan };
        let drawn = match style {
            Style::Wiggle => "wiggles",
            Style::Density => "density, black positive",
        };
        let level = if options.global { "one gain for all" } else { "a gain for each trace" };
        Chart {
            traces,
            style,
            scales: scales(traces, options),
            area,
            title: title(options, reading, traces.scans),
            about: format!("{}, {drawn}, {level}", about(reading, traces)),
            note: note(traces),
        }
    }

    pub fn drawn(&self) -> Canvas {
        let area = &self.area;
        let (width, height) = (LEFT + area.width + RIGHT, TOP + HEIGHT + BOTTOM);
        let mut canvas = Canvas::new(width, height, PAPER);
        self.times(&mut canvas);
        let traces = || self.traces.all.iter().zip(self.scales.iter().copied());
        match self.style {
            Style::Wiggle => area.wiggles(&mut canvas, traces(), INK),
            Style::Density => area.density(&mut canvas, traces()),
        }
        self.frame(&mut canvas);
        self.channels(&mut canvas);
        self.marks(&mut canvas);
        self.texts(&mut canvas);
        canvas
    }

    /// The time axis, in ms from the first timing word on.
    fn times(&self, canvas: &mut Canvas) {
        let (from, to) = (self.area.from as f64 / MS, self.area.to as f64 / MS);
        let step = round_step((to - from) / 20.0);
        let first = (from / step).ceil() as i64;
        for n in first..=(to / step).floor() as i64 {
            let time = n as f64 * step;
            let y = TOP + self.area.down((time * MS) as i64) as usize;
            canvas.fill(LEFT - 6, y, self.area.width + 6, 1, GRID);
            let unit = if n == first { " ms" } else { "" };
            let label = (time * 1e4).round() / 1e4;
            canvas.text_before(LEFT - 10, y, INK, &format!("{label}{unit}"));
        }
    }

    fn frame(&self, canvas: &mut Canvas) {
        for x in [LEFT - 1, LEFT + self.area.width] {
            canvas.fill(x, TOP - 1, 1, HEIGHT + 2, INK);
        }
        for y in [TOP - 1, TOP + HEIGHT] {
            canvas.fill(LEFT - 1, y, self.area.width + 2, 1, INK);
        }
    }

    /// The channel axis: the set where another begins, and as many channel numbers as there is room for.
    fn channels(&self, canvas: &mut Canvas) {
        let (sets, channels) = (TOP - 36, TOP - 16);
        canvas.text_before(LEFT - 10, sets, FAINT, "set");
        canvas.text_before(LEFT - 10, channels, FAINT, "channel");
        let greatest = self.traces.all.iter().map(|trace| trace.channel).max().unwrap_or(0);
        let room = (width_of(&greatest.to_string()) + LETTER) as f64 / self.area.across(1);
        let step = round_step(room.max(1.0)) as u32;
        let (mut last_set, mut free) = (0, 0);
        for (column, Trace { set, channel, .. }) in self.traces.all.iter().enumerate() {
            let edge = LEFT + self.area.across(column) as usize;
            let middle = LEFT + (self.area.across(column) + self.area.across(1) / 2.0) as usize;
            if *set != last_set {
                canvas.fill(edge, sets - 8, 1, 16, FAINT);
                canvas.text(edge + 4, sets, FAINT, &set.to_string());
            }
            let label = channel.to_string();
            let left = middle.saturating_sub(width_of(&label) / 2);
            if left >= free && (*set != last_set || channel % step == 0) {
                canvas.text(left, channels, INK, &label);
                canvas.fill(middle, TOP - 6, 1, 5, INK);
                free = left + width_of(&label) + LETTER / 2;
            }
            last_set = *set;
        }
    }

    /// Where the timing word starts again, and where another scan type begins.
    fn marks(&self, canvas: &mut Canvas) {
        for &time in &self.traces.course.restarts {
            let says = ["timing word", "0 again, at", &format!("{} ms", time as f64 / MS)];
            self.mark(canvas, time, ALARM, &says);
        }
        for (time, scan_type) in &self.traces.course.switches {
            self.mark(canvas, *time, SWITCH, &[&format!("scan type {scan_type}")]);
        }
    }

    fn mark(&self, canvas: &mut Canvas, time: i64, colour: Colour, says: &[&str]) {
        if (self.area.from..self.area.to).contains(&time) {
            let y = TOP + self.area.down(time) as usize;
            canvas.dashes(LEFT, y, self.area.width + 8, colour);
            for (n, line) in says.iter().enumerate() {
                canvas.text(LEFT + self.area.width + 14, y + 17 * n, colour, line);
            }
        }
    }

    fn texts(&self, canvas: &mut Canvas) {
        let mut x = LEFT;
        for (text, colour) in &self.title {
            canvas.text(x, 20, *colour, text);
            x += width_of(text) + LETTER;
        }
        canvas.text(LEFT, 42, FAINT, &self.about);
        canvas.text(LEFT, TOP + HEIGHT + 24, FAINT, &self.note);
    }
}

/// The record as the lister has it; of one that is refused what was read, and then the refusal.
fn title(options: &Options, reading: &Reading, scans: usize) -> [(String, Colour); 2] {
    let name = options.image.rsplit('/').next().unwrap_or_default();
    let header = &reading.header;
    let read = format!(
        "{name}, record {}: file {:04} format {:04X} scans {scans} samples {}",
        options.record,
        header.file,
        header.code,
        reading.samples.len()
    );
    let ending = match &reading.closing {
        Ok(report) => (format!("off {}", report.off), INK),
        Err((refusal, place)) => (format!("refused {} at {place}", refusal.number()), ALARM),
    };
    [(read, INK), ending]
}

fn about(reading: &Reading, traces: &Traces) -> String {
    let header = &reading.header;
    format!(
        "year {:02} day {:03} {:02}:{:02}:{:02}, channels {}, base scan {} ms, {:.1} to {:.1} ms",
        header.year,
        header.day,
        header.hour,
        header.minute,
        header.second,
        traces.all.len(),
        f64::from(header.interval) / 16.0,
        traces.from as f64 / MS,
        traces.to as f64 / MS
    )
}

/// How times were found.
fn note(traces: &Traces) -> String {
    let skew = if traces.skew_recorded {
        "each sample at its recorded skew"
    } else {
        "no skew recorded: each sample at its scan's T, subscans spread evenly over the scan"
    };
    format!("Time from the first scan's T, {} ms, on; {skew}.", traces.course.first as f64 / 256.0)
}

/// What a millivolt is drawn as, so that the level of each trace, or the greatest level of all, is drawn at its full.
fn scales(traces: &Traces, options: &Options) -> Vec<f64> {
    let levels = || traces.all.iter().map(|trace| trace.level);
    let greatest = levels().fold(0.0, f64::max);
    let scale = |level: f64| if level > 0.0 { FULL * options.gain / level } else { 0.0 };
    levels().map(|level| scale(if options.global { greatest } else { level })).collect()
}

/// The least of 1, 2 or 5 times a power of ten that is not below this.
fn round_step(least: f64) -> f64 {
    let power = 10f64.powf(least.log10().floor());
    [1.0, 2.0, 5.0, 10.0]
        .map(|n| n * power)
        .into_iter()
        .find(|step| *step >= least)
        .unwrap_or(least)
}
