//! Lanes below one another, over numbered cycles.

use super::lanes::{Cells, Curve, Lane, Row, Scale, Shows, Style};
use super::svg::{room, Anchor, Canvas, LETTERS, TITLE, WIDTH};
use std::ops::Range;

/// The room on the left for names and labels.
const LEFT: f64 = 184.0;

/// The room on the right, for the number of a narrow last column.
const RIGHT: f64 = 14.0;

/// A column of few cycles is no wider than this.
const WIDEST: f64 = 84.0;

/// The height of a line of text.
const LINE: f64 = 12.5;

/// The height of a row of bars.
const ROW: f64 = 14.0;

/// The height of a lane of curves, and the room above and below them for numbers.
const CURVES: f64 = 84.0;
const MARGIN: f64 = 14.0;

/// The room above and below what a lane shows.
const PAD: f64 = 3.0;

/// The room for a sample in a legend.
const SAMPLE: f64 = 28.0;

const GREY: &str = "#ccc";
const BLACK: &str = "#000";

/// What stands above a picture.
pub struct Head {
    pub title: String,
    /// In plain words, a line each.
    pub lines: Vec<String>,
}

/// A picture of words alone.
pub fn words(head: &Head) -> String {
    let mut canvas = Canvas::default();
    let height = draw_head(&mut canvas, head);
    canvas.finish(height + PAD)
}

/// A picture of so many cycles from this one on.
pub fn picture(head: &Head, first: usize, cycles: usize, lanes: &[Lane]) -> String {
    let mut canvas = Canvas::default();
    let columns = Columns::new(first, cycles);
    let top = draw_head(&mut canvas, head) + LINE;
    let heights = lanes.iter().map(height);
    let bottom = top + PAD + heights.sum::<f64>();
    columns.draw(&mut canvas, top, bottom);
    let mut y = top + PAD;
    for lane in lanes {
        canvas.rule((0.0, y), (columns.end(), y), BLACK);
        draw_lane(&mut canvas, &columns, lane, y);
        y += height(lane);
    }
    canvas.rule((0.0, bottom), (columns.end(), bottom), BLACK);
    canvas.finish(bottom + LINE + PAD)
}

/// Title and words; the height they take.
fn draw_head(canvas: &mut Canvas, head: &Head) -> f64 {
    let mut y = TITLE + PAD;
    canvas.title(0.0, y, &head.title);
    for line in &head.lines {
        y += LINE;
        canvas.text(0.0, y, Anchor::Start, line);
    }
    y + 2.0 * PAD
}

/// The cycles as columns.
struct Columns {
    first: usize,
    cycles: usize,
    width: f64,
}

impl Columns {
    fn new(first: usize, cycles: usize) -> Columns {
        let width = (WIDTH - LEFT - RIGHT) / cycles.max(1) as f64;
        Columns {
            first,
            cycles,
            width: width.min(WIDEST),
        }
    }

    /// Where a column begins.
    fn x(&self, column: usize) -> f64 {
        LEFT + column as f64 * self.width
    }

    fn end(&self) -> f64 {
        self.x(self.cycles)
    }

    /// Every how many cycles there is room for a number.
    fn step(&self) -> usize {
        let wanted = room(&(self.first + self.cycles).to_string()) + 2.0;
        let steps = (0..9).flat_map(|power| [1, 2, 5].map(|digit| digit * 10_usize.pow(power)));
        let mut steps = steps.skip_while(|&step| step as f64 * self.width < wanted);
        steps.next().unwrap_or(usize::MAX)
    }

    /// The cycles' numbers above and below, and lines between the cycles.
    fn draw(&self, canvas: &mut Canvas, top: f64, bottom: f64) {
        let step = self.step();
        for y in [top, bottom + LINE - PAD] {
            canvas.text(0.0, y, Anchor::Start, "cycle");
            for column in 0..self.cycles {
                let cycle = self.first + column;
                if cycle.is_multiple_of(step) {
                    let middle = self.x(column) + self.width / 2.0;
                    canvas.text(middle, y, Anchor::Middle, &cycle.to_string());
                }
            }
        }
        for column in 0..=self.cycles {
            if self.width > 4.0 || (self.first + column).is_multiple_of(step) {
                let x = self.x(column);
                canvas.rule((x, top + PAD), (x, bottom), GREY);
            }
        }
    }
}

/// The height of a lane: that of what it shows, or of its name and legend.
fn height(lane: &Lane) -> f64 {
    let shown = match &lane.shows {
        Shows::Curves(..) => CURVES,
        Shows::Rows(rows) => rows.len() as f64 * ROW,
    };
    let named = (1 + lane.legend.len()) as f64 * LINE;
    shown.max(named) + 2.0 * PAD
}

fn draw_lane(canvas: &mut Canvas, columns: &Columns, lane: &Lane, top: f64) {
    canvas.name(0.0, top + PAD + LETTERS, &lane.name);
    for (line, (style, text)) in (1..).zip(&lane.legend) {
        let y = top + PAD + LETTERS + f64::from(line) * LINE;
        draw_key(canvas, y, *style);
        // The unit stands below the name; other words go with a sample, beside or above them.
        let x = if line == 1 && style.is_none() {
            0.0
        } else {
            SAMPLE
        };
        canvas.text(x, y, Anchor::Start, text);
    }
    match &lane.shows {
        Shows::Curves(curves, scale) => {
            let bottom = top + height(lane);
            Frame::new(curves, *scale, top + MARGIN + PAD, bottom - MARGIN - PAD)
                .draw(canvas, columns, curves)
        }
        Shows::Rows(rows) => {
            for (place, row) in rows.iter().enumerate() {
                draw_row(canvas, columns, row, top + PAD + place as f64 * ROW);
            }
        }
    }
}

/// The sample of a legend's line.
fn draw_key(canvas: &mut Canvas, y: f64, style: Option<Style>) {
    let (middle, width) = (y - 0.35 * LETTERS, SAMPLE - 5.0);
    match style {
        None => (),
        Some(style @ (Style::Filled | Style::Hollow)) => {
            canvas.bar(0.5, middle - 2.5, width, 5.0, style)
        }
        Some(style) => canvas.path(&format!("M0 {middle:.1}H{width}"), style),
    }
}

fn draw_row(canvas: &mut Canvas, columns: &Columns, row: &Row, top: f64) {
    let base = top + LETTERS;
    canvas.text(LEFT - 4.0, base, Anchor::End, &row.label);
    match &row.cells {
        Cells::Bars(stands) => draw_bars(canvas, columns, stands, top + 4.0, Style::Filled),
        Cells::Pairs(above, below) => {
            draw_bars(canvas, columns, above, top + 1.2, Style::Hollow);
            draw_bars(canvas, columns, below, top + 7.6, Style::Filled);
        }
        Cells::Numbers(numbers) => draw_numbers(canvas, columns, numbers, base),
    }
}

/// One bar over neighbouring cycles.
fn draw_bars(canvas: &mut Canvas, columns: &Columns, stands: &[bool], y: f64, style: Style) {
    for (start, length, stands) in runs(stands) {
        if stands {
            let width = length as f64 * columns.width;
            canvas.bar(columns.x(start), y, width, 5.0, style);
        }
    }
}

/// Numbers where they change and as far as there is room, over a line while one is there.
fn draw_numbers(canvas: &mut Canvas, columns: &Columns, numbers: &[Option<i64>], base: f64) {
    let mut taken = 0.0;
    for (start, length, number) in runs(numbers) {
        let Some(number) = number else { continue };
        let (x, width) = (columns.x(start), length as f64 * columns.width);
        canvas.path(
            &format!("M{x:.1} {:.1}H{:.1}", base + 2.0, x + width),
            Style::Guide,
        );
        let number = number.to_string();
        let middle = x + columns.width / 2.0;
        let half = room(&number) / 2.0;
        if middle - half > taken {
            canvas.text_over_lines(middle, base, Anchor::Middle, &number);
            taken = middle + half;
        }
    }
}

/// Neighbours that are alike: the first one's place, how many, and what they are.
fn runs<T: PartialEq + Copy>(all: &[T]) -> Vec<(usize, usize, T)> {
    let mut runs: Vec<(usize, usize, T)> = Vec::new();
    for (place, &one) in all.iter().enumerate() {
        match runs.last_mut() {
            Some((_, length, same)) if *same == one => *length += 1,
            _ => runs.push((place, 1, one)),
        }
    }
    runs
}

/// The scale of a lane of curves.
struct Frame {
    low: i64,
    high: i64,
    scale: Scale,
    top: f64,
    bottom: f64,
}

impl Frame {
    fn new(curves: &[Curve], scale: Scale, top: f64, bottom: f64) -> Frame {
        let values = || curves.iter().flat_map(|curve| &curve.values).flatten();
        let low = match scale {
            Scale::Whole => values().min().copied().unwrap_or(0),
            Scale::Hundredths => 0,
        };
        Frame {
            low,
            high: values().max().copied().unwrap_or(0),
            scale,
            top,
            bottom,
        }
    }

    fn y(&self, value: i64) -> f64 {
        let whole = (self.high - self.low).max(1) as f64;
        let part = (value - self.low) as f64 / whole;
        self.bottom - part * (self.bottom - self.top)
    }

    fn draw(&self, canvas: &mut Canvas, columns: &Columns, curves: &[Curve]) {
        self.tick(canvas, self.low);
        if self.high > self.low {
            self.tick(canvas, self.high);
        }
        for curve in curves {
            canvas.path(&self.staircase(columns, &curve.values), curve.style);
        }
        for (place, curve) in curves.iter().enumerate() {
            // A guide's numbers are in the legend.
            if curve.style == Style::Guide {
                continue;
            }
            let others = curves.iter().enumerate();
            let others: Vec<&Curve> = others
                .filter(|&(other, _)| other != place)
                .map(|(_, curve)| curve)
                .collect();
            self.labels(canvas, columns, curve, &others);
        }
    }

    /// A value at the left edge.
    fn tick(&self, canvas: &mut Canvas, value: i64) {
        let y = self.y(value);
        canvas.rule((LEFT - 3.0, y), (LEFT, y), BLACK);
        let base = y + 0.35 * LETTERS;
        canvas.text(LEFT - 5.0, base, Anchor::End, &self.number(value));
    }

    /// A level line in each cycle, joined upright to the next.
    fn staircase(&self, columns: &Columns, values: &[Option<i64>]) -> String {
        let mut path = String::new();
        let mut joined = false;
        for (start, length, value) in runs(values) {
            if let Some(value) = value {
                let (x, y) = (columns.x(start), self.y(value));
                path += &match joined {
                    true => format!("V{y:.1}"),
                    false => format!("M{x:.1} {y:.1}"),
                };
                path += &format!("H{:.1}", columns.x(start + length));
            }
            joined = value.is_some();
        }
        path
    }

    /// A curve's values, each where it begins and if its run is long enough: above the line,
    /// or below it where only there no other curve is in the way.
    fn labels(&self, canvas: &mut Canvas, columns: &Columns, curve: &Curve, others: &[&Curve]) {
        for (start, length, value) in runs(&curve.values) {
            let Some(value) = value else { continue };
            let label = self.number(value);
            let wanted = room(&label) + 4.0;
            if length as f64 * columns.width < wanted {
                continue;
            }
            let y = self.y(value);
            let end = start + (wanted / columns.width).ceil() as usize;
            let free = |base: f64| {
                let clear = |other: &&Curve| self.clear(&other.values, start..end, base);
                others.iter().all(clear)
            };
            let (above, below) = (y - 3.0, y + LETTERS);
            let base = if free(above) || !free(below) {
                above
            } else {
                below
            };
            canvas.text_over_lines(columns.x(start) + 3.0, base, Anchor::Start, &label);
        }
    }

    /// Whether a curve leaves letters on this base line alone in some columns.
    fn clear(&self, values: &[Option<i64>], columns: Range<usize>, base: f64) -> bool {
        let end = columns.end.min(values.len());
        let there = values.get(columns.start..end).unwrap_or_default();
        let heights = || there.iter().flatten().map(|&value| self.y(value));
        let highest = heights().fold(f64::INFINITY, f64::min);
        let lowest = heights().fold(f64::NEG_INFINITY, f64::max);
        lowest < base - 0.95 * LETTERS || highest > base + 0.5
    }

    /// A value as people read it.
    fn number(&self, value: i64) -> String {
        match self.scale {
            Scale::Whole => value.to_string(),
            Scale::Hundredths => {
                let text = format!("{}.{:02}", value / 100, value % 100);
                text.trim_end_matches('0').trim_end_matches('.').into()
            }
        }
    }
}
