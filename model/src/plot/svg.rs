//! The few shapes of a picture as SVG, with plain attributes that any program reads.

use super::lanes::Style;
use std::fmt::Write;

/// The width: 170 mm, 4 units to a millimetre.
pub const WIDTH: f64 = 680.0;

/// The size of letters: 2.5 mm, which is 7 points.
pub const LETTERS: f64 = 10.0;

/// The size of a title's letters.
pub const TITLE: f64 = 12.0;

/// The room that a number or a short label takes at most, in a wide typeface.
pub fn room(text: &str) -> f64 {
    text.chars().count() as f64 * 0.64 * LETTERS
}

/// How many letters of running text a line has room for.
pub const LINE_OF_TEXT: usize = 113;

/// A picture in the making.
#[derive(Default)]
pub struct Canvas {
    shapes: String,
}

/// Where a text stands by its place.
#[derive(Clone, Copy)]
pub enum Anchor {
    Start,
    Middle,
    End,
}

impl Canvas {
    /// A text on its base line.
    pub fn text(&mut self, x: f64, y: f64, anchor: Anchor, text: &str) {
        self.letters(x, y, anchor, "", text);
    }

    /// A text over lines: they stand back around it.
    pub fn text_over_lines(&mut self, x: f64, y: f64, anchor: Anchor, text: &str) {
        let around = " stroke=\"#fff\" stroke-width=\"3\" stroke-linejoin=\"round\"";
        self.letters(x, y, anchor, around, text);
        self.text(x, y, anchor, text);
    }

    /// The name of a lane.
    pub fn name(&mut self, x: f64, y: f64, text: &str) {
        self.letters(x, y, Anchor::Start, " font-weight=\"bold\"", text);
    }

    /// The name of the picture.
    pub fn title(&mut self, x: f64, y: f64, text: &str) {
        let large = format!(" font-weight=\"bold\" font-size=\"{TITLE}\"");
        self.letters(x, y, Anchor::Start, &large, text);
    }

    fn letters(&mut self, x: f64, y: f64, anchor: Anchor, more: &str, text: &str) {
        let anchor = match anchor {
            Anchor::Start => "",
            Anchor::Middle => " text-anchor=\"middle\"",
            Anchor::End => " text-anchor=\"end\"",
        };
        let text = escaped(text);
        self.shape(format_args!(
            "<text x=\"{x:.1}\" y=\"{y:.1}\"{anchor}{more}>{text}</text>"
        ));
    }

    /// A thin line that parts things.
    pub fn rule(&mut self, from: (f64, f64), to: (f64, f64), grey: &str) {
        let ((x1, y1), (x2, y2)) = (from, to);
        self.shape(format_args!(
            "<path d=\"M{x1:.1} {y1:.1}L{x2:.1} {y2:.1}\" stroke=\"{grey}\" stroke-width=\"0.5\"/>"
        ));
    }

    /// A line by its path.
    pub fn path(&mut self, path: &str, style: Style) {
        let stroke = stroke(style);
        self.shape(format_args!("<path d=\"{path}\" fill=\"none\" {stroke}/>"));
    }

    /// A bar from x on.
    pub fn bar(&mut self, x: f64, y: f64, width: f64, height: f64, style: Style) {
        let fill = match style {
            Style::Hollow => "#fff",
            _ => "#000",
        };
        self.shape(format_args!(
            "<rect x=\"{x:.1}\" y=\"{y:.1}\" width=\"{width:.1}\" height=\"{height:.1}\" \
             fill=\"{fill}\" stroke=\"#000\" stroke-width=\"0.8\"/>"
        ));
    }

    fn shape(&mut self, shape: std::fmt::Arguments) {
        // Writing to a string does not fail.
        let _ = writeln!(self.shapes, "{shape}");
    }

    /// The whole picture, of this height.
    pub fn finish(self, height: f64) -> String {
        let millimetres = height / 4.0;
        format!(
            "<svg xmlns=\"http://www.w3.org/2000/svg\" width=\"170mm\" height=\"{millimetres:.1}mm\" \
             viewBox=\"0 0 {WIDTH} {height:.1}\" font-family=\"Helvetica, Arial, sans-serif\" \
             font-size=\"{LETTERS}\">\n<rect width=\"{WIDTH}\" height=\"{height:.1}\" fill=\"#fff\"/>\n{}</svg>\n",
            self.shapes
        )
    }
}

/// How the line of a style is drawn.
fn stroke(style: Style) -> &'static str {
    match style {
        Style::Broad => "stroke=\"#999\" stroke-width=\"3.2\"",
        Style::Dashed => "stroke=\"#000\" stroke-width=\"1.4\" stroke-dasharray=\"5 3\"",
        Style::Guide => "stroke=\"#000\" stroke-width=\"0.8\" stroke-dasharray=\"1.5 2\"",
        Style::Plain | Style::Filled | Style::Hollow => "stroke=\"#000\" stroke-width=\"1.6\"",
    }
}

/// A text as XML may hold it.
fn escaped(text: &str) -> String {
    let mut escaped = String::new();
    for letter in text.chars() {
        match letter {
            '&' => escaped.push_str("&amp;"),
            '<' => escaped.push_str("&lt;"),
            '>' => escaped.push_str("&gt;"),
            '"' => escaped.push_str("&quot;"),
            '\t' => escaped.push(' '),
            // XML has no place for these at all.
            '\u{fffe}' | '\u{ffff}' => escaped.push('\u{fffd}'),
            _ if letter.is_control() => escaped.push('\u{fffd}'),
            _ => escaped.push(letter),
        }
    }
    escaped
}
