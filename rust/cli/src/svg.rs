//! A picture's text.

use std::fmt::Write;

/// A string takes all that is written to it, so no write is asked about.
pub struct Svg(String);

impl Svg {
    pub fn new(width: f64, height: f64, looks: &str) -> Self {
        let (width, height) = (width.ceil(), height.ceil());
        let mut svg = format!(
            "<svg xmlns=\"http://www.w3.org/2000/svg\" width=\"{width}\" height=\"{height}\" viewBox=\"0 0 {width} {height}\">\n"
        );
        svg.push_str(looks);
        let _ = writeln!(
            svg,
            "<rect width=\"{width}\" height=\"{height}\" fill=\"#fff\"/>"
        );
        Svg(svg)
    }

    /// What follows counts from there.
    pub fn open_below(&mut self, y: f64) {
        let _ = writeln!(self.0, "<g transform=\"translate(0 {})\">", tenths(y));
    }

    pub fn path(&mut self, class: &str, path: &str) {
        let _ = writeln!(self.0, "<path class=\"{class}\" d=\"{path}\"/>");
    }

    pub fn rect(&mut self, corner: [f64; 2], side: f64, class: &str) {
        let [x, y] = corner.map(tenths);
        let _ = writeln!(
            self.0,
            "<rect x=\"{x}\" y=\"{y}\" width=\"{side}\" height=\"{side}\" class=\"box {class}\"/>"
        );
    }

    pub fn text(&mut self, x: f64, y: f64, class: &str, text: &str) {
        let (x, y, text) = (tenths(x), tenths(y), escaped(text));
        let _ = writeln!(
            self.0,
            "<text x=\"{x}\" y=\"{y}\" class=\"{class}\">{text}</text>"
        );
    }

    pub fn close(mut self) -> String {
        self.0.push_str("</g>\n</svg>\n");
        self.0
    }
}

/// As fine as a picture needs it, which keeps its text short.
pub fn tenths(number: f64) -> f64 {
    (number * 10.0).round() / 10.0
}

/// As XML has it, which takes neither of the last two.
fn escaped(text: &str) -> String {
    let mut escaped = String::new();
    for letter in text.chars() {
        match letter {
            '&' => escaped.push_str("&amp;"),
            '<' => escaped.push_str("&lt;"),
            '>' => escaped.push_str("&gt;"),
            '\u{fffe}' | '\u{ffff}' => escaped.push('\u{fffd}'),
            _ => escaped.push(letter),
        }
    }
    escaped
}

#[cfg(test)]
mod tests {
    use super::escaped;

    #[test]
    fn a_name_stays_text() {
        assert_eq!(escaped("<a>&b"), "&lt;a&gt;&amp;b");
    }
}
