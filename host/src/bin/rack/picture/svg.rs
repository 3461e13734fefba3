//! The elements of an SVG picture, as text.

use std::fmt;

/// A length in tenths of a pixel.
#[derive(Clone, Copy, PartialEq, Eq, PartialOrd, Ord, Debug)]
pub struct Tenths(pub i64);

impl Tenths {
    pub fn whole(pixels: i64) -> Tenths {
        Tenths(pixels * 10)
    }

    pub fn plus(self, pixels: i64) -> Tenths {
        Tenths(self.0 + pixels * 10)
    }
}

impl fmt::Display for Tenths {
    fn fmt(&self, f: &mut fmt::Formatter) -> fmt::Result {
        let sign = if self.0 < 0 { "-" } else { "" };
        let (whole, tenth) = (self.0.abs() / 10, self.0.abs() % 10);
        match tenth {
            0 => write!(f, "{sign}{whole}"),
            _ => write!(f, "{sign}{whole}.{tenth}"),
        }
    }
}

/// Text between two tags, and in an attribute.
pub fn escaped(text: &str) -> String {
    text.replace('&', "&amp;").replace('<', "&lt;").replace('>', "&gt;").replace('"', "&quot;")
}

#[derive(Default)]
pub struct Svg {
    pub text: String,
}

impl Svg {
    pub fn line_of(&mut self, text: &str) {
        self.text += text;
        self.text.push('\n');
    }

    pub fn rect(&mut self, class: &str, x: Tenths, y: Tenths, width: Tenths, height: Tenths) {
        self.line_of(&format!(r#"<rect class="{class}" x="{x}" y="{y}" width="{width}" height="{height}"/>"#));
    }

    pub fn line(&mut self, class: &str, from: (Tenths, Tenths), to: (Tenths, Tenths)) {
        let ((x1, y1), (x2, y2)) = (from, to);
        self.line_of(&format!(r#"<line class="{class}" x1="{x1}" y1="{y1}" x2="{x2}" y2="{y2}"/>"#));
    }

    pub fn path(&mut self, class: &str, d: &str) {
        self.line_of(&format!(r#"<path class="{class}" d="{d}"/>"#));
    }

    pub fn text(&mut self, class: &str, x: Tenths, y: Tenths, text: &str) {
        self.line_of(&format!(r#"<text class="{class}" x="{x}" y="{y}">{}</text>"#, escaped(text)));
    }

    /// A diamond around a point, so far to each side.
    pub fn diamond(&mut self, class: &str, x: Tenths, y: Tenths, by: i64) {
        self.path(class, &format!("M{x} {}L{} {y}L{x} {}L{} {y}z", y.plus(-by), x.plus(by), y.plus(by), x.plus(-by)));
    }

    /// A triangle whose tip lies so far beside a point, to the right or, where that is below 0, to the left.
    pub fn arrow(&mut self, class: &str, x: Tenths, y: Tenths, by: i64) {
        let half = by.abs();
        self.path(class, &format!("M{} {y}L{x} {}L{x} {}z", x.plus(by), y.plus(-half), y.plus(half)));
    }

    pub fn within(&mut self, tag: &str, attributes: &str, inside: impl FnOnce(&mut Svg)) {
        self.line_of(&format!("<{tag}{attributes}>"));
        inside(self);
        self.line_of(&format!("</{tag}>"));
    }

    pub fn words(&mut self, tag: &str, attributes: &str, text: &str) {
        self.line_of(&format!("<{tag}{attributes}>{}</{tag}>", escaped(text)));
    }
}

#[cfg(test)]
mod tests {
    use super::*;

    #[test]
    fn tenths_are_decimal() {
        for (tenths, shown) in [(0, "0"), (10, "1"), (123, "12.3"), (-5, "-0.5"), (-20, "-2")] {
            assert_eq!(Tenths(tenths).to_string(), shown);
        }
    }

    #[test]
    fn text_is_escaped() {
        assert_eq!(escaped(r#"a<b> & "c""#), "a&lt;b&gt; &amp; &quot;c&quot;");
    }
}
