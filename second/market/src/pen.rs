//! Draws the shapes of an SVG into a text: numbers are pixels, a class is a style of page.css.

use std::fmt::Write;

pub struct Pen<'a>(pub &'a mut String);

impl Pen<'_> {
    pub fn raw(&mut self, text: &str) {
        self.0.push_str(text);
        self.0.push('\n');
    }

    pub fn rect(&mut self, class: &str, x: f64, y: f64, width: f64, height: f64) {
        let place =
            format!("x=\"{x:.1}\" y=\"{y:.1}\" width=\"{width:.1}\" height=\"{height:.1}\"");
        let _ = writeln!(self.0, "<rect class=\"{class}\" {place}/>");
    }

    pub fn line(&mut self, class: &str, from: (f64, f64), to: (f64, f64)) {
        self.ended_line(class, from, to, "");
    }

    /// A line with more to say of its end.
    pub fn ended_line(&mut self, class: &str, from: (f64, f64), to: (f64, f64), end: &str) {
        let (x1, y1, x2, y2) = (from.0, from.1, to.0, to.1);
        let place = format!("x1=\"{x1:.1}\" y1=\"{y1:.1}\" x2=\"{x2:.1}\" y2=\"{y2:.1}\"");
        let _ = writeln!(self.0, "<line class=\"{class}\" {place}{end}/>");
    }

    pub fn disc(&mut self, class: &str, x: f64, y: f64, radius: f64) {
        let _ = writeln!(
            self.0,
            "<circle class=\"{class}\" cx=\"{x:.1}\" cy=\"{y:.1}\" r=\"{radius}\"/>"
        );
    }

    /// A path that begins here; its steps are in path language.
    pub fn path(&mut self, class: &str, x: f64, y: f64, steps: &str) {
        let _ = writeln!(
            self.0,
            "<path class=\"{class}\" d=\"M{x:.1} {y:.1} {steps}\"/>"
        );
    }

    pub fn words(&mut self, class: &str, x: f64, y: f64, words: &str) {
        let _ = writeln!(
            self.0,
            "<text class=\"{class}\" x=\"{x:.1}\" y=\"{y:.1}\">{}</text>",
            escaped(words)
        );
    }

    pub fn cross(&mut self, class: &str, x: f64, y: f64, size: f64) {
        let all = 2.0 * size;
        self.path(
            class,
            x - size,
            y - size,
            &format!("l{all:.1} {all:.1} m0 -{all:.1} l-{all:.1} {all:.1}"),
        );
    }

    /// A group that shows these words where it is pointed at.
    pub fn group(&mut self, class: &str, title: &str, inside: impl FnOnce(&mut Pen)) {
        let class = if class.is_empty() {
            String::new()
        } else {
            format!(" class=\"{class}\"")
        };
        let _ = write!(self.0, "<g{class}><title>{}</title>", escaped(title));
        inside(self);
        self.raw("</g>");
    }
}

pub fn escaped(text: &str) -> String {
    text.replace('&', "&amp;")
        .replace('<', "&lt;")
        .replace('>', "&gt;")
        .replace('"', "&quot;")
}

#[cfg(test)]
mod tests {
    use super::*;

    #[test]
    fn words_are_escaped() {
        let mut text = String::new();
        Pen(&mut text).words("small", 1.0, 2.0, "a < b & \"c\"");
        assert_eq!(
            text,
            "<text class=\"small\" x=\"1.0\" y=\"2.0\">a &lt; b &amp; &quot;c&quot;</text>\n"
        );
    }
}
