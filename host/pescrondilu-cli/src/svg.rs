//! As much SVG as the plot needs.

use std::fmt::Write;

pub struct Canvas {
    text: String,
}

/// How a word looks.
#[derive(Clone, Copy)]
pub struct Style {
    colour: &'static str,
    size: f64,
    weight: &'static str,
    anchor: &'static str,
}

impl Style {
    pub fn new(colour: &'static str) -> Style {
        Style {
            colour,
            size: 14.0,
            weight: "normal",
            anchor: "start",
        }
    }

    pub fn size(self, size: f64) -> Style {
        Style { size, ..self }
    }

    pub fn bold(self) -> Style {
        Style {
            weight: "600",
            ..self
        }
    }

    pub fn middle(self) -> Style {
        Style {
            anchor: "middle",
            ..self
        }
    }

    pub fn end(self) -> Style {
        Style {
            anchor: "end",
            ..self
        }
    }
}

const FONTS: &str = "Inter, 'Segoe UI', Helvetica, Arial, 'DejaVu Sans', sans-serif";

impl Canvas {
    pub fn new(width: f64, height: f64) -> Canvas {
        let text = format!(
            "<svg xmlns=\"http://www.w3.org/2000/svg\" viewBox=\"0 0 {width} {height}\" \
             width=\"{width}\" height=\"{height}\" font-family=\"{FONTS}\">\n\
             <rect width=\"{width}\" height=\"{height}\" rx=\"8\" fill=\"#ffffff\"/>\n"
        );
        Canvas { text }
    }

    pub fn finish(mut self) -> String {
        self.text.push_str("</svg>\n");
        self.text
    }

    /// Writing to a `String` cannot fail.
    fn put(&mut self, element: std::fmt::Arguments) {
        let _ = self.text.write_fmt(element);
        self.text.push('\n');
    }

    pub fn rect(&mut self, x: f64, y: f64, w: f64, h: f64, colour: &str, opacity: f64) {
        self.put(format_args!(
            "<rect x=\"{x:.1}\" y=\"{y:.1}\" width=\"{w:.1}\" height=\"{h:.1}\" \
             fill=\"{colour}\" fill-opacity=\"{opacity}\"/>"
        ));
    }

    pub fn frame(&mut self, x: f64, y: f64, w: f64, h: f64, colour: &str) {
        self.put(format_args!(
            "<rect x=\"{x:.1}\" y=\"{y:.1}\" width=\"{w:.1}\" height=\"{h:.1}\" \
             fill=\"none\" stroke=\"{colour}\"/>"
        ));
    }

    pub fn line(&mut self, x1: f64, y1: f64, x2: f64, y2: f64, colour: &str) {
        self.put(format_args!(
            "<line x1=\"{x1:.1}\" y1=\"{y1:.1}\" x2=\"{x2:.1}\" y2=\"{y2:.1}\" \
             stroke=\"{colour}\"/>"
        ));
    }

    pub fn dashed(&mut self, x1: f64, y1: f64, x2: f64, y2: f64, colour: &str) {
        self.put(format_args!(
            "<line x1=\"{x1:.1}\" y1=\"{y1:.1}\" x2=\"{x2:.1}\" y2=\"{y2:.1}\" \
             stroke=\"{colour}\" stroke-width=\"1.6\" stroke-dasharray=\"7 5\"/>"
        ));
    }

    /// A closed band.
    pub fn band(&mut self, points: &[(f64, f64)], colour: &str) {
        let mut path = String::new();
        for (i, (x, y)) in points.iter().enumerate() {
            let step = if i == 0 { 'M' } else { 'L' };
            let _ = write!(path, "{step}{x:.1} {y:.1}");
        }
        self.put(format_args!(
            "<path d=\"{path}Z\" fill=\"{colour}\" fill-opacity=\"0.45\" stroke=\"{colour}\" \
             stroke-width=\"1.6\" stroke-linejoin=\"round\"/>"
        ));
    }

    pub fn text(&mut self, x: f64, y: f64, words: &str, style: Style) {
        self.words(format_args!("x=\"{x:.1}\" y=\"{y:.1}\""), words, style);
    }

    /// Read from below upwards.
    pub fn text_up(&mut self, x: f64, y: f64, words: &str, style: Style) {
        let turned = format_args!("transform=\"translate({x:.1} {y:.1}) rotate(-90)\"");
        self.words(turned, words, style);
    }

    fn words(&mut self, place: std::fmt::Arguments, words: &str, style: Style) {
        let Style {
            colour,
            size,
            weight,
            anchor,
        } = style;
        let words = escaped(words);
        self.put(format_args!(
            "<text {place} font-size=\"{size}\" font-weight=\"{weight}\" \
             text-anchor=\"{anchor}\" fill=\"{colour}\">{words}</text>"
        ));
    }
}

/// A file's name may hold anything; XML takes no control characters.
fn escaped(words: &str) -> String {
    let mut safe = String::with_capacity(words.len());
    for c in words.chars() {
        match c {
            '&' => safe.push_str("&amp;"),
            '<' => safe.push_str("&lt;"),
            '>' => safe.push_str("&gt;"),
            '"' => safe.push_str("&quot;"),
            c if c.is_control() || matches!(c, '\u{FFFE}' | '\u{FFFF}') => safe.push('\u{FFFD}'),
            c => safe.push(c),
        }
    }
    safe
}

#[cfg(test)]
pub mod tests {
    use super::*;

    /// Each tag is closed in its order, attributes are quoted, no stray `<` or `&` stands in text.
    pub fn well_formed(text: &str) {
        let mut open: Vec<&str> = Vec::new();
        let mut rest = text;
        while let Some(at) = rest.find('<') {
            check_words(&rest[..at]);
            let end = rest[at..].find('>').expect("a tag ends") + at;
            let tag = &rest[at + 1..end];
            assert!(!tag.contains('<'), "{tag}");
            assert_eq!(tag.matches('"').count() % 2, 0, "{tag}");
            let name = tag
                .split([' ', '/'])
                .find(|part| !part.is_empty())
                .expect("a name");
            if tag.starts_with('/') {
                assert_eq!(open.pop(), Some(name));
            } else if !tag.ends_with('/') {
                open.push(name);
            }
            rest = &rest[end + 1..];
        }
        check_words(rest);
        assert!(open.is_empty() && text.starts_with("<svg"), "{open:?}");
    }

    fn check_words(words: &str) {
        for part in words.split('&').skip(1) {
            let name = part.split(';').next().unwrap_or("");
            assert!(["amp", "lt", "gt", "quot"].contains(&name), "{words}");
        }
        assert!(
            !words.chars().any(|c| c.is_control() && c != '\n'),
            "{words:?}"
        );
    }

    #[test]
    fn words_are_escaped() {
        assert_eq!(escaped("a<b>&\"\u{1}é"), "a&lt;b&gt;&amp;&quot;\u{FFFD}é");
    }

    #[test]
    fn a_canvas_is_well_formed() {
        let mut canvas = Canvas::new(10.0, 20.0);
        canvas.rect(0.0, 0.0, 1.0, 1.0, "#000", 0.5);
        canvas.frame(0.0, 0.0, 1.0, 1.0, "#000");
        canvas.line(0.0, 0.0, 1.0, 1.0, "#000");
        canvas.dashed(0.0, 0.0, 1.0, 1.0, "#000");
        canvas.band(&[(0.0, 0.0), (1.0, 2.0)], "#000");
        canvas.text(0.0, 0.0, "<&>", Style::new("#000").bold());
        canvas.text_up(0.0, 0.0, "up", Style::new("#000").end());
        let text = canvas.finish();
        well_formed(&text);
        assert!(text.contains("M0.0 0.0L1.0 2.0Z"));
    }

    #[test]
    #[should_panic]
    fn the_check_sees_an_open_tag() {
        well_formed("<svg><text></svg>");
    }
}
