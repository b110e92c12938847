//! A picture as SVG text. Every look is written out at its element, so that the simplest viewers show it.
use crate::words::{decimal, escaped};

/// Where a text stands to its place.
#[derive(Clone, Copy)]
pub enum Anchor {
    Start,
    Middle,
    End,
}

/// A picture that grows downwards.
pub struct Svg {
    width: f64,
    body: String,
}

impl Svg {
    pub fn new(width: f64) -> Svg {
        Svg {
            width,
            body: String::new(),
        }
    }

    /// An element with its attributes.
    pub fn element(&mut self, name: &str, attributes: &str) {
        self.body += &format!("<{name} {attributes}/>\n");
    }

    pub fn rect(&mut self, [x, y, width, height]: [f64; 4], look: &str) {
        let [x, y, width, height] = [x, y, width, height].map(number);
        self.element(
            "rect",
            &format!(r#"x="{x}" y="{y}" width="{width}" height="{height}" {look}"#),
        );
    }

    pub fn line(&mut self, from: (f64, f64), to: (f64, f64), look: &str) {
        let [x1, y1, x2, y2] = [from.0, from.1, to.0, to.1].map(number);
        self.element("line", &format!(r#"x1="{x1}" y1="{y1}" x2="{x2}" y2="{y2}" {look}"#));
    }

    pub fn text(&mut self, (x, y): (f64, f64), anchor: Anchor, look: &str, words: &str) {
        let anchor = match anchor {
            Anchor::Start => "start",
            Anchor::Middle => "middle",
            Anchor::End => "end",
        };
        let (x, y, words) = (number(x), number(y), safe(words));
        self.body += &format!("<text x=\"{x}\" y=\"{y}\" text-anchor=\"{anchor}\" {look}>{words}</text>\n");
    }

    /// The whole picture, with a title for those who can't see it.
    pub fn finish(self, height: f64, title: &str) -> String {
        let (width, height, title) = (number(self.width), number(height), safe(title));
        let size = format!(r#"width="{width}" height="{height}""#);
        let body = self.body;
        format!(
            r##"<svg xmlns="http://www.w3.org/2000/svg" {size} viewBox="0 0 {width} {height}" font-family="sans-serif">
<title>{title}</title>
<rect {size} fill="#ffffff"/>
{body}</svg>
"##
        )
    }
}

/// A place to a tenth.
pub fn number(x: f64) -> String {
    decimal(x, 1)
}

/// A text as XML has it; what XML can't hold is shown as an escape.
fn safe(words: &str) -> String {
    let words = escaped(words)
        .replace('&', "&amp;")
        .replace('<', "&lt;")
        .replace('>', "&gt;");
    words.replace('"', "&quot;").replace('\'', "&#39;")
}
