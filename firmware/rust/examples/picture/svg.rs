//! Shapes and text of an SVG, in whole numbers so that the picture is the same on every machine.
use std::fmt::Write;

/// Colours and letters, by class. What differs in colour differs in brightness too, to be read in grey.
const STYLE: &str = "\
text{font-family:Helvetica,Arial,sans-serif;font-size:11px;fill:#262b33}
.mid{text-anchor:middle}
.title{font-size:18px;font-weight:bold}
.bold{font-weight:bold}
.name{font-size:20px;font-weight:bold}
.digit{font-size:16px;font-weight:bold;text-anchor:middle}
.value{font-size:14px;text-anchor:middle}
.small{font-size:10px}
.tight{font-size:8px}
.soft{fill:#667080}
.paper{fill:#fff}
.band{fill:#e9edf2}
.cell{fill:#fff;stroke:#d5dae1}
.on{fill:#3b4a5f;stroke:#3b4a5f}
.off{fill:#fff;stroke:#9aa4b2}
.grade0 rect{fill:#e3e6ea}
.grade1 rect{fill:#9ccdbd}
.grade2 rect{fill:#2b7563}
.bit0 rect,.bit0 circle{fill:#f7dfaa}
.bit1 rect,.bit1 circle{fill:#2a5788}
.grade2 text,.bit1 text{fill:#fff}
.blank circle{fill:#fff;stroke:#9aa4b2}
.firm rect{stroke:#111;stroke-width:4}
.program rect{fill:#f1f6f1}
.silent rect{fill:#d3d7dd}
.lie rect{fill:#f0a08a}
.lie .small{font-weight:bold}
.crown{fill:#c48a00;stroke:#6d4d00}
";

/// A crown, 14 wide and 10 high, from its lower left corner.
const CROWN: &str = "v-9l4 4l3 -5l3 5l4 -4v9z";

/// The attribute of a class, where there is one.
fn of(class: &str) -> String {
    if class.is_empty() { String::new() } else { format!(" class=\"{class}\"") }
}

/// A picture while it is drawn. No text in it has a letter that would have to be escaped.
#[derive(Default)]
pub struct Svg(String);

impl Svg {
    /// One piece of it, on a line of its own.
    fn put(&mut self, piece: std::fmt::Arguments) {
        writeln!(self.0, "{piece}").expect("a string can be written to");
    }

    /// Shapes of one class, with a title, if any, that is shown where one points at them.
    pub fn group(&mut self, class: &str, title: &str, shapes: impl FnOnce(&mut Svg)) {
        let title = if title.is_empty() { String::new() } else { format!("<title>{title}</title>") };
        self.put(format_args!("<g{}>{title}", of(class)));
        shapes(self);
        self.put(format_args!("</g>"));
    }

    /// A rectangle from its upper left corner, with corners of a radius.
    pub fn rect(&mut self, class: &str, [x, y, width, height, radius]: [usize; 5]) {
        self.put(format_args!("<rect{} x=\"{x}\" y=\"{y}\" width=\"{width}\" height=\"{height}\" rx=\"{radius}\"/>", of(class)));
    }

    /// A circle around a point.
    pub fn circle(&mut self, class: &str, [x, y, radius]: [usize; 3]) {
        self.put(format_args!("<circle{} cx=\"{x}\" cy=\"{y}\" r=\"{radius}\"/>", of(class)));
    }

    /// Words, if any, on a line that starts, or has its middle, at a point.
    pub fn text(&mut self, class: &str, [x, y]: [usize; 2], words: &str) {
        if words.is_empty() {
            return;
        }
        self.put(format_args!("<text{} x=\"{x}\" y=\"{y}\">{words}</text>", of(class)));
    }

    /// A crown on its lower left corner.
    pub fn crown(&mut self, [x, y]: [usize; 2]) {
        self.put(format_args!("<path class=\"crown\" d=\"M{x} {y}{CROWN}\"/>"));
    }

    /// The whole file, on white paper.
    pub fn page(self, title: &str, width: usize, height: usize) -> String {
        let size = format!("width=\"{width}\" height=\"{height}\"");
        let head = format!("<svg xmlns=\"http://www.w3.org/2000/svg\" viewBox=\"0 0 {width} {height}\" {size}>\n<title>{title}</title>\n");
        format!("{head}<style>\n{STYLE}</style>\n<rect class=\"paper\" {size}/>\n{}</svg>\n", self.0)
    }
}
