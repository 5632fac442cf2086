// The table as a picture: a bar for each ratio, a line at 1.0, a mark at each aim. Its colours follow the reader's choice
// of light or dark.
use crate::row::Column;
use crate::table::{parts, Line, Whose, WORST};
use std::fmt::Write as _;

const TITLE: &str = "Time taken, the faster of two plain Rust programs that rebuild from nothing being 1.0";
const WIDTH: usize = 860;
// Where the bars begin, how long a ratio of 1 is, and the longest that is drawn.
const LEFT: f64 = 320.0;
const ONE: f64 = 280.0;
const LONGEST: f64 = 1.8;
const TOP: usize = 64;
const HEADING: usize = 34;
const ROW: usize = 31;
const BAR: usize = 11;

const STYLE: &str = "
  text { font: 13px system-ui, sans-serif; fill: #1f2933; }
  .heading { font-weight: 600; }
  .small { font-size: 11px; fill: #52606d; }
  .ground { fill: #ffffff; }
  .own0 { fill: #1f6fb2; } .own1 { fill: #7fb4de; }
  .peer0 { fill: #6b7785; } .peer1 { fill: #b3bcc6; }
  .one { stroke: #1f2933; stroke-width: 1.5; }
  .aim { stroke: #c2410c; stroke-width: 2.5; }
  @media (prefers-color-scheme: dark) {
    text { fill: #e4e7eb; } .small { fill: #9aa5b1; } .ground { fill: #0d1117; }
    .own0 { fill: #58a6e8; } .own1 { fill: #2f5f8a; }
    .peer0 { fill: #9aa5b1; } .peer1 { fill: #56616d; }
    .one { stroke: #e4e7eb; } .aim { stroke: #fb923c; }
  }
";

struct Drawing {
    body: String,
    y: usize,
}

impl Drawing {
    fn text(&mut self, class: &str, x: f64, y: usize, anchor: &str, text: &str) {
        writeln!(self.body, r#"<text class="{class}" x="{x:.0}" y="{y}" text-anchor="{anchor}">{text}</text>"#)
            .unwrap();
    }

    fn stroke(&mut self, class: &str, x: f64, from: usize, to: usize) {
        writeln!(self.body, r#"<line class="{class}" x1="{x:.1}" x2="{x:.1}" y1="{from}" y2="{to}"/>"#).unwrap();
    }

    fn bar(&mut self, class: &str, y: usize, ratio: f64) {
        let long = ratio.min(LONGEST) * ONE;
        writeln!(self.body, r#"<rect class="{class}" x="{LEFT}" y="{y}" width="{long:.1}" height="{BAR}" rx="1.5"/>"#)
            .unwrap();
        if ratio > LONGEST {
            self.text("small", LEFT + long + 4.0, y + BAR - 1, "start", "→");
        }
        self.text("small", LEFT - 8.0, y + BAR - 1, "end", &format!("{ratio:.2}"));
    }

    // A line of the table: a bar for each column, and the aim across them.
    fn line(&mut self, columns: &[Column], line: &Line) {
        let kind = if line.whose == Whose::Ours { "own" } else { "peer" };
        let name = line.name.replace('`', "");
        self.text("", LEFT - 46.0, self.y + BAR + 4, "end", &name);
        for (place, column) in columns.iter().enumerate() {
            if let Some(row) = column.row(line.name) {
                self.bar(&format!("{kind}{place}"), self.y + place * (BAR + 1), row.ratio());
            }
        }
        if let Some(aim) = line.aim {
            self.stroke("aim", LEFT + aim * ONE, self.y - 2, self.y + 2 * BAR + 3);
        }
        self.y += ROW;
    }

    fn part(&mut self, columns: &[Column], heading: &str, lines: &[&Line]) {
        self.text("heading", 12.0, self.y + 18, "start", heading);
        self.y += HEADING;
        // The line at 1.0 stands behind the bars, and not behind the headings.
        self.stroke("one", LEFT + ONE, self.y - 4, self.y + lines.len() * ROW - 4);
        lines.iter().for_each(|line| self.line(columns, line));
    }

    fn legend(&mut self, columns: &[Column]) {
        self.text("heading", 12.0, 24, "start", TITLE);
        let mut x = 12.0;
        for (place, column) in columns.iter().enumerate() {
            writeln!(self.body, r#"<rect class="own{place}" x="{x}" y="40" width="22" height="{BAR}" rx="1.5"/>"#)
                .unwrap();
            self.text("small", x + 28.0, 50, "start", column.heading);
            x += 160.0;
        }
        self.stroke("one", x + 6.0, 38, 53);
        self.text("small", x + 14.0, 50, "start", "1.0");
        self.stroke("aim", x + 60.0, 38, 53);
        self.text("small", x + 68.0, 50, "start", "the aim: a bar should end before it");
    }
}

/// The ratios of two columns.
pub fn svg(columns: &[Column]) -> String {
    let mut drawing = Drawing { body: String::new(), y: TOP };
    drawing.legend(columns);
    for (heading, lines) in parts(columns).iter().filter(|part| part.0 != WORST && !part.1.is_empty()) {
        drawing.part(columns, heading, lines);
    }
    let (body, height) = (drawing.body, drawing.y + 12);
    format!(
        r#"<svg xmlns="http://www.w3.org/2000/svg" viewBox="0 0 {WIDTH} {height}" width="{WIDTH}" height="{height}" role="img" aria-label="What it costs">
<style>{STYLE}</style>
<rect class="ground" width="{WIDTH}" height="{height}" rx="6"/>
{body}</svg>
"#
    )
}
