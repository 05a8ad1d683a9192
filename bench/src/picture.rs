//! Two panels of cost, each over logarithmic scales, as an SVG.

use std::fmt::Write as _;

pub struct Line {
    pub name: &'static str,
    pub colour: &'static str,
    pub dashes: &'static str,
    /// Where it is measured, and nanoseconds.
    pub points: Vec<(f64, f64)>,
}

pub struct Panel {
    pub title: &'static str,
    pub across: &'static str,
    pub lines: Vec<Line>,
}

const WIDTH: f64 = 1_000.0;
const HEIGHT: f64 = 520.0;
const PLOT: (f64, f64) = (390.0, 330.0);
const TOP: f64 = 60.0;

/// A power of ten of nanoseconds.
fn time(ns: f64) -> String {
    match ns {
        ns if ns < 999.0 => format!("{ns:.0} ns"),
        ns if ns < 999_000.0 => format!("{:.0} µs", ns / 1e3),
        ns => format!("{:.0} ms", ns / 1e6),
    }
}

fn text(out: &mut String, x: f64, y: f64, style: &str, words: &str) {
    writeln!(out, r#"<text x="{x:.1}" y="{y:.1}"{style}>{words}</text>"#).unwrap();
}

impl Panel {
    fn points(&self) -> impl Iterator<Item = (f64, f64)> + '_ {
        self.lines.iter().flat_map(|line| line.points.iter().copied())
    }

    fn draw(&self, out: &mut String, left: f64) {
        let (width, height) = PLOT;
        let bottom = TOP + height;
        let mut xs: Vec<f64> = self.points().map(|p| p.0).collect();
        xs.sort_by(f64::total_cmp);
        xs.dedup();
        let (x0, x1) = (xs[0].ln(), xs[xs.len() - 1].ln());
        let y0 = self.points().map(|p| p.1.log10().floor()).fold(f64::INFINITY, f64::min);
        let y1 = self.points().map(|p| p.1.log10().ceil()).fold(y0 + 1.0, f64::max);
        let x = |v: f64| left + (v.ln() - x0) / (x1 - x0) * width;
        let y = |v: f64| bottom - (v.log10() - y0) / (y1 - y0) * height;

        text(out, left, TOP - 22.0, r#" class="title""#, self.title);
        for power in y0 as i32..=y1 as i32 {
            let (ns, end) = (10f64.powi(power), left + width);
            writeln!(out, r#"<path class="grid" d="M{left:.1} {0:.1}H{end:.1}"/>"#, y(ns)).unwrap();
            text(out, left - 8.0, y(ns) + 4.0, r#" text-anchor="end""#, &time(ns));
        }
        for v in xs {
            writeln!(out, r#"<path class="grid" d="M{0:.1} {TOP}V{bottom}"/>"#, x(v)).unwrap();
            text(out, x(v), bottom + 18.0, r#" text-anchor="middle""#, &crate::report::number(v));
        }
        text(out, left + width / 2.0, bottom + 40.0, r#" text-anchor="middle""#, self.across);
        let turned = format!(r#" text-anchor="middle" transform="rotate(-90 {} {})""#, left - 58.0, TOP + height / 2.0);
        text(out, left - 58.0, TOP + height / 2.0, &turned, "time of a round");

        for (i, line) in self.lines.iter().enumerate() {
            let Line { name, colour, dashes, points } = line;
            let stroke = format!(r#"fill="none" stroke="{colour}" stroke-width="2" stroke-dasharray="{dashes}""#);
            let path: Vec<String> = points.iter().map(|p| format!("{:.1} {:.1}", x(p.0), y(p.1))).collect();
            writeln!(out, r#"<path {stroke} d="M{}"/>"#, path.join("L")).unwrap();
            for p in points {
                writeln!(out, r#"<circle cx="{:.1}" cy="{:.1}" r="3" fill="{colour}"/>"#, x(p.0), y(p.1)).unwrap();
            }
            let (lx, ly) = (left + width / 2.0 * (i % 2) as f64, bottom + 66.0 + 20.0 * (i / 2) as f64);
            writeln!(out, r#"<path {stroke} d="M{lx:.1} {ly:.1}h26"/>"#).unwrap();
            text(out, lx + 34.0, ly + 4.0, "", name);
        }
    }
}

pub fn svg(panels: [&Panel; 2]) -> String {
    let mut out = format!(
        r##"<svg xmlns="http://www.w3.org/2000/svg" viewBox="0 0 {WIDTH} {HEIGHT}" width="{WIDTH}" height="{HEIGHT}" role="img">
<title>What a round trip costs against slots and against size</title>
<style>
text {{ font: 12px system-ui, sans-serif; fill: #333 }}
.title {{ font-size: 15px; font-weight: 600; fill: #111 }}
.grid {{ stroke: #e2e2e2; fill: none }}
</style>
<rect width="{WIDTH}" height="{HEIGHT}" fill="#fff"/>
"##
    );
    for (panel, left) in panels.into_iter().zip([75.0, 575.0]) {
        panel.draw(&mut out, left);
    }
    out.push_str("</svg>\n");
    out
}
