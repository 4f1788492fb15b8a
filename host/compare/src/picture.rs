//! A picture of how many times as fast the proved code is: SVG, a bar for each measurement, in both schemes of colour.

use std::fmt::Write;

pub struct Bar {
    pub label: String,
    /// The reference's time over the proved code's.
    pub times: f64,
}

const LINE: usize = 20;
const TOP: usize = 66;
const LABELS: f64 = 480.0;
const WIDTH: f64 = 990.0;
/// Room behind the longest bar, for its number.
const BEHIND: f64 = 52.0;

/// The picture has its own ground, so that it can be read wherever it is shown.
const STYLE: &str = "text { font: 12px sans-serif; fill: #24292f }
.ground { fill: #ffffff } .faster { fill: #2f6fb0 } .slower { fill: #b3541e }
.grid { stroke: #d0d7de } .one { stroke: #24292f; stroke-width: 1.5 }
@media (prefers-color-scheme: dark) {
text { fill: #e6edf3 } .ground { fill: #0d1117 } .faster { fill: #5b9bd8 } .slower { fill: #e08a4f }
.grid { stroke: #30363d } .one { stroke: #e6edf3 } }";

/// Bars to the right of the mark at 1 where the proved code is faster, to the left where it is slower. Equal ratios are equally
/// far apart, so that twice and half as fast look alike and 90 times fits beside 2.
pub fn picture(bars: &[Bar]) -> String {
    let least = bars
        .iter()
        .fold(0.5, |least: f64, bar| least.min(bar.times));
    let most = bars.iter().fold(2.0, |most: f64, bar| most.max(bar.times));
    let scale = (WIDTH - LABELS - BEHIND) / (most / least).ln();
    let x = |times: f64| LABELS + (times / least).ln() * scale;
    let bottom = TOP + LINE * bars.len();
    let height = bottom + 12;
    let mut text = format!(
        "<svg xmlns=\"http://www.w3.org/2000/svg\" viewBox=\"0 0 {WIDTH} {height}\" width=\"{WIDTH}\" height=\"{height}\">
<title>Times as fast as the reference</title>
<style>
{STYLE}
</style>
<rect class=\"ground\" width=\"{WIDTH}\" height=\"{height}\"/>
<text x=\"12\" y=\"22\" font-weight=\"bold\">Times as fast as the reference: its time over the proved code's, from the section \"One size\" of BENCHMARK.md</text>
"
    );
    for mark in [
        0.1, 0.2, 0.5, 1.0, 2.0, 5.0, 10.0, 20.0, 50.0, 100.0, 200.0, 500.0,
    ] {
        if mark < least || most < mark {
            continue;
        }
        let class = if mark == 1.0 { "one" } else { "grid" };
        let at = x(mark);
        let _ = writeln!(
            text,
            "<text x=\"{at:.1}\" y=\"{}\" text-anchor=\"middle\">{mark}</text><line class=\"{class}\" x1=\"{at:.1}\" x2=\"{at:.1}\" y1=\"{}\" y2=\"{bottom}\"/>",
            TOP - 14,
            TOP - 8
        );
    }
    for (i, bar) in bars.iter().enumerate() {
        let top = TOP + LINE * i;
        let class = if bar.times < 1.0 { "slower" } else { "faster" };
        let (from, to) = (x(bar.times.min(1.0)), x(bar.times.max(1.0)));
        let label = &bar.label;
        let _ = writeln!(
            text,
            "<text x=\"12\" y=\"{}\">{label}</text><rect class=\"{class}\" x=\"{from:.1}\" y=\"{}\" width=\"{:.1}\" height=\"{}\"/><text x=\"{:.1}\" y=\"{}\">{:.1}</text>",
            top + 14,
            top + 3,
            to - from,
            LINE - 6,
            to + 6.0,
            top + 14,
            bar.times
        );
    }
    text.push_str("</svg>\n");
    text
}
