//! Time per frame against tracks, as an SVG.
use crate::inputs::Kind;
use crate::Row;
use std::fmt::Write;

const WIDE: f64 = 420.0;
const HIGH: f64 = 300.0;
const COLOURS: [(&str, &str); 3] = [("library", "#c0392b"), ("plain Rust", "#2c3e50"), ("comparison build", "#7f8c8d")];

pub fn svg(rows: &[Row]) -> String {
    let mut out = String::from("<svg xmlns=\"http://www.w3.org/2000/svg\" viewBox=\"0 0 1040 400\" font-family=\"sans-serif\" font-size=\"12\">\n<rect width=\"1040\" height=\"400\" fill=\"white\"/>\n");
    panel(&mut out, rows, Kind::Steady, "steady tracks", 70.0);
    panel(&mut out, rows, Kind::Crowd, "crowd", 580.0);
    out + "</svg>\n"
}

fn panel(out: &mut String, rows: &[Row], kind: Kind, title: &str, left: f64) {
    let points: Vec<&Row> = rows.iter().filter(|r| r.kind == Some(kind)).collect();
    let most = points.iter().flat_map(|r| r.times).fold(1.0, f64::max) / 1e3;
    let step =
        [1.0, 2.0, 5.0, 10.0, 20.0, 50.0, 100.0, 200.0, 500.0].into_iter().find(|s| most / s <= 8.0).unwrap_or(1000.0);
    let top = (most / step).ceil() * step;
    let x = |count: usize| left + count as f64 / 64.0 * WIDE;
    let y = |us: f64| 40.0 + HIGH * (1.0 - us / top);
    writeln!(out, "<text x=\"{left}\" y=\"24\" font-size=\"15\">{title}: microseconds per frame against tracks</text>")
        .unwrap();
    let mut us = 0.0;
    while us <= top {
        let (at, right) = (y(us), left + WIDE);
        writeln!(out, "<line x1=\"{left}\" x2=\"{right}\" y1=\"{at:.1}\" y2=\"{at:.1}\" stroke=\"#ddd\"/><text x=\"{}\" y=\"{:.1}\" text-anchor=\"end\">{us}</text>", left - 6.0, at + 4.0).unwrap();
        us += step;
    }
    // the label of 0 would run into that of 1
    for row in points.iter().filter(|r| r.count > 0) {
        writeln!(
            out,
            "<text x=\"{:.1}\" y=\"{}\" text-anchor=\"middle\">{}</text>",
            x(row.count),
            HIGH + 58.0,
            row.count
        )
        .unwrap();
    }
    for (who, (name, colour)) in COLOURS.iter().enumerate() {
        let at = |r: &&Row| format!("{:.1},{:.1}", x(r.count), y(r.times[who] / 1e3));
        let line: Vec<String> = points.iter().map(at).collect();
        writeln!(out, "<polyline points=\"{}\" fill=\"none\" stroke=\"{colour}\" stroke-width=\"2\"/>", line.join(" "))
            .unwrap();
        let (key, down) = (left + 12.0, 60.0 + 18.0 * who as f64);
        writeln!(out, "<line x1=\"{key}\" x2=\"{}\" y1=\"{down}\" y2=\"{down}\" stroke=\"{colour}\" stroke-width=\"2\"/><text x=\"{}\" y=\"{}\">{name}</text>", key + 24.0, key + 30.0, down + 4.0).unwrap();
    }
}
