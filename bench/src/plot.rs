//! The cost by size as an SVG: one panel for each act, sizes on a logarithmic axis.

use std::fmt::Write;

use crate::growth::Curve;
use crate::measure::Times;

const PANEL_WIDTH: f64 = 360.0;
const PANEL_HEIGHT: f64 = 240.0;
const MARGIN: f64 = 48.0;
const PANELS_IN_ROW: usize = 2;

const LIBRARY: &str = "#1f5fa8";
const REFERENCE: &str = "#b5651d";

/// The plot of the curves.
pub fn svg(curves: &[Curve]) -> String {
    let width = PANEL_WIDTH * PANELS_IN_ROW as f64;
    let height = PANEL_HEIGHT * curves.len().div_ceil(PANELS_IN_ROW) as f64;
    let mut out = String::new();
    let _ = writeln!(
        out,
        "<svg xmlns=\"http://www.w3.org/2000/svg\" viewBox=\"0 0 {width} {height}\" font-family=\"sans-serif\" font-size=\"11\">"
    );
    let _ = writeln!(
        out,
        "<rect width=\"{width}\" height=\"{height}\" fill=\"white\"/>"
    );
    for (rank, curve) in curves.iter().enumerate() {
        let left = (rank % PANELS_IN_ROW) as f64 * PANEL_WIDTH;
        let top = (rank / PANELS_IN_ROW) as f64 * PANEL_HEIGHT;
        let _ = writeln!(out, "<g transform=\"translate({left} {top})\">");
        panel(&mut out, curve);
        out.push_str("</g>\n");
    }
    out.push_str("</svg>\n");
    out
}

fn panel(out: &mut String, curve: &Curve) {
    let costs = curve.sizes.iter();
    let greatest = costs
        .map(|(_, times)| times.library.least.max(times.reference.least))
        .fold(0.0, f64::max);
    let limit = rounded_up(greatest);
    let first = (curve.sizes[0].0 as f64).ln();
    let last = (curve.sizes[curve.sizes.len() - 1].0 as f64).ln();
    let (right, bottom) = (PANEL_WIDTH - MARGIN / 2.0, PANEL_HEIGHT - MARGIN);
    let x = |size: usize| MARGIN + ((size as f64).ln() - first) / (last - first) * (right - MARGIN);
    let y = |cost: f64| bottom - cost / limit * (bottom - MARGIN);

    let unit = curve.unit.name();
    text(
        out,
        MARGIN,
        20.0,
        "start",
        "black",
        &format!("{}: ns a {unit}", curve.act),
    );
    text(out, right - 70.0, 20.0, "end", LIBRARY, "library");
    text(out, right, 20.0, "end", REFERENCE, "reference");
    for step in 0..=4 {
        let cost = limit * f64::from(step) / 4.0;
        line(out, "#dddddd", 1.0, &[(MARGIN, y(cost)), (right, y(cost))]);
        text(
            out,
            MARGIN - 6.0,
            y(cost) + 4.0,
            "end",
            "black",
            &format!("{cost}"),
        );
    }
    // The largest that fits stands near a power of two, without a label of its own.
    for (rank, &(size, _)) in curve.sizes.iter().enumerate() {
        if rank % 2 == 0 {
            let label = format!("{}k", size / 1_000);
            text(out, x(size), bottom + 16.0, "middle", "black", &label);
        }
    }
    text(
        out,
        (MARGIN + right) / 2.0,
        bottom + 34.0,
        "middle",
        "black",
        &format!("{unit}s"),
    );
    let mut draw = |colour, side: fn(&Times) -> f64| {
        let sizes = curve.sizes.iter();
        let places: Vec<_> = sizes
            .map(|(size, times)| (x(*size), y(side(times))))
            .collect();
        line(out, colour, 2.0, &places);
    };
    draw(LIBRARY, |times| times.library.least);
    draw(REFERENCE, |times| times.reference.least);
}

/// A round number not below the cost: 1, 2, 4 or 8 times a power of ten.
fn rounded_up(cost: f64) -> f64 {
    let power = 10f64.powf(cost.max(1e-9).log10().floor());
    let steps = [1.0, 2.0, 4.0, 8.0, 10.0].map(|step| step * power);
    steps.into_iter().find(|&step| step >= cost).unwrap_or(cost)
}

fn line(out: &mut String, colour: &str, width: f64, places: &[(f64, f64)]) {
    let _ = write!(
        out,
        "<polyline fill=\"none\" stroke=\"{colour}\" stroke-width=\"{width}\" points=\""
    );
    for (x, y) in places {
        let _ = write!(out, "{x:.1},{y:.1} ");
    }
    out.push_str("\"/>\n");
}

fn text(out: &mut String, x: f64, y: f64, anchor: &str, colour: &str, words: &str) {
    let _ = writeln!(
        out,
        "<text x=\"{x:.1}\" y=\"{y:.1}\" text-anchor=\"{anchor}\" fill=\"{colour}\">{words}</text>"
    );
}
