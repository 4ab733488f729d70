//! How the times grow with rows and with neighbours: a table, and a plot as plain SVG.

use std::fmt::Write as _;
use std::io;

use super::cases::{self, Case};
use super::{grouped, head, line, measure_all, NAMES, ROUNDS};
use crate::gateway::SLOTS;

/// One call over some sizes.
struct Curve {
    call: String,
    /// What grows.
    along: &'static str,
    points: Vec<(usize, [f64; 3])>,
}

/// The curves of three calls, whose cases follow each other size by size.
fn curves(along: &'static str, sizes: &[usize], cases: &[Case], times: &[[f64; 3]]) -> Vec<Curve> {
    let curve = |index: usize| Curve {
        call: cases[index].name.clone(),
        along,
        points: sizes
            .iter()
            .copied()
            .zip(times.iter().skip(index).step_by(3).copied())
            .collect(),
    };
    (0..3).map(curve).collect()
}

/// The table of times, and the plot.
pub fn report(proved: &str, c: &str) -> io::Result<(String, String)> {
    let used: Vec<usize> = (1..=SLOTS).collect();
    let mut cases: Vec<Case> = cases::ROW_STEPS
        .into_iter()
        .flat_map(cases::by_rows)
        .collect();
    let first = cases.len();
    cases.extend(used.iter().copied().flat_map(cases::by_neighbours));
    let times = measure_all(proved, c, &cases)?;
    let mut all = curves("rows", &cases::ROW_STEPS, &cases, &times);
    all.extend(curves(
        "neighbours",
        &used,
        &cases[first..],
        &times[first..],
    ));
    let mut report = head(&format!("nanoseconds a call, best of {ROUNDS}"));
    report.push('\n');
    for curve in &all {
        for (size, times) in &curve.points {
            let along = match size {
                1 => curve.along.trim_end_matches('s'),
                _ => curve.along,
            };
            let name = format!("{}, {size} {along}", curve.call);
            let _ = writeln!(report, "{}", line(&name, *times));
        }
    }
    Ok((report, plot(&all)))
}

/// Of a panel, in points: its place's size, and the room around the axes.
const WIDTH: f64 = 320.0;
const HEIGHT: f64 = 250.0;
const LEFT: f64 = 62.0;
const RIGHT: f64 = 14.0;
const ABOVE: f64 = 34.0;
const BELOW: f64 = 40.0;
const COLUMNS: usize = 3;
/// Above all panels, for the key.
const KEY: f64 = 36.0;

/// How each program's line is drawn.
const STROKES: [&str; 3] = [
    "stroke=\"#1f4e9c\" stroke-width=\"2\"",
    "stroke=\"#888888\" stroke-width=\"1.5\" stroke-dasharray=\"5 3\"",
    "stroke=\"#d9730d\" stroke-width=\"2\"",
];

/// A round number that no value is above, and a fifth or a quarter of it as step.
fn scale(most: f64) -> (f64, f64) {
    let mut unit = 1.0;
    loop {
        for (top, parts) in [(1.0, 5.0), (2.0, 4.0), (4.0, 4.0), (5.0, 5.0)] {
            if most <= top * unit {
                return (top * unit, top * unit / parts);
            }
        }
        unit *= 10.0;
    }
}

fn text(plot: &mut String, x: f64, y: f64, anchor: &str, what: &str) {
    let _ = writeln!(
        plot,
        "<text x=\"{x:.1}\" y=\"{y:.1}\" text-anchor=\"{anchor}\">{what}</text>"
    );
}

fn panel(plot: &mut String, curve: &Curve, x: f64, y: f64) {
    let most = curve.points.iter().flat_map(|(_, times)| times);
    let (top, step) = scale(most.fold(0.0, |most: f64, time| most.max(*time)));
    let sizes = curve.points.iter().map(|(size, _)| *size as f64);
    let last = sizes.fold(1.0, f64::max);
    let (left, bottom) = (x + LEFT, y + HEIGHT - BELOW);
    let (across, up) = (WIDTH - LEFT - RIGHT, HEIGHT - ABOVE - BELOW);
    text(
        plot,
        left,
        y + ABOVE - 12.0,
        "start",
        &format!("{}: nanoseconds by {}", curve.call, curve.along),
    );
    let mut value = 0.0;
    while value <= top {
        let at = bottom - value / top * up;
        let _ = writeln!(
            plot,
            "<path d=\"M{left:.1} {at:.1}h{across:.1}\" stroke=\"#dddddd\"/>"
        );
        text(plot, left - 6.0, at + 4.0, "end", &grouped(value));
        value += step;
    }
    for part in 0..=4 {
        let at = left + across * f64::from(part) / 4.0;
        let size = last * f64::from(part) / 4.0;
        text(plot, at, bottom + 16.0, "middle", &grouped(size));
    }
    for (index, stroke) in STROKES.iter().enumerate() {
        let points: Vec<String> = curve
            .points
            .iter()
            .map(|(size, times)| {
                let right = left + *size as f64 / last * across;
                format!("{right:.1},{:.1}", bottom - times[index] / top * up)
            })
            .collect();
        let _ = writeln!(
            plot,
            "<polyline fill=\"none\" {stroke} points=\"{}\"/>",
            points.join(" ")
        );
    }
}

fn plot(curves: &[Curve]) -> String {
    let rows = curves.len().div_ceil(COLUMNS);
    let (width, height) = (COLUMNS as f64 * WIDTH, KEY + rows as f64 * HEIGHT);
    let mut plot = format!(
        "<svg xmlns=\"http://www.w3.org/2000/svg\" viewBox=\"0 0 {width} {height}\" \
         font-family=\"sans-serif\" font-size=\"12\">\n\
         <rect width=\"{width}\" height=\"{height}\" fill=\"white\"/>\n"
    );
    for (index, (name, stroke)) in NAMES.iter().zip(STROKES).enumerate() {
        let x = LEFT + 130.0 * index as f64;
        let _ = writeln!(plot, "<path d=\"M{x} 20h30\" {stroke}/>");
        text(&mut plot, x + 38.0, 24.0, "start", name);
    }
    for (index, curve) in curves.iter().enumerate() {
        let x = WIDTH * (index % COLUMNS) as f64;
        let y = KEY + HEIGHT * (index / COLUMNS) as f64;
        panel(&mut plot, curve, x, y);
    }
    plot.push_str("</svg>\n");
    plot
}

#[cfg(test)]
mod tests {
    use super::*;

    #[test]
    fn scales_are_round_and_reach_the_most() {
        assert_eq!(scale(0.7), (1.0, 0.2));
        assert_eq!(scale(100.0), (100.0, 20.0));
        assert_eq!(scale(101.0), (200.0, 50.0));
        assert_eq!(scale(847.0), (1000.0, 200.0));
        assert_eq!(scale(225_000.0), (400_000.0, 100_000.0));
    }

    #[test]
    fn a_plot_has_a_line_for_each_program_and_call() {
        let curve = |call: &str| Curve {
            call: call.to_string(),
            along: "rows",
            points: vec![(1, [3.0, 2.0, 1.0]), (2, [6.0, 4.0, 2.0])],
        };
        let plot = plot(&[curve("Update"), curve("Poll")]);
        assert_eq!(plot.matches("<polyline").count(), 6);
        assert!(plot.starts_with("<svg") && plot.ends_with("</svg>\n"));
    }
}
