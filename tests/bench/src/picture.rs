//! Time against rows as SVG: a line for each engine and call through the medians on the plain studies, and one on those
//! with curves, both axes logarithmic.

use std::fmt::Write;

use crate::engine::{Call, Engine};
use crate::report::MICROSECOND;
use crate::study::Layout;
use crate::timing::Measured;

/// The picture, and the plot within it, in pixels.
const WIDTH: f64 = 890.0;
const HEIGHT: f64 = 540.0;
const LEFT: f64 = 90.0;
const RIGHT: f64 = 650.0;
const TOP: f64 = 50.0;
const BOTTOM: f64 = 470.0;

/// Room between the plot's sides and the points, as a factor of their values.
const MARGIN: f64 = 1.3;

/// Where the legend begins, how long its lines are and how far apart.
const LEGEND: f64 = RIGHT + 24.0;
const SAMPLE: f64 = 34.0;
const SPACING: f64 = 24.0;

/// How far a mark reaches from its middle.
const MARK: f64 = 4.0;

/// A colour for each engine.
const COLOURS: [&str; 3] = ["#00695c", "#b23c17", "#3457a6"];
const INK: &str = "#222";
const GRID: &str = "#e4e4e4";

/// An engine's times of a call on the studies of a layout: a point is a study's rows and microseconds.
#[derive(Clone)]
struct Line {
    name: String,
    colour: &'static str,
    call: Call,
    curves: bool,
    points: Vec<(f64, f64)>,
}

/// A logarithmic axis: the values at its ends and where these are.
struct Axis {
    values: [f64; 2],
    pixels: [f64; 2],
}

/// Rows to the right, microseconds upwards.
struct Plot {
    rows: Axis,
    time: Axis,
    svg: String,
}

/// The picture of what was measured.
pub fn draw(engines: &[Engine], measured: &[Measured]) -> String {
    let plain: Vec<&Measured> = measured.iter().filter(|one| one.study.layout == Layout::Plain).collect();
    let curves: Vec<&Measured> = measured.iter().filter(|one| one.study.layout.has_whole_curves()).collect();
    let lines = [lines(engines, &plain), lines(engines, &curves)].concat();
    let mut plot = Plot::around(&lines);
    plot.frame(&[plain, curves].concat());
    for (place, line) in lines.iter().enumerate() {
        plot.line(line);
        plot.legend(place, line);
    }
    plot.svg + "</svg>\n"
}

/// The lines through the studies of a layout, in the legend's order.
fn lines(engines: &[Engine], measured: &[&Measured]) -> Vec<Line> {
    let study = measured[0].study;
    let curves = study.layout.has_whole_curves();
    let behind = if curves { ", curves" } else { "" };
    let mut lines = Vec::new();
    for (index, engine) in engines.iter().enumerate() {
        for call in Call::ALL.into_iter().filter(|&call| engine.makes(call, study)) {
            let time = |one: &Measured| one.times(index, call).median() / MICROSECOND;
            let points = measured.iter().map(|one| (one.study.rows() as f64, time(one))).collect();
            let name = format!("{} {}{behind}", engine.name, call.name());
            lines.push(Line { name, colour: COLOURS[index], call, curves, points });
        }
    }
    lines
}

impl Axis {
    /// An axis with room for some values.
    fn around(values: impl Iterator<Item = f64> + Clone, pixels: [f64; 2]) -> Axis {
        let least = values.clone().fold(f64::INFINITY, f64::min);
        let largest = values.fold(0.0, f64::max);
        Axis { values: [least / MARGIN, largest * MARGIN], pixels }
    }

    fn place(&self, value: f64) -> f64 {
        let [[first, last], [start, end]] = [self.values, self.pixels];
        start + (end - start) * (value / first).ln() / (last / first).ln()
    }

    /// The powers of ten on the axis.
    fn powers(&self) -> Vec<f64> {
        let [first, last] = self.values.map(f64::log10);
        (first.ceil() as i32..=last.floor() as i32).map(|power| 10f64.powi(power)).collect()
    }
}

impl Plot {
    /// A plot with room for some lines.
    fn around(lines: &[Line]) -> Plot {
        let points = lines.iter().flat_map(|line| &line.points);
        let mut svg = format!(
            "<svg xmlns=\"http://www.w3.org/2000/svg\" viewBox=\"0 0 {WIDTH} {HEIGHT}\" width=\"{WIDTH}\" \
             height=\"{HEIGHT}\" font-family=\"sans-serif\" font-size=\"14\" fill=\"{INK}\">\n"
        );
        let _ = writeln!(svg, "<rect width=\"{WIDTH}\" height=\"{HEIGHT}\" fill=\"white\"/>");
        Plot {
            rows: Axis::around(points.clone().map(|point| point.0), [LEFT, RIGHT]),
            time: Axis::around(points.map(|point| point.1), [BOTTOM, TOP]),
            svg,
        }
    }

    /// The title, the axes with their labels, and a grid at each study and each power of ten.
    fn frame(&mut self, measured: &[&Measured]) {
        let (middle, centre) = ((LEFT + RIGHT) / 2.0, (TOP + BOTTOM) / 2.0);
        self.text(middle, TOP - 20.0, "middle", "Time of a call by rows, no field quoted, unit by unit");
        for rows in measured.iter().map(|one| one.study.rows()) {
            let x = self.rows.place(rows as f64);
            self.stroke([x, TOP, x, BOTTOM], GRID);
            self.text(x, BOTTOM + 20.0, "middle", &rows.to_string());
        }
        for power in self.time.powers() {
            let y = self.time.place(power);
            self.stroke([LEFT, y, RIGHT, y], GRID);
            self.text(LEFT - 10.0, y + 5.0, "end", &power.to_string());
        }
        self.stroke([LEFT, BOTTOM, RIGHT, BOTTOM], INK);
        self.stroke([LEFT, TOP, LEFT, BOTTOM], INK);
        self.text(
            middle,
            BOTTOM + 48.0,
            "middle",
            "rows of supply, schedules and curves (count, logarithmic)",
        );
        let _ = write!(self.svg, "<g transform=\"translate(24 {centre}) rotate(-90)\">");
        self.text(0.0, 0.0, "middle", "median time of a call (microseconds, logarithmic)");
        self.svg += "</g>\n";
    }

    fn line(&mut self, line: &Line) {
        let place = |&(rows, time): &(f64, f64)| (self.rows.place(rows), self.time.place(time));
        let places: Vec<(f64, f64)> = line.points.iter().map(place).collect();
        self.trace(&places, line);
    }

    /// A line's entry in the legend.
    fn legend(&mut self, place: usize, line: &Line) {
        let y = TOP + SPACING * (place as f64 + 0.5);
        self.trace(&[(LEGEND, y), (LEGEND + SAMPLE, y)], line);
        self.text(LEGEND + SAMPLE + 12.0, y + 5.0, "start", &line.name);
    }

    /// Dots, or squares for studies with curves, and a line through them: filled and unbroken for the study, hollow and
    /// broken for the others.
    fn trace(&mut self, places: &[(f64, f64)], line: &Line) {
        let colour = line.colour;
        let (dashes, fill) = match line.call {
            Call::Study => ("none", colour),
            Call::Preview => ("10 3", "white"),
            Call::Check => ("6 4", "white"),
            Call::Tidy => ("2 3", "white"),
        };
        let path: Vec<String> = places.iter().map(|(x, y)| format!("{x:.1},{y:.1}")).collect();
        let _ = writeln!(
            self.svg,
            "<polyline points=\"{}\" fill=\"none\" stroke=\"{colour}\" stroke-width=\"2\" \
             stroke-dasharray=\"{dashes}\"/>",
            path.join(" ")
        );
        for &(x, y) in places {
            let shape = mark(line.curves, x, y);
            let _ = writeln!(self.svg, "<{shape} fill=\"{fill}\" stroke=\"{colour}\" stroke-width=\"2\"/>");
        }
    }

    fn stroke(&mut self, [x1, y1, x2, y2]: [f64; 4], colour: &str) {
        let _ = writeln!(
            self.svg,
            "<line x1=\"{x1:.1}\" y1=\"{y1:.1}\" x2=\"{x2:.1}\" y2=\"{y2:.1}\" stroke=\"{colour}\"/>"
        );
    }

    fn text(&mut self, x: f64, y: f64, anchor: &str, text: &str) {
        let _ = writeln!(self.svg, "<text x=\"{x:.1}\" y=\"{y:.1}\" text-anchor=\"{anchor}\">{text}</text>");
    }
}

/// The mark of a study at a place, without its colours.
fn mark(curves: bool, x: f64, y: f64) -> String {
    if !curves {
        return format!("circle cx=\"{x:.1}\" cy=\"{y:.1}\" r=\"{MARK}\"");
    }
    let (left, top, side) = (x - MARK, y - MARK, 2.0 * MARK);
    format!("rect x=\"{left:.1}\" y=\"{top:.1}\" width=\"{side}\" height=\"{side}\"")
}

#[cfg(test)]
mod tests {
    use super::*;

    #[test]
    fn an_axis_is_logarithmic() {
        let axis = Axis { values: [1.0, 100.0], pixels: [50.0, 10.0] };
        assert_eq!([1.0, 10.0, 100.0].map(|value| axis.place(value).round()), [50.0, 30.0, 10.0]);
        let axis = Axis { values: [0.2, 99.0], ..axis };
        assert_eq!(axis.powers(), [1.0, 10.0]);
    }
}
