//! Latency over selectivity, both axes in powers of ten, as an SVG text.

use std::fmt::Write;

pub struct Panel {
    pub title: String,
    /// For each contestant (share of the entries in the answer, microseconds).
    pub series: Vec<Vec<(f64, f64)>>,
}

const WIDTH: f64 = 340.0;
const HEIGHT: f64 = 300.0;
const LEFT: f64 = 60.0;
const TOP: f64 = 60.0;
const GAP: f64 = 30.0;
const BELOW: f64 = 50.0;
const LEGEND: f64 = 140.0;
const COLOURS: [&str; 4] = ["#0b6e4f", "#777777", "#c1440e", "#2c5aa0"];

/// One axis: whole powers of ten around what is shown, on a stretch of pixels.
struct Axis {
    first: i32,
    last: i32,
    from: f64,
    to: f64,
}

impl Axis {
    fn around(numbers: impl Iterator<Item = f64>, from: f64, to: f64) -> Axis {
        let (least, most) = numbers.fold((f64::INFINITY, 0.0), |(a, b): (f64, f64), x| (a.min(x), b.max(x)));
        let first = least.log10().floor() as i32;
        Axis { first, last: (most.log10().ceil() as i32).max(first + 1), from, to }
    }

    fn at(&self, number: f64) -> f64 {
        let part = (number.log10() - self.first as f64) / (self.last - self.first) as f64;
        self.from + part * (self.to - self.from)
    }

    fn ticks(&self) -> impl Iterator<Item = (i32, f64)> + '_ {
        (self.first..=self.last).map(|power| (power, self.at(10f64.powi(power))))
    }
}

fn tick_text(power: i32) -> String {
    if (-2..=3).contains(&power) {
        format!("{}", 10f64.powi(power))
    } else {
        format!("10<tspan dy=\"-4\" font-size=\"8\">{power}</tspan>")
    }
}

/// Forms differ as well as colours.
fn marker(contestant: usize, x: f64, y: f64) -> String {
    let colour = COLOURS[contestant];
    match contestant {
        0 => format!("<circle cx=\"{x:.1}\" cy=\"{y:.1}\" r=\"4.5\" fill=\"{colour}\"/>"),
        1 => {
            let (a, b, c, d) = (x - 4.0, y - 4.0, x + 4.0, y + 4.0);
            format!("<path d=\"M{a:.1} {b:.1} L{c:.1} {d:.1} M{a:.1} {d:.1} L{c:.1} {b:.1}\" stroke=\"{colour}\" stroke-width=\"1.5\"/>")
        }
        2 => format!("<path d=\"M{:.1} {:.1} l5 9 h-10 z\" fill=\"none\" stroke=\"{colour}\" stroke-width=\"1.5\"/>", x, y - 5.0),
        _ => format!(
            "<rect x=\"{:.1}\" y=\"{:.1}\" width=\"8\" height=\"8\" fill=\"none\" stroke=\"{colour}\" stroke-width=\"1.5\"/>",
            x - 4.0,
            y - 4.0
        ),
    }
}

fn text(x: f64, y: f64, anchor: &str, content: &str) -> String {
    format!("<text x=\"{x:.1}\" y=\"{y:.1}\" text-anchor=\"{anchor}\">{content}</text>\n")
}

fn line(from: (f64, f64), to: (f64, f64)) -> String {
    format!("<line x1=\"{:.1}\" y1=\"{:.1}\" x2=\"{:.1}\" y2=\"{:.1}\" stroke=\"#dddddd\"/>\n", from.0, from.1, to.0, to.1)
}

fn draw_panel(out: &mut String, panel: &Panel, left: f64, y: &Axis) {
    let x = Axis::around(panel.series.iter().flatten().map(|point| point.0), left, left + WIDTH);
    for (power, at) in x.ticks() {
        *out += &line((at, TOP), (at, TOP + HEIGHT));
        *out += &text(at, TOP + HEIGHT + 16.0, "middle", &tick_text(power));
    }
    for (_, at) in y.ticks() {
        *out += &line((left, at), (left + WIDTH, at));
    }
    *out += &text(left + WIDTH / 2.0, TOP - 8.0, "middle", &panel.title);
    *out += &text(left + WIDTH / 2.0, TOP + HEIGHT + 36.0, "middle", "share of the entries in the answer");
    for (contestant, points) in panel.series.iter().enumerate() {
        for point in points {
            let _ = writeln!(out, "{}", marker(contestant, x.at(point.0), y.at(point.1)));
        }
    }
}

/// The panels share the axis of time.
pub fn svg(panels: &[Panel], contestants: &[&str]) -> String {
    let width = LEFT + (panels.len() as f64 * (WIDTH + GAP)).max(contestants.len() as f64 * LEGEND);
    let height = TOP + HEIGHT + BELOW;
    let mut out = format!(
        "<svg xmlns=\"http://www.w3.org/2000/svg\" viewBox=\"0 0 {width} {height}\" font-family=\"sans-serif\" font-size=\"11\">\n"
    );
    out += "<rect width=\"100%\" height=\"100%\" fill=\"white\"/>\n";
    let times = panels.iter().flat_map(|panel| panel.series.iter().flatten().map(|point| point.1));
    let y = Axis::around(times, TOP + HEIGHT, TOP);
    for (power, at) in y.ticks() {
        out += &text(LEFT - 6.0, at + 4.0, "end", &tick_text(power));
    }
    out += &text(6.0, TOP - 8.0, "start", "µs a search");
    for (at, panel) in panels.iter().enumerate() {
        draw_panel(&mut out, panel, LEFT + at as f64 * (WIDTH + GAP), &y);
    }
    for (at, name) in contestants.iter().enumerate() {
        let x = LEFT + LEGEND * at as f64;
        let _ = writeln!(out, "{}", marker(at, x, 20.0));
        out += &text(x + 10.0, 24.0, "start", name);
    }
    out + "</svg>\n"
}
