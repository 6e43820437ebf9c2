//! Panels of lines, as SVG.

use std::fmt::Write;

pub struct Series {
    pub name: &'static str,
    pub color: &'static str,
    pub points: Vec<(f64, f64)>,
}

pub struct Panel {
    pub title: &'static str,
    pub across: &'static str,
    pub log: bool,
    pub series: Vec<Series>,
}

const WIDTH: f64 = 300.0;
const HEIGHT: f64 = 220.0;
const LEFT: f64 = 56.0;
const TOP: f64 = 36.0;
const STEP: f64 = WIDTH + LEFT + 24.0;

pub fn svg(panels: &[Panel]) -> String {
    let (width, height) = (STEP * panels.len() as f64, TOP + HEIGHT + 84.0);
    let mut text = format!(
        "<svg xmlns=\"http://www.w3.org/2000/svg\" viewBox=\"0 0 {width} {height}\" \
         font-family=\"sans-serif\" font-size=\"11\">\n\
         <rect width=\"{width}\" height=\"{height}\" fill=\"white\"/>\n"
    );
    for (index, panel) in panels.iter().enumerate() {
        let _ = writeln!(text, "<g transform=\"translate({} {TOP})\">", index as f64 * STEP + LEFT);
        draw(panel, &mut text);
        text.push_str("</g>\n");
    }
    text + "</svg>\n"
}

struct Scale {
    low: f64,
    high: f64,
    log: bool,
    size: f64,
}

impl Scale {
    fn at(&self, value: f64) -> f64 {
        let part = match self.log {
            true => (value / self.low).ln() / (self.high / self.low).ln(),
            false => (value - self.low) / (self.high - self.low),
        };
        part * self.size
    }
}

fn draw(panel: &Panel, text: &mut String) {
    let points = || panel.series.iter().flat_map(|series| &series.points);
    let most = |of: fn(&(f64, f64)) -> f64| points().map(of).fold(f64::MIN, f64::max);
    let least = |of: fn(&(f64, f64)) -> f64| points().map(of).fold(f64::MAX, f64::min);
    let across = Scale { low: least(|p| p.0), high: most(|p| p.0), log: false, size: WIDTH };
    let ticks = ticks(panel.log, least(|p| p.1), most(|p| p.1));
    let (first, last) = (ticks[0], ticks[ticks.len() - 1]);
    let up = Scale { low: first, high: last, log: panel.log, size: HEIGHT };
    let _ = writeln!(text, "<text x=\"0\" y=\"-16\" font-size=\"13\">{}</text>", panel.title);
    for tick in ticks {
        let y = HEIGHT - up.at(tick);
        let _ = writeln!(
            text,
            "<path d=\"M0 {y:.1}H{WIDTH}\" stroke=\"#ddd\"/>\
             <text x=\"-6\" y=\"{:.1}\" text-anchor=\"end\">{}</text>",
            y + 4.0,
            label(tick)
        );
    }
    let mut marks: Vec<f64> = points().map(|point| point.0).collect();
    marks.sort_by(f64::total_cmp);
    marks.dedup();
    for mark in marks {
        let x = across.at(mark);
        let y = HEIGHT + 16.0;
        let _ = writeln!(
            text,
            "<text x=\"{x:.1}\" y=\"{y}\" text-anchor=\"middle\">{}</text>",
            label(mark)
        );
    }
    let _ = writeln!(
        text,
        "<text x=\"{}\" y=\"{}\" text-anchor=\"middle\">{}</text>",
        WIDTH / 2.0,
        HEIGHT + 34.0,
        panel.across
    );
    for (index, series) in panel.series.iter().enumerate() {
        let place = |point: &(f64, f64)| (across.at(point.0), HEIGHT - up.at(point.1));
        let line: Vec<String> = series
            .points
            .iter()
            .map(|point| format!("{:.1},{:.1}", place(point).0, place(point).1))
            .collect();
        let _ = writeln!(
            text,
            "<polyline points=\"{}\" fill=\"none\" stroke=\"{}\" stroke-width=\"2\"/>",
            line.join(" "),
            series.color
        );
        let (x, y) = (10.0 + index as f64 % 2.0 * 150.0, HEIGHT + 54.0 + (index / 2) as f64 * 16.0);
        let _ = writeln!(
            text,
            "<path d=\"M{x} {:.1}h18\" stroke=\"{}\" stroke-width=\"2\"/>\
             <text x=\"{}\" y=\"{y}\">{}</text>",
            y - 4.0,
            series.color,
            x + 24.0,
            series.name
        );
    }
}

fn ticks(log: bool, low: f64, high: f64) -> Vec<f64> {
    if log {
        let first = low.log10().floor() as i32;
        let last = high.log10().ceil() as i32;
        return (first..=last).map(|power| 10f64.powi(power)).collect();
    }
    let rough = high / 5.0;
    let power = 10f64.powf(rough.log10().floor());
    let step = [1.0, 2.0, 5.0, 10.0].map(|times| times * power);
    let step = step.into_iter().find(|step| *step >= rough).unwrap_or(power);
    (0..=(high / step).ceil() as usize).map(|index| index as f64 * step).collect()
}

/// A whole number, its thousands apart.
fn label(value: f64) -> String {
    grouped(value.round() as u64)
}

pub fn grouped(value: u64) -> String {
    let digits = value.to_string();
    let mut text = String::new();
    for (index, digit) in digits.chars().enumerate() {
        if index > 0 && (digits.len() - index).is_multiple_of(3) {
            text.push(',');
        }
        text.push(digit);
    }
    text
}
