//! Draws times as bars, one colour for each way. Bars are compared within a
//! panel, which has its own scale from 0, so that times of other sizes do not
//! hide them; the number at its end says what each is.
//!
//! usage: picture TITLE DATE < TIMES > SVG
//!
//! Lines of TIMES, their words parted by tabs: "ways" and the names; "panel"
//! and its title; "case", its name and a number for each way.

use std::fmt::Write;
use std::io::Read;
use std::process::ExitCode;

const COLOURS: [&str; 5] = ["#56b4e9", "#0072b2", "#e69f00", "#009e73", "#8c8c8c"];

/// Lengths in units of the picture.
const COLUMN: f64 = 490.0;
const MARGIN: f64 = 20.0;
const NAMES: f64 = 180.0;
const BARS: f64 = 240.0;
const BAR: f64 = 10.0;
const BETWEEN: f64 = 8.0;
const HEAD: f64 = 84.0;
const PANEL_HEAD: f64 = 26.0;
const PANEL_FOOT: f64 = 34.0;

struct Case {
    name: String,
    times: Vec<f64>,
}

struct Panel {
    title: String,
    cases: Vec<Case>,
}

#[derive(Default)]
struct Times {
    ways: Vec<String>,
    panels: Vec<Panel>,
}

fn main() -> ExitCode {
    let arguments: Vec<String> = std::env::args().skip(1).collect();
    let [title, date] = &arguments[..] else {
        eprintln!("usage: picture TITLE DATE < TIMES > SVG");
        return ExitCode::from(2);
    };
    let mut text = String::new();
    let read = std::io::stdin().read_to_string(&mut text).ok();
    match read.and_then(|_| parse(&text)) {
        Some(times) => {
            print!("{}", picture(&times, title, date));
            ExitCode::SUCCESS
        }
        None => {
            eprintln!("picture: the times cannot be read");
            ExitCode::FAILURE
        }
    }
}

/// None if a line is not of the form above or a case has another count of
/// times than there are ways.
fn parse(text: &str) -> Option<Times> {
    let mut times = Times::default();
    for line in text.lines() {
        let words: Vec<&str> = line.split('\t').collect();
        match words[..] {
            ["ways", ref names @ ..] if names.len() <= COLOURS.len() => {
                times.ways = names.iter().map(|name| name.to_string()).collect();
            }
            ["panel", title] => times.panels.push(Panel {
                title: title.to_string(),
                cases: Vec::new(),
            }),
            ["case", name, ref numbers @ ..] if numbers.len() == times.ways.len() => {
                let numbers: Result<Vec<f64>, _> =
                    numbers.iter().map(|number| number.parse()).collect();
                times.panels.last_mut()?.cases.push(Case {
                    name: name.to_string(),
                    times: numbers.ok()?,
                });
            }
            _ => return None,
        }
    }
    Some(times)
}

impl Panel {
    fn case_height(&self) -> f64 {
        let ways = self.cases.first().map_or(0, |case| case.times.len());
        ways as f64 * BAR + BETWEEN
    }

    fn height(&self) -> f64 {
        PANEL_HEAD + self.cases.len() as f64 * self.case_height() + PANEL_FOOT
    }

    /// The distance of the lines: 1, 2 or 5 times a power of ten, at most four
    /// of them up to the greatest time.
    fn step(&self) -> f64 {
        let times = self.cases.iter().flat_map(|case| &case.times);
        let most = times.copied().fold(0.001, f64::max);
        let power = 10f64.powf((most / 4.0).log10().floor());
        let fitting = [1.0, 2.0, 5.0].map(|factor| factor * power);
        let first = fitting.into_iter().find(|step| most / step <= 4.0);
        first.unwrap_or(10.0 * power)
    }
}

fn picture(times: &Times, title: &str, date: &str) -> String {
    let heights: Vec<f64> = times.panels.iter().map(Panel::height).collect();
    let first = split(&heights);
    let columns = [&heights[..first], &heights[first..]].map(|part| part.iter().sum::<f64>());
    let height = HEAD + columns[0].max(columns[1]) + MARGIN;
    let count = if first < heights.len() { 2.0 } else { 1.0 };
    let width = 2.0 * MARGIN + count * COLUMN;
    let mut svg = format!(
        "<svg xmlns=\"http://www.w3.org/2000/svg\" viewBox=\"0 0 {width} {height}\" width=\"{width}\" \
         role=\"img\" font-family=\"sans-serif\" font-size=\"11\" fill=\"#222\">\n\
         <title>{0}, {date}</title>\n\
         <rect width=\"{width}\" height=\"{height}\" fill=\"#fff\"/>\n\
         <text x=\"{MARGIN}\" y=\"32\" font-size=\"17\" font-weight=\"bold\">{0}</text>\n",
        escaped(title)
    );
    svg += &at(width - MARGIN, 32.0, "end", date);
    svg += &legend(&times.ways);
    let (mut x, mut y) = (MARGIN, HEAD);
    for (place, panel) in times.panels.iter().enumerate() {
        if place == first {
            (x, y) = (MARGIN + COLUMN, HEAD);
        }
        svg += &drawn(panel, x, y);
        y += heights[place];
    }
    svg + "</svg>\n"
}

/// How many panels stand in the first column, so that the longer one is short.
/// Fewer than three stand below each other.
fn split(heights: &[f64]) -> usize {
    let longer = |first: &usize| {
        let (left, right) = heights.split_at(*first);
        left.iter().sum::<f64>().max(right.iter().sum())
    };
    let places = 1..=heights.len();
    match heights.len() {
        0..3 => heights.len(),
        _ => places
            .min_by(|a, b| longer(a).total_cmp(&longer(b)))
            .unwrap(),
    }
}

fn legend(ways: &[String]) -> String {
    let mut svg = String::new();
    let mut x = MARGIN;
    for (way, colour) in ways.iter().zip(COLOURS) {
        let _ = writeln!(
            svg,
            "<rect x=\"{x}\" y=\"49\" width=\"12\" height=\"12\" fill=\"{colour}\"/>"
        );
        svg += &at(x + 17.0, 59.0, "start", way);
        x += 45.0 + 6.5 * way.len() as f64;
    }
    svg
}

fn drawn(panel: &Panel, x: f64, y: f64) -> String {
    let zero = x + NAMES;
    let (step, height) = (panel.step(), panel.case_height());
    let scale = BARS / (4.0 * step);
    let top = y + PANEL_HEAD - BETWEEN / 2.0;
    let bottom = top + panel.cases.len() as f64 * height;
    let mut svg = format!(
        "<text x=\"{x}\" y=\"{:.1}\" font-size=\"12\" font-weight=\"bold\">{}</text>\n",
        y + 12.0,
        escaped(&panel.title)
    );
    for line in 0..=4 {
        let place = zero + f64::from(line) * step * scale;
        let _ = writeln!(
            svg,
            "<path d=\"M{place:.1} {top:.1}V{bottom:.1}\" stroke=\"#ddd\"/>"
        );
        let label = number(f64::from(line) * step);
        let label = label.strip_suffix(".0").unwrap_or(&label);
        svg += &at(place, bottom + 12.0, "middle", label);
    }
    for (place, case) in panel.cases.iter().enumerate() {
        let start = top + place as f64 * height + BETWEEN / 2.0;
        svg += &at(zero - 8.0, start + height / 2.0, "end", &case.name);
        svg += &bars(case, zero, start, scale);
    }
    svg
}

fn bars(case: &Case, zero: f64, start: f64, scale: f64) -> String {
    let mut svg = String::new();
    for (way, time) in case.times.iter().enumerate() {
        let (y, length) = (start + way as f64 * BAR, time * scale);
        let _ = writeln!(
            svg,
            "<rect x=\"{zero}\" y=\"{y:.1}\" width=\"{length:.1}\" height=\"{:.1}\" fill=\"{}\"/>\n\
             <text x=\"{:.1}\" y=\"{:.1}\" font-size=\"8.5\">{}</text>",
            BAR - 1.0,
            COLOURS[way],
            zero + length + 4.0,
            y + BAR - 2.0,
            number(*time)
        );
    }
    svg
}

fn at(x: f64, y: f64, anchor: &str, text: &str) -> String {
    let text = escaped(text);
    format!("<text x=\"{x:.1}\" y=\"{y:.1}\" text-anchor=\"{anchor}\">{text}</text>\n")
}

/// Below 100 with one digit after the point, else in groups of three digits.
fn number(value: f64) -> String {
    if value < 100.0 {
        return format!("{value:.1}");
    }
    let digits = format!("{value:.0}");
    let mut text = String::new();
    for (place, digit) in digits.chars().enumerate() {
        if place != 0 && (digits.len() - place) % 3 == 0 {
            text.push(',');
        }
        text.push(digit);
    }
    text
}

fn escaped(text: &str) -> String {
    text.replace('&', "&amp;").replace('<', "&lt;")
}
