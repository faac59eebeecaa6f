//! A growth series as an SVG picture: a panel for each line, both axes logarithmic and the same in
//! all panels.
use std::fmt::Write;

const ACROSS: usize = 3;
const WIDTH: f64 = 250.0;
const HEIGHT: f64 = 210.0;
const LEFT: f64 = 62.0;
const TOP: f64 = 72.0;
const GAP_X: f64 = 34.0;
const GAP_Y: f64 = 54.0;
const BOTTOM: f64 = 58.0;
/// Left and right in a panel, in decades.
const MARGIN: f64 = 0.08;

/// Name, colour and dashes, in the order of the file's columns.
const CURVES: [(&str, &str, &str); 3] =
    [("crate", "#c2410c", "6 3"), ("ours", "#1d4ed8", "none"), ("plain copy", "#6b7280", "1.5 3")];

/// A line's name, and per size the joined rows, or the segments, and the three times.
type Panel = (String, Vec<(f64, [f64; 3])>);

/// Least and greatest, as logarithms.
struct Axes {
    x: (f64, f64),
    y: (f64, f64),
}

/// The picture of what `growth` or `segments` prints.
pub fn plot(csv: &str) -> Result<String, String> {
    let panels = read(csv)?;
    let by = csv.split(',').nth(2).unwrap_or_default().replace('_', " ");
    let axes = axes(&panels);
    let rows = panels.len().div_ceil(ACROSS);
    let across = panels.len().clamp(2, ACROSS);
    let width = LEFT + across as f64 * (WIDTH + GAP_X) - GAP_X + 24.0;
    let height = TOP + rows as f64 * (HEIGHT + GAP_Y) - GAP_Y + BOTTOM;
    let mut svg = format!(
        "<svg xmlns=\"http://www.w3.org/2000/svg\" viewBox=\"0 0 {width} {height}\" width=\"{width}\" \
         height=\"{height}\" font-family=\"sans-serif\" font-size=\"12\" fill=\"#111827\">\n\
         <rect width=\"{width}\" height=\"{height}\" fill=\"#ffffff\"/>\n"
    );
    let title = format!("ns per joined row, by number of {by}");
    text(&mut svg, (LEFT, 22.0), "start", "font-size=\"15\"", &title);
    legend(&mut svg);
    for (i, panel) in panels.iter().enumerate() {
        let at = (LEFT + (i % ACROSS) as f64 * (WIDTH + GAP_X), TOP + (i / ACROSS) as f64 * (HEIGHT + GAP_Y));
        draw_panel(&mut svg, panel, &axes, at, i % ACROSS == 0);
    }
    let middle = LEFT + (width - LEFT - 24.0) / 2.0;
    text(&mut svg, (middle, height - 14.0), "middle", "", &by);
    let turned = format!("transform=\"rotate(-90 16 {0})\"", height / 2.0);
    text(&mut svg, (16.0, height / 2.0), "middle", &turned, "ns per joined row");
    svg.push_str("</svg>\n");
    Ok(svg)
}

fn read(csv: &str) -> Result<Vec<Panel>, String> {
    let mut panels: Vec<Panel> = Vec::new();
    for line in csv.lines().skip(1) {
        let fields: Vec<&str> = line.split(',').collect();
        let [column, order, numbers @ ..] = &fields[..] else { return Err(format!("no point: {line}")) };
        let numbers: Vec<f64> = numbers.iter().filter_map(|n| n.parse().ok()).filter(|&n| n > 0.0).collect();
        let [rows, theirs, ours, copy] = numbers[..] else { return Err(format!("no point: {line}")) };
        let name = format!("{column}, {order}");
        if panels.last().is_none_or(|panel| panel.0 != name) {
            panels.push((name, Vec::new()));
        }
        panels.last_mut().unwrap().1.push((rows, [theirs, ours, copy]));
    }
    match panels.is_empty() {
        true => Err("no points".into()),
        false => Ok(panels),
    }
}

fn axes(panels: &[Panel]) -> Axes {
    let points = || panels.iter().flat_map(|panel| &panel.1);
    let (mut x, mut y) = ((f64::MAX, f64::MIN), (f64::MAX, f64::MIN));
    for (rows, times) in points() {
        x = (x.0.min(rows.log10()), x.1.max(rows.log10()));
        for time in times {
            y = (y.0.min(time.log10()), y.1.max(time.log10()));
        }
    }
    // a tenth of withdrawn rows, or rounded sizes, is no reason for another decade
    let whole = |(low, high): (f64, f64)| {
        let (low, high) = ((low + 0.06).floor(), (high - 0.01).ceil());
        (low, high.max(low + 1.0))
    };
    let (x, y) = (whole(x), whole(y));
    Axes { x: (x.0 - MARGIN, x.1 + MARGIN), y }
}

/// The powers of ten on an axis.
fn powers((low, high): (f64, f64)) -> std::ops::RangeInclusive<i32> {
    low.ceil() as i32..=high.floor() as i32
}

impl Axes {
    fn x(&self, rows: f64) -> f64 {
        (rows.log10() - self.x.0) / (self.x.1 - self.x.0) * WIDTH
    }
    fn y(&self, time: f64) -> f64 {
        HEIGHT - (time.log10() - self.y.0) / (self.y.1 - self.y.0) * HEIGHT
    }
}

fn text(svg: &mut String, (x, y): (f64, f64), anchor: &str, more: &str, words: &str) {
    writeln!(svg, "<text x=\"{x:.1}\" y=\"{y:.1}\" text-anchor=\"{anchor}\" {more}>{words}</text>").unwrap();
}

fn segment(svg: &mut String, from: (f64, f64), to: (f64, f64), style: &str) {
    let ((x1, y1), (x2, y2)) = (from, to);
    writeln!(svg, "<line x1=\"{x1:.1}\" y1=\"{y1:.1}\" x2=\"{x2:.1}\" y2=\"{y2:.1}\" {style}/>").unwrap();
}

fn legend(svg: &mut String) {
    let mut x = LEFT;
    for (name, colour, dashes) in CURVES {
        let style = format!("stroke=\"{colour}\" stroke-width=\"2\" stroke-dasharray=\"{dashes}\"");
        segment(svg, (x, 40.0), (x + 32.0, 40.0), &style);
        text(svg, (x + 38.0, 44.0), "start", "", name);
        x += 110.0;
    }
}

fn draw_panel(svg: &mut String, panel: &Panel, axes: &Axes, at: (f64, f64), first: bool) {
    writeln!(svg, "<g transform=\"translate({:.1} {:.1})\">", at.0, at.1).unwrap();
    text(svg, (0.0, -8.0), "start", "font-weight=\"bold\"", &panel.0);
    grid(svg, axes, first);
    for (i, (_, colour, dashes)) in CURVES.iter().enumerate() {
        let mut points = String::new();
        for (rows, times) in &panel.1 {
            let (x, y) = (axes.x(*rows), axes.y(times[i]));
            write!(points, "{x:.1},{y:.1} ").unwrap();
            writeln!(svg, "<circle cx=\"{x:.1}\" cy=\"{y:.1}\" r=\"2.2\" fill=\"{colour}\"/>").unwrap();
        }
        let style =
            format!("fill=\"none\" stroke=\"{colour}\" stroke-width=\"2\" stroke-dasharray=\"{dashes}\"");
        writeln!(svg, "<polyline points=\"{}\" {style}/>", points.trim_end()).unwrap();
    }
    svg.push_str("</g>\n");
}

/// Frame, a line for each power of ten, and short ticks at 2 to 9 times each.
fn grid(svg: &mut String, axes: &Axes, first: bool) {
    let (fine, frame) = ("stroke=\"#e5e7eb\"", "stroke=\"#6b7280\"");
    for power in powers(axes.x) {
        let x = axes.x(10f64.powi(power));
        segment(svg, (x, 0.0), (x, HEIGHT), fine);
        segment(svg, (x, HEIGHT), (x, HEIGHT + 5.0), frame);
        power_of_ten(svg, (x, HEIGHT + 19.0), "middle", power);
    }
    for power in powers(axes.y) {
        let y = axes.y(10f64.powi(power));
        segment(svg, (0.0, y), (WIDTH, y), fine);
        segment(svg, (-5.0, y), (0.0, y), frame);
        if first {
            text(svg, (-9.0, y + 4.0), "end", "", &plain_power(power));
        }
    }
    small_ticks(svg, axes, frame);
    writeln!(svg, "<rect width=\"{WIDTH}\" height=\"{HEIGHT}\" fill=\"none\" {frame}/>").unwrap();
}

fn small_ticks(svg: &mut String, axes: &Axes, style: &str) {
    for times in 2..10 {
        for power in powers(axes.x).skip(1) {
            let x = axes.x(times as f64 * 10f64.powi(power - 1));
            segment(svg, (x, HEIGHT), (x, HEIGHT + 2.5), style);
        }
        for power in powers(axes.y).skip(1) {
            let y = axes.y(times as f64 * 10f64.powi(power - 1));
            segment(svg, (-2.5, y), (0.0, y), style);
        }
    }
}

fn power_of_ten(svg: &mut String, at: (f64, f64), anchor: &str, power: i32) {
    text(svg, at, anchor, "", &format!("10<tspan dy=\"-5\" font-size=\"9\">{power}</tspan>"));
}

/// 0.01, 0.1, 1, 10, ..
fn plain_power(power: i32) -> String {
    format!("{:.*}", (-power).max(0) as usize, 10f64.powi(power))
}
