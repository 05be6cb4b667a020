//! Lines over two logarithmic axes, drawn as SVG.

use std::fmt::Write;
use std::path::Path;

const WIDTH: f64 = 470.0;
const HEIGHT: f64 = 330.0;
/// Around a panel's axes: left, right, above, below.
const MARGIN: (f64, f64, f64, f64) = (62.0, 118.0, 34.0, 44.0);
/// Told apart by people who do not see all colours, and in grey.
const COLOURS: [&str; 4] = ["#0072b2", "#d55e00", "#009e73", "#555555"];

/// One line: its name, which stands at its end or above it, and its points, x and nanoseconds.
pub struct Line {
    name: &'static str,
    above: bool,
    points: Vec<(f64, f64)>,
}

impl Line {
    pub fn new(name: &'static str) -> Self {
        Self {
            name,
            above: false,
            points: Vec::new(),
        }
    }

    /// With its name above the line's end, where another line starts behind it.
    pub fn named_above(self) -> Self {
        Self {
            above: true,
            ..self
        }
    }

    pub fn add(&mut self, x: f64, nanoseconds: f64) {
        println!("{}: {x} {nanoseconds:.0} ns", self.name);
        self.points.push((x, nanoseconds.max(1.0)));
    }
}

/// Lines over the same axes.
pub struct Panel {
    title: &'static str,
    unit: &'static str,
    lines: Vec<Line>,
}

/// The powers of ten that an axis goes from and to.
type Powers = (i32, i32);

impl Panel {
    /// `unit` is what x counts.
    pub fn new(title: &'static str, unit: &'static str) -> Self {
        Self {
            title,
            unit,
            lines: Vec::new(),
        }
    }

    pub fn add(&mut self, line: Line) {
        self.lines.push(line);
    }

    fn powers(&self, pick: impl Fn(&(f64, f64)) -> f64) -> Powers {
        let all = self.lines.iter().flat_map(|line| &line.points);
        let (low, high) = all.fold((f64::MAX, f64::MIN), |(low, high), point| {
            let power = pick(point).log10();
            (low.min(power), high.max(power))
        });
        (low.floor() as i32, high.ceil() as i32)
    }

    fn draw(&self, svg: &mut String, left: f64) -> std::fmt::Result {
        let (x, y) = (self.powers(|point| point.0), self.powers(|point| point.1));
        let (right, bottom) = (left + WIDTH - MARGIN.1, HEIGHT - MARGIN.3);
        let across = |power: f64| place(power, x, left + MARGIN.0, right);
        let up = |power: f64| place(power, y, bottom, MARGIN.2);
        let title = self.title;
        text(svg, left + MARGIN.0, 20.0, "start", title)?;
        for power in x.0..=x.1 {
            let at = across(power.into());
            grid(svg, (at, MARGIN.2), (at, bottom))?;
            text(svg, at, bottom + 16.0, "middle", &counted(power))?;
        }
        for power in y.0..=y.1 {
            let at = up(power.into());
            grid(svg, (left + MARGIN.0, at), (right, at))?;
            text(svg, left + MARGIN.0 - 6.0, at + 4.0, "end", &timed(power))?;
        }
        let middle = (left + MARGIN.0 + right) / 2.0;
        text(svg, middle, bottom + 34.0, "middle", self.unit)?;
        for (line, colour) in self.lines.iter().zip(COLOURS) {
            let places = line.points.iter();
            let places: Vec<_> = places
                .map(|(x, y)| (across(x.log10()), up(y.log10())))
                .collect();
            curve(svg, &places, colour)?;
            if let Some(&(x, y)) = places.last() {
                let (anchor, x, y) = match line.above {
                    true => ("end", x, y - 9.0),
                    false => ("start", x + 8.0, y + 4.0),
                };
                let style = format!("{anchor}\" fill=\"{colour}");
                text(svg, x, y, &style, line.name)?;
            }
        }
        Ok(())
    }
}

fn place(power: f64, (low, high): Powers, from: f64, to: f64) -> f64 {
    let part = (power - f64::from(low)) / f64::from((high - low).max(1));
    from + part * (to - from)
}

fn text(svg: &mut String, x: f64, y: f64, anchor: &str, words: &str) -> std::fmt::Result {
    writeln!(
        svg,
        "<text x=\"{x:.1}\" y=\"{y:.1}\" text-anchor=\"{anchor}\">{words}</text>"
    )
}

fn grid(svg: &mut String, from: (f64, f64), to: (f64, f64)) -> std::fmt::Result {
    writeln!(
        svg,
        "<path d=\"M{:.1} {:.1}L{:.1} {:.1}\" stroke=\"#ddd\"/>",
        from.0, from.1, to.0, to.1
    )
}

fn curve(svg: &mut String, places: &[(f64, f64)], colour: &str) -> std::fmt::Result {
    write!(
        svg,
        "<polyline fill=\"none\" stroke=\"{colour}\" stroke-width=\"2\" points=\""
    )?;
    for (x, y) in places {
        write!(svg, "{x:.1},{y:.1} ")?;
    }
    writeln!(svg, "\"/>")?;
    for (x, y) in places {
        writeln!(
            svg,
            "<circle cx=\"{x:.1}\" cy=\"{y:.1}\" r=\"2.5\" fill=\"{colour}\"/>"
        )?;
    }
    Ok(())
}

fn counted(power: i32) -> String {
    match power {
        9.. => format!("{} G", 10_u64.pow(power as u32 - 9)),
        6..=8 => format!("{} M", 10_u64.pow(power as u32 - 6)),
        3..=5 => format!("{} k", 10_u64.pow(power as u32 - 3)),
        _ => format!("{}", 10_u64.pow(power.max(0) as u32)),
    }
}

fn timed(power: i32) -> String {
    match power {
        9.. => format!("{} s", 10_u64.pow(power as u32 - 9)),
        6..=8 => format!("{} ms", 10_u64.pow(power as u32 - 6)),
        3..=5 => format!("{} µs", 10_u64.pow(power as u32 - 3)),
        _ => format!("{} ns", 10_u64.pow(power.max(0) as u32)),
    }
}

/// Panels side by side.
pub struct Drawing(String);

impl Drawing {
    pub fn of(panels: [Panel; 2]) -> Self {
        let width = WIDTH * 2.0;
        let mut svg = format!(
            "<svg xmlns=\"http://www.w3.org/2000/svg\" viewBox=\"0 0 {width} {HEIGHT}\" \
             font-family=\"sans-serif\" font-size=\"12\">\n\
             <rect width=\"{width}\" height=\"{HEIGHT}\" fill=\"white\"/>\n"
        );
        for (panel, index) in panels.iter().zip(0..) {
            let drawn = panel.draw(&mut svg, WIDTH * f64::from(index));
            drawn.expect("a string takes all");
        }
        svg.push_str("</svg>\n");
        Self(svg)
    }

    pub fn save(self, path: &Path) -> Result<(), String> {
        std::fs::write(path, self.0).map_err(|error| format!("{}: {error}", path.display()))
    }
}
