//! One panel of the picture: lines over the number of segments, both axes by powers.

use crate::markdown::thousands;
use crate::marks::Mark;

/// The outer width of a panel, the height of what is drawn in it, and its margins.
pub const WIDTH: f64 = 410.0;
const PLOT: f64 = 160.0;
const LEFT: f64 = 92.0;
const RIGHT: f64 = 22.0;
const ABOVE: f64 = 32.0;
const BELOW: f64 = 52.0;

/// The height of a line of the legend.
const LEGEND: f64 = 17.0;

/// What is drawn from size to size.
pub struct Line {
    pub name: &'static str,
    pub style: (&'static str, Mark),
    pub points: Vec<(usize, f64)>,
}

pub struct Panel {
    pub title: String,
    pub sizes: [usize; 3],
    pub lines: Vec<Line>,
    /// How many lines are kept for a legend of its own; none where the picture has one for all.
    pub legend: usize,
    /// Whether a dashed line shows what grows with the number of segments.
    pub guide: bool,
}

/// The powers of ten that a panel reaches from and to.
struct Scale {
    low: i32,
    high: i32,
    above: f64,
}

impl Scale {
    fn y(&self, nanoseconds: f64) -> f64 {
        let share =
            (nanoseconds.max(1.0).log10() - f64::from(self.low)) / f64::from(self.high - self.low);
        self.above + PLOT - share * PLOT
    }
}

impl Panel {
    /// How high a panel is with so many lines of legend.
    pub fn height(legend: usize) -> f64 {
        ABOVE + LEGEND * legend as f64 + PLOT + BELOW
    }

    fn scale(&self) -> Scale {
        let all = || self.lines.iter().flat_map(|line| &line.points);
        let least = all().map(|point| point.1).fold(f64::MAX, f64::min);
        let most = all().map(|point| point.1).fold(1.0, f64::max);
        let low = least.clamp(1.0, most).log10().floor() as i32;
        let shortest = if self.guide { 2 } else { 1 };
        Scale {
            low,
            high: (most.log10().ceil() as i32).max(low + shortest),
            above: ABOVE + LEGEND * self.legend as f64,
        }
    }

    fn x(&self, size: usize) -> f64 {
        let [first, _, last] = self.sizes.map(|size| (size as f64).ln());
        LEFT + ((size as f64).ln() - first) / (last - first) * (WIDTH - LEFT - RIGHT)
    }

    pub fn drawn(&self) -> String {
        let scale = self.scale();
        let mut svg = text(LEFT, 20.0, "start", "font-weight=\"bold\"", &self.title);
        svg += &self.axes(&scale);
        if self.legend > 0 {
            svg += &self.own_legend();
        }
        if self.guide {
            svg += &self.drawn_guide(&scale);
        }
        for line in &self.lines {
            svg += &self.curve(&scale, line);
        }
        svg
    }

    /// The axes with their numbers and their names.
    fn axes(&self, scale: &Scale) -> String {
        let mut svg = String::new();
        for power in scale.low..=scale.high {
            let y = scale.y(10f64.powi(power));
            let label = thousands(10usize.pow(power as u32));
            let right = WIDTH - RIGHT;
            svg += &format!("<path d=\"M{LEFT} {y:.1}H{right}\" stroke=\"#dddddd\"/>\n");
            svg += &text(LEFT - 8.0, y + 4.0, "end", "", &label);
        }
        let bottom = scale.above + PLOT;
        for size in self.sizes {
            let x = self.x(size);
            svg += &format!("<path d=\"M{x:.1} {bottom}v4\" stroke=\"#888888\"/>\n");
            svg += &text(x, bottom + 18.0, "middle", "", &thousands(size));
        }
        let (middle, quiet) = ((LEFT + WIDTH - RIGHT) / 2.0, "fill=\"#555555\"");
        svg += &text(
            middle,
            bottom + 36.0,
            "middle",
            quiet,
            "segments in the table",
        );
        let upright = format!(
            "{quiet} transform=\"rotate(-90 16 {0})\"",
            bottom - PLOT / 2.0
        );
        svg + &text(16.0, bottom - PLOT / 2.0, "middle", &upright, "nanoseconds")
    }

    fn own_legend(&self) -> String {
        let lines = self.lines.iter().enumerate();
        let entries = lines.map(|(index, line)| {
            let y = ABOVE + LEGEND * index as f64 + 2.0;
            entry(LEFT, y, line.style, line.name)
        });
        entries.collect()
    }

    /// From the lower left corner, growing with the number of segments.
    fn drawn_guide(&self, scale: &Scale) -> String {
        let [first, _, last] = self.sizes;
        let start = 10f64.powi(scale.low);
        let (x1, y1) = (self.x(first), scale.y(start));
        let (x2, y2) = (self.x(last), scale.y(start * last as f64 / first as f64));
        let style = "stroke=\"#999999\" stroke-dasharray=\"5 4\"";
        format!("<path d=\"M{x1:.1} {y1:.1}L{x2:.1} {y2:.1}\" {style}/>\n")
    }

    fn curve(&self, scale: &Scale, line: &Line) -> String {
        let (colour, mark) = line.style;
        let at = |&(size, nanoseconds): &(usize, f64)| (self.x(size), scale.y(nanoseconds));
        let points: Vec<(f64, f64)> = line.points.iter().map(at).collect();
        let corners = points.iter().map(|(x, y)| format!("{x:.1},{y:.1}"));
        let corners = corners.collect::<Vec<String>>().join(" ");
        let style = format!("fill=\"none\" stroke=\"{colour}\" stroke-width=\"2\"");
        let marks = points.iter().map(|&(x, y)| mark.at(x, y, colour));
        format!("<polyline points=\"{corners}\" {style}/>\n") + &marks.collect::<String>()
    }
}

/// A line of a legend: stroke, mark and name.
pub fn entry(x: f64, y: f64, (colour, mark): (&str, Mark), name: &str) -> String {
    let right = x + 28.0;
    let stroke = format!("stroke=\"{colour}\" stroke-width=\"2\"");
    format!("<path d=\"M{x} {y}H{right}\" {stroke}/>\n")
        + &mark.at(x + 14.0, y, colour)
        + &text(x + 36.0, y + 4.0, "start", "", name)
}

pub fn text(x: f64, y: f64, anchor: &str, style: &str, words: &str) -> String {
    format!("<text x=\"{x:.1}\" y=\"{y:.1}\" text-anchor=\"{anchor}\" {style}>{words}</text>\n")
}
