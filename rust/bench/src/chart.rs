//! The picture: cost against size, a panel for each operation on the samples, and below them the worst tables.

use crate::contenders::{ALL, STORE};
use crate::figures::Run;
use crate::marks::{Mark, STYLES};
use crate::panel::{entry, text, Line, Panel, WIDTH};
use crate::shapes;
use crate::work::Operation;
use crate::worst::Row;
use crate::SIZES;

const COLUMNS: usize = 2;

/// What stands above the panels: a heading and a line, and a legend above those that share one.
const HEAD: f64 = 60.0;
const LEGEND: f64 = 44.0;

/// The rows of the worst tables that share a panel.
const TOGETHER: [(&str, &[Row]); 5] = [
    (
        "one root with n − 1 children, a step",
        &[Row::ChildrenNext, Row::ChildrenWithin, Row::ChildrenTested],
    ),
    (
        "reports, whole",
        &[
            Row::ChildrenPlain,
            Row::ParentsNested,
            Row::PathsPlain,
            Row::DeepJoined,
        ],
    ),
    (
        "fifteen levels, a call or a step",
        &[Row::PathsUnique, Row::DeepWithin, Row::DeepTested],
    ),
    (
        "twins, a pair or a step",
        &[
            Row::TwinsInsert,
            Row::TwinsNext,
            Row::PackedInsert,
            Row::PackedNext,
        ],
    ),
    ("checks, whole", &[Row::PathsCheck, Row::TypesCheck]),
];

/// benchmark.svg.
pub fn chart(run: &Run) -> String {
    let (samples, worst) = (samples(run), worst(run));
    let width = WIDTH * COLUMNS as f64;
    let first = HEAD + LEGEND + height(&samples);
    let height = first + HEAD + height(&worst);
    let head = format!(
        "<svg xmlns=\"http://www.w3.org/2000/svg\" viewBox=\"0 0 {width} {height}\" \
         font-family=\"sans-serif\" font-size=\"12\">\n\
         <rect width=\"{width}\" height=\"{height}\" fill=\"white\"/>\n"
    );
    let parts = [
        heading("What a segment, a hit or a call costs", EVERYBODY),
        everybody(),
        placed(&samples, HEAD + LEGEND),
        format!("<g transform=\"translate(0 {first})\">\n"),
        heading("What the store costs on the worst tables", GROWTH),
        placed(&worst, HEAD),
        "</g>\n".to_string(),
    ];
    head + &parts.concat() + "</svg>\n"
}

const EVERYBODY: &str = "Both axes are logarithmic. Lower is faster.";
const GROWTH: &str = "Both axes are logarithmic. Dashed: grows with the number of segments. \
                      A step should be flat, a report that steep.";

fn heading(words: &str, below: &str) -> String {
    let large = "font-size=\"16\" font-weight=\"bold\"";
    text(20.0, 26.0, "start", large, words) + &text(20.0, 46.0, "start", "", below)
}

/// The legend of everybody who is compared.
fn everybody() -> String {
    let entries = ALL.iter().enumerate();
    entries
        .map(|(index, name)| {
            let (column, row) = ((index % 4) as f64, (index / 4) as f64);
            let (x, y) = (20.0 + 200.0 * column, 68.0 + 20.0 * row);
            entry(x, y, STYLES[index], name)
        })
        .collect()
}

/// A panel for each operation, with a line for everybody who offers it.
fn samples(run: &Run) -> Vec<Panel> {
    let panel = |operation: Operation| Panel {
        title: operation.title().to_string(),
        sizes: SIZES,
        lines: lines(&ALL, SIZES, |name, size| {
            run.sample.of(operation, size, name)
        }),
        legend: 0,
        guide: false,
    };
    Operation::ALL.into_iter().map(panel).collect()
}

/// A panel for each group of rows, with a line for each row.
fn worst(run: &Run) -> Vec<Panel> {
    let panel = |(title, rows): (&str, &[Row])| {
        let names: Vec<&str> = rows.iter().map(|row| row.name()).collect();
        let of = |name: &str, size: usize| {
            let row = rows.iter().find(|row| row.name() == name)?;
            run.worst.of(*row, size, STORE)
        };
        Panel {
            title: title.to_string(),
            sizes: shapes::SIZES,
            lines: lines(&names, shapes::SIZES, of),
            legend: 4,
            guide: true,
        }
    };
    TOGETHER.into_iter().map(panel).collect()
}

/// A line through what was measured under each name.
fn lines(
    names: &[&'static str],
    sizes: [usize; 3],
    of: impl Fn(&str, usize) -> Option<f64>,
) -> Vec<Line> {
    let line = |(name, style): (&&'static str, (&'static str, Mark))| {
        let points = sizes
            .iter()
            .filter_map(|&size| Some((size, of(name, size)?)));
        Line {
            name,
            style,
            points: points.collect(),
        }
    };
    let all = names.iter().zip(STYLES).map(line);
    all.filter(|line| !line.points.is_empty()).collect()
}

/// The panels side by side, from this height down.
fn placed(panels: &[Panel], from: f64) -> String {
    let place = |(index, panel): (usize, &Panel)| {
        let x = WIDTH * (index % COLUMNS) as f64;
        let y = from + Panel::height(panel.legend) * (index / COLUMNS) as f64;
        let drawn = panel.drawn();
        format!("<g transform=\"translate({x} {y})\">\n{drawn}</g>\n")
    };
    panels.iter().enumerate().map(place).collect()
}

/// How high the panels are together.
fn height(panels: &[Panel]) -> f64 {
    Panel::height(panels[0].legend) * panels.len().div_ceil(COLUMNS) as f64
}
