//! Marks that tell the lines of a picture apart without their colours.

/// The form of a mark.
#[derive(Clone, Copy)]
pub enum Mark {
    Circle,
    Square,
    Triangle,
    Hanging,
    Diamond,
    Cross,
    Plus,
}

/// A colour and a mark of its own for each line of a panel.
pub const STYLES: [(&str, Mark); 7] = [
    ("#1b6ca8", Mark::Circle),
    ("#128a83", Mark::Plus),
    ("#4d8f3f", Mark::Square),
    ("#c0661a", Mark::Triangle),
    ("#b3261e", Mark::Hanging),
    ("#8d4f9f", Mark::Diamond),
    ("#555555", Mark::Cross),
];

impl Mark {
    /// The mark around a point.
    pub fn at(self, x: f64, y: f64, colour: &str) -> String {
        let outline = match self {
            Mark::Circle => "m-4 0a4 4 0 1 0 8 0a4 4 0 1 0 -8 0z",
            Mark::Square => "m-3.5 -3.5h7v7h-7z",
            Mark::Triangle => "m0 -5l5 8.5h-10z",
            Mark::Hanging => "m0 5l5 -8.5h-10z",
            Mark::Diamond => "m0 -5.5l5.5 5.5l-5.5 5.5l-5.5 -5.5z",
            Mark::Cross => "m-4 -4l8 8m0 -8l-8 8",
            Mark::Plus => "m-5 0h10m-5 -5v10",
        };
        let fill = match self {
            Mark::Cross | Mark::Plus => "none",
            _ => colour,
        };
        let style = format!("fill=\"{fill}\" stroke=\"{colour}\" stroke-width=\"1.5\"");
        format!("<path d=\"M{x:.1} {y:.1}{outline}\" {style}/>\n")
    }
}
