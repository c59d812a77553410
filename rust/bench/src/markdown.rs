//! Tables and numbers in Markdown.

/// A table; the first row is its head, numbers stand right.
pub fn aligned(rows: &[Vec<String>]) -> String {
    let width = |column: usize| {
        let cells = rows.iter().map(|row| row[column].chars().count());
        cells.max().unwrap_or(0).max(3)
    };
    let widths: Vec<usize> = (0..rows[0].len()).map(width).collect();
    let mut text = String::new();
    for (index, row) in rows.iter().enumerate() {
        text += &line(row, &widths);
        if index == 0 {
            let rule = |column: usize| match column {
                0 => "-".repeat(widths[0]),
                _ => "-".repeat(widths[column] - 1) + ":",
            };
            let rules: Vec<String> = (0..widths.len()).map(rule).collect();
            text += &line(&rules, &widths);
        }
    }
    text
}

fn line(row: &[String], widths: &[usize]) -> String {
    let cells = row.iter().zip(widths).enumerate();
    let padded = cells.map(|(column, (cell, &width))| match column {
        0 => format!("| {cell:width$} "),
        _ => format!("| {cell:>width$} "),
    });
    padded.collect::<String>() + "|\n"
}

/// Three digits or so.
pub fn rounded(number: f64) -> String {
    match number {
        _ if number < 0.1 => format!("{number:.3}"),
        _ if number < 1.0 => format!("{number:.2}"),
        _ if number < 100.0 => format!("{number:.1}"),
        _ => thousands(number.round() as usize),
    }
}

/// As that, and a digit more where it is small.
pub fn precise(number: f64) -> String {
    match number {
        _ if (1.0..10.0).contains(&number) => format!("{number:.2}"),
        _ if number < 1.0 => format!("{number:.3}"),
        _ => rounded(number),
    }
}

/// With a comma before every third digit from the right.
pub fn thousands(number: usize) -> String {
    let digits = number.to_string();
    let mut text = String::new();
    for (index, digit) in digits.chars().enumerate() {
        if index > 0 && (digits.len() - index).is_multiple_of(3) {
            text.push(',');
        }
        text.push(digit);
    }
    text
}
