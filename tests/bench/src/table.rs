//! Tables in Markdown.

pub fn heading(title: &str, columns: &[&str]) {
    println!("\n{title}\n");
    row(columns.iter().map(|column| column.to_string()));
    println!("|{}", "---|".repeat(columns.len()));
}

pub fn row(cells: impl IntoIterator<Item = String>) {
    let cells: Vec<String> = cells.into_iter().collect();
    println!("| {} |", cells.join(" | "));
}

/// Three digits or more.
pub fn number(value: f64) -> String {
    match value {
        v if v < 0.1 => format!("{v:.4}"),
        v if v < 1.0 => format!("{v:.3}"),
        v if v < 10.0 => format!("{v:.2}"),
        v if v < 100.0 => format!("{v:.1}"),
        v => grouped(v.round() as usize),
    }
}

pub fn ratio(ours: f64, other: f64) -> String {
    match ours / other {
        r if r < 10.0 => format!("{r:.2}"),
        r if r < 100.0 => format!("{r:.1}"),
        r => grouped(r.round() as usize),
    }
}

/// With a comma before each three digits.
pub fn grouped(value: usize) -> String {
    match value {
        0..=999 => value.to_string(),
        _ => format!("{},{:03}", grouped(value / 1_000), value % 1_000),
    }
}
