//! Tables in Markdown.

use std::fmt::Write;

/// A new table's head.
pub fn head(text: &mut String, titles: &[&str]) {
    writeln!(text, "\n| {} |", titles.join(" | ")).unwrap();
    writeln!(text, "|{}", "---|".repeat(titles.len())).unwrap();
}

pub fn row(text: &mut String, name: &str, cells: &[String]) {
    writeln!(text, "| {name} | {} |", cells.join(" | ")).unwrap();
}

/// Decimal digits in groups of three.
pub fn grouped(count: u64) -> String {
    let digits = count.to_string();
    let mut text = String::new();
    for (place, digit) in digits.char_indices() {
        if place != 0 && (digits.len() - place).is_multiple_of(3) {
            text.push(',');
        }
        text.push(digit);
    }
    text
}
