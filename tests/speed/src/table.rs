// Prints medians and spreads of several rounds in columns that line up.

use std::time::Duration;

pub struct Row {
    name: String,
    lines: usize,
    rust: Vec<f64>,
    ours: Vec<f64>,
}

/// The middle one, and the least and greatest, of an odd or even number of figures.
fn median_and_spread(figures: &[f64]) -> (f64, f64, f64) {
    let mut sorted = figures.to_vec();
    sorted.sort_by(f64::total_cmp);
    let middle = sorted.len() / 2;
    let median = (sorted[middle] + sorted[(sorted.len() - 1) / 2]) / 2.0;
    (median, sorted[0], sorted[sorted.len() - 1])
}

fn cell(figures: &[f64], places: usize) -> String {
    let (median, least, greatest) = median_and_spread(figures);
    format!(
        "{median:8.places$} {:>17}",
        format!("{least:.places$}..{greatest:.places$}")
    )
}

const ABSENT: &str = "       -                 -";

pub fn print_heading() {
    let (rust, ours) = ("Rust, ns a line", "ours, ns a line");
    println!("\nprocessor time");
    println!("{:<26} {:>7}  {rust:<26}  {ours:<26}  ours / Rust", "", "lines");
    let columns = format!("{:>8} {:>17}", "median", "least..greatest");
    println!("{:<26} {:>7}  {columns}  {columns}  {columns}", "", "");
}

impl Row {
    pub fn new(name: &str, lines: usize) -> Row {
        Row {
            name: name.to_string(),
            lines,
            rust: Vec::new(),
            ours: Vec::new(),
        }
    }

    pub fn add(&mut self, rust: Duration, ours: Duration) {
        let each = |time: Duration| time.as_secs_f64() * 1e9 / self.lines.max(1) as f64;
        self.rust.push(each(rust));
        self.ours.push(each(ours));
    }

    pub fn print(&self) {
        let ratios: Vec<f64> = self
            .ours
            .iter()
            .zip(&self.rust)
            .map(|(ours, rust)| ours / rust)
            .collect();
        let present = crate::ours::PRESENT;
        let ours = if present {
            cell(&self.ours, 0)
        } else {
            ABSENT.to_string()
        };
        let ratio = if present {
            cell(&ratios, 3)
        } else {
            ABSENT.to_string()
        };
        println!(
            "{:<26} {:>7}  {}  {ours}  {ratio}",
            self.name,
            self.lines,
            cell(&self.rust, 0)
        );
    }
}
