//! The table: ratios first, then rates, then the bars that a row does not reach.

use crate::measure::Times;

/// Rates in MB/s (a million bytes) are of the bytes read.
pub fn rate(bytes: usize, seconds: f64) -> f64 {
    bytes as f64 / seconds / 1e6
}

/// A row's bar: the library's rate over another's has to be at least this.
pub struct Bar {
    pub of: &'static str,
    pub ratio: f64,
    pub least: f64,
}

#[derive(Default)]
pub struct Counts {
    pub rows: usize,
    pub below: usize,
    pub differ: usize,
    /// Rows below encoding_rs, of those that aim at it.
    pub below_aim: usize,
    pub aiming: usize,
}

impl Counts {
    /// The last column: what is below a bar, and what differs.
    pub fn remarks(&mut self, bars: &[Bar], notes: &[String], differ: bool) -> String {
        let mut remarks: Vec<String> = bars
            .iter()
            .filter(|bar| bar.ratio < bar.least)
            .map(|bar| format!("below {:.1} of {}", bar.least, bar.of))
            .collect();
        self.rows += 1;
        self.below += usize::from(!remarks.is_empty());
        self.differ += usize::from(differ);
        remarks.extend_from_slice(notes);
        remarks.join("; ")
    }

    /// A row that aims at encoding_rs's rate.
    pub fn aim(&mut self, ratio: f64) {
        self.aiming += 1;
        self.below_aim += usize::from(ratio < 1.0);
    }

    /// A figure with a limit of its own.
    pub fn limit(&mut self, kept: bool, remark: &'static str) -> &'static str {
        self.rows += 1;
        self.below += usize::from(!kept);
        if kept {
            ""
        } else {
            remark
        }
    }
}

fn optional(number: Option<f64>, digits: usize) -> String {
    match number {
        Some(number) => format!("{number:.digits$}"),
        None => "-".to_string(),
    }
}

/// A row of rates: ours first, then the others, each with its own bytes.
pub fn row(name: &str, bytes: usize, times: &[Option<Times>; 4], remarks: &str) {
    let mut line = format!("{name:<24}");
    for other in &times[1..] {
        let ratio = other.map(|other| other.ratio);
        line += &format!(" {:>7}", optional(ratio, 2));
    }
    line += " |";
    for times in times {
        let rate = times.map(|times| rate(bytes, times.least));
        line += &format!(" {:>7}", optional(rate, 0));
    }
    line += " |";
    for times in times {
        let rate = times.map(|times| rate(bytes, times.median));
        line += &format!(" {:>7}", optional(rate, 0));
    }
    println!("{line} | {remarks}");
}

pub fn head(title: &str) {
    println!();
    println!("{title}");
    println!(
        "{:<24} {:^23} | {:^31} | {:^31} |",
        "", "ratio ours/other", "MB/s, best round", "MB/s, median round"
    );
    println!(
        "{:<24} {:>7} {:>7} {:>7} | {:>7} {:>7} {:>7} {:>7} | {:>7} {:>7} {:>7} {:>7} | below a bar; differences",
        "input", "simple", "iconv", "enc_rs", "ours", "simple", "iconv", "enc_rs", "ours",
        "simple", "iconv", "enc_rs"
    );
}
