//! Prints the measured rows as plain text or as Markdown tables.

use crate::batch::{Batch, TABLES};
use crate::rows::{Row, JOBS};
use crate::sides::ratios;

/// What the columns are and how they were measured, for the top of the output.
fn method(rounds: usize, verified: usize) -> String {
    format!(
        "plain: safe Rust as one would write it down from the rules, by the library's method.\n\
         tuned: safe Rust that may take another way: vector loops in open, four counts in one word in quote, no live records in search, blocks in \
         translate.\n\
         Times are ns a call, the median of {rounds} rounds of about 1 ms, or of one call where that takes longer; the three take turns. Before \
         this, {} tables gave the same answers, refusals and buffers on all sides.",
        grouped(verified as f64)
    )
}

pub struct Printer {
    pub markdown: bool,
    pub rounds: usize,
    pub verified: usize,
}

impl Printer {
    pub fn print(&self, rows: &[Row], batch: &Batch) {
        println!("{}", method(self.rounds, self.verified));
        let heads = ["job", "table", "library ns", "plain ns", "tuned ns", "library/plain", "library/tuned"];
        self.table(&heads, 2, rows.iter().map(row_cells).collect());
        println!("\nGeometric mean of the ratios:");
        let means = JOBS.map(|job| cells([job], mean_ratios(rows, job).map(ratio)));
        self.table(&["job", "library/plain", "library/tuned"], 1, means.into());
        println!(
            "\nBatch of {} tables ({} with a lasso, {} refused), each opened, quoted and searched; the median of {} rounds; ratios of times:",
            grouped(TABLES as f64),
            grouped(batch.lassos as f64),
            grouped(batch.refused as f64),
            batch.rounds
        );
        let heads = ["batch", "library", "plain", "tuned", "library/plain", "library/tuned"];
        self.table(&heads, 1, vec![batch_cells(batch)]);
    }

    /// The first columns are words and set left; the others are numbers and set right.
    fn table(&self, heads: &[&str], words: usize, rows: Vec<Vec<String>>) {
        let heads = cells(heads.iter().copied(), []);
        let widths: Vec<usize> = (0..heads.len())
            .map(|i| rows.iter().chain([&heads]).map(|row| row[i].len()).max().unwrap_or(0))
            .collect();
        println!();
        self.line(&heads, &widths, words);
        if self.markdown {
            let rules = (0..heads.len()).map(|i| if i < words { "---" } else { "---:" });
            println!("|{}|", rules.collect::<Vec<_>>().join("|"));
        }
        rows.iter().for_each(|row| self.line(row, &widths, words));
    }

    fn line(&self, cells: &[String], widths: &[usize], words: usize) {
        let padded = cells.iter().zip(widths).enumerate().map(|(i, (cell, &width))| match i < words {
            true => format!("{cell:<width$}"),
            false => format!("{cell:>width$}"),
        });
        let padded: Vec<_> = padded.collect();
        if self.markdown {
            println!("| {} |", padded.join(" | "));
        } else {
            println!("{}", padded.join("  ").trim_end());
        }
    }
}

/// Words, then numbers.
fn cells<'a>(words: impl IntoIterator<Item = &'a str>, numbers: impl IntoIterator<Item = String>) -> Vec<String> {
    words.into_iter().map(str::to_string).chain(numbers).collect()
}

fn row_cells(row: &Row) -> Vec<String> {
    cells(
        [row.job, &row.table],
        row.times.map(nanoseconds).into_iter().chain(ratios(row.times).map(ratio)),
    )
}

fn batch_cells(batch: &Batch) -> Vec<String> {
    let speeds = batch.seconds.map(|seconds| grouped(TABLES as f64 / seconds));
    cells(["tables a second"], speeds.into_iter().chain(ratios(batch.seconds).map(ratio)))
}

fn mean_ratios(rows: &[Row], job: &str) -> [f64; 2] {
    let of_job: Vec<_> = rows.iter().filter(|row| row.job == job).map(|row| ratios(row.times)).collect();
    [0, 1].map(|i| (of_job.iter().map(|ratios| ratios[i].ln()).sum::<f64>() / of_job.len() as f64).exp())
}

fn ratio(ratio: f64) -> String {
    format!("{ratio:.2}")
}

/// One decimal below 100.
fn nanoseconds(time: f64) -> String {
    if time < 100.0 {
        format!("{time:.1}")
    } else {
        grouped(time)
    }
}

/// Digits in groups of three.
fn grouped(number: f64) -> String {
    let digits = format!("{number:.0}");
    let mut text = String::new();
    for (i, digit) in digits.chars().enumerate() {
        if i > 0 && (digits.len() - i).is_multiple_of(3) {
            text.push(',');
        }
        text.push(digit);
    }
    text
}
