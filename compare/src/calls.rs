//! The crate's safe calls and the Rust's on the same inputs: every answer compared, then the times of both.

mod escapes;
mod marks;
mod record;
mod sets;
mod table;

use crate::speed::{least, Run};
use crate::tally::Tally;

/// One call: its answers, and the nanoseconds for it, the Rust's and ours.
pub struct Row {
    pub answers: Tally,
    /// None where an answer differs.
    times: Option<[f64; 2]>,
}

impl Row {
    /// Measures both ways in turn, once all answers agree.
    fn new(answers: Tally, rust: &mut dyn FnMut() -> Run, ours: &mut dyn FnMut() -> Run) -> Self {
        let times = (answers.differences == 0).then(|| least(&answers.name, [rust, ours]));
        Row { answers, times }
    }
}

pub fn compare() -> Vec<Row> {
    let mut rows = sets::rows();
    rows.extend(escapes::rows());
    rows.extend(table::rows());
    rows.extend(marks::rows());
    rows
}

pub fn print(rows: &[Row]) {
    if rows.is_empty() {
        return;
    }
    println!(
        "\n{:<40}{:>9}{:>13}{:>14}{:>14}{:>11}",
        "calls of the crate", "cases", "differences", "Rust, ns", "ours, ns", "Rust/ours"
    );
    for Row { answers: a, times } in rows {
        let [rust, ours, ratio] = match times {
            Some([rust, ours]) => [
                format!("{rust:.2}"),
                format!("{ours:.2}"),
                format!("{:.3}", rust / ours),
            ],
            None => ["-"; 3].map(String::from),
        };
        println!(
            "{:<40}{:>9}{:>13}{rust:>14}{ours:>14}{ratio:>11}",
            a.name, a.cases, a.differences
        );
    }
    let in_all = |of: fn(&Tally) -> u64| rows.iter().map(|row| of(&row.answers)).sum::<u64>();
    println!(
        "{:<40}{:>9}{:>13}",
        "in all",
        in_all(|a| a.cases),
        in_all(|a| a.differences)
    );
}
