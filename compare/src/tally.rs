//! How many answers were compared, and how many differ.

use std::fmt::Debug;

pub struct Tally {
    pub name: String,
    pub cases: u64,
    pub differences: u64,
}

impl Tally {
    pub fn new(name: impl Into<String>) -> Self {
        Tally {
            name: name.into(),
            cases: 0,
            differences: 0,
        }
    }

    /// Compares one answer; the first differences are shown with what was asked, numbers in hexadecimal.
    pub fn same<T: PartialEq + Debug>(&mut self, asked: impl FnOnce() -> String, library: T, expected: T) {
        self.cases += 1;
        if library != expected {
            self.differences += 1;
            if self.differences <= 10 {
                println!("{:.300}", asked());
                println!("    library  {:.300}", format!("{library:02X?}"));
                println!("    expected {:.300}", format!("{expected:02X?}"));
            }
        }
    }
}

pub fn print(rows: &[Tally]) {
    if rows.is_empty() {
        return;
    }
    println!("{:<52}{:>12}{:>13}", "compared", "cases", "differences");
    for row in rows {
        println!("{:<52}{:>12}{:>13}", row.name, row.cases, row.differences);
    }
    let (cases, differences) = rows.iter().fold((0, 0), |(c, d), r| (c + r.cases, d + r.differences));
    println!("{:<52}{:>12}{:>13}", "in all", cases, differences);
}
