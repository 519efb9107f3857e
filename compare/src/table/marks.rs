//! Marks set and gone back to, in a table of the library's with marks of its own and in the model.

use super::Both;
use crate::expected;
use crate::library;
use crate::tally::Tally;
use kendwyra::MARKS_BYTES;

/// Marks of the library's, and what they must be.
#[derive(Clone)]
pub struct Marks {
    pub library: library::marks::Marks,
    expected: expected::table::Marks,
}

impl Marks {
    /// Never set, in memory that held other bytes.
    pub fn new(before: &[u8]) -> Self {
        Marks {
            library: library::marks::Marks::new(before),
            expected: expected::table::Marks::new(),
        }
    }

    /// Never set, in clear memory.
    pub fn clear() -> Self {
        Marks::new(&[0; MARKS_BYTES])
    }
}

/// A row for each thing that a call of marks comes to.
pub struct Rows {
    first: Tally,
    again: Tally,
    set_above: Tally,
    changed: Tally,
    unchanged: Tally,
    returned_above: Tally,
    never_set: Tally,
    /// All places and the list after a return.
    pub after: Tally,
    /// Returns in both tables after a cut.
    pub in_both: Tally,
}

impl Rows {
    pub fn new() -> Self {
        let row = |what| Tally::new(format!("sequences: {what}"));
        Rows {
            first: row("marks set for the first time"),
            again: row("marks set again"),
            set_above: row("marks above 7 set, refused with 2"),
            changed: row("returns that changed a place"),
            unchanged: row("returns that changed none"),
            returned_above: row("returns to marks above 7, refused with 2"),
            never_set: row("returns to marks never set, refused with 14"),
            after: row("places and lists after returns"),
            in_both: row("returns in both tables after a cut"),
        }
    }

    pub fn all(self) -> [Tally; 9] {
        [
            self.first,
            self.again,
            self.set_above,
            self.changed,
            self.unchanged,
            self.returned_above,
            self.never_set,
            self.after,
            self.in_both,
        ]
    }
}

impl Both {
    /// The answer. No byte of the table may change, and after a refusal none of the marks.
    pub fn set_mark(&mut self, rows: &mut Rows, number: u64, mark: u8) {
        let again = self.marks.expected.is_set(mark);
        let expected = self.marks.expected.set(mark, &self.expected);
        let row = match expected {
            Ok(()) if again => &mut rows.again,
            Ok(()) => &mut rows.first,
            Err(_) => &mut rows.set_above,
        };
        row.same(
            || format!("sequence {number}: mark {mark} set"),
            self.marks.library.set(mark, &self.library),
            expected,
        );
    }

    /// The answer, and whether there was a return. No byte of the marks may change, and after a refusal none of the table.
    pub fn go_back(&mut self, rows: &mut Rows, number: u64, mark: u8) -> bool {
        let before = self.expected.clone();
        let expected = self.marks.expected.go_back(mark, &mut self.expected);
        let row = match expected {
            Ok(()) if self.expected != before => &mut rows.changed,
            Ok(()) => &mut rows.unchanged,
            Err(14) => &mut rows.never_set,
            Err(_) => &mut rows.returned_above,
        };
        row.same(
            || format!("sequence {number}: return to mark {mark}"),
            self.marks.library.go_back(mark, &mut self.library),
            expected,
        );
        expected.is_ok()
    }
}
