//! A table and a plain model of it get the same calls: every short stream, units and streams around the limits of length, and random
//! sequences of calls with marks, returns, lookups and cuts in between; and pairs of tables with the lists of both.

mod alike;
mod long;
mod make;
mod marks;
mod sequences;
mod streams;

use crate::expected;
use crate::expected::table::names;
use crate::library::sets::Lent;
use crate::library::table::Table;
use crate::tally::Tally;
use marks::Marks;

pub fn compare() -> Vec<Tally> {
    let mut named = Named::new("streams");
    let mut rows = vec![streams::every_short_stream(&mut named)];
    rows.extend(long::units_and_streams(&mut named));
    rows.extend(named.0);
    rows.extend(sequences::random_sequences());
    rows.extend(alike::alike_lists());
    rows
}

/// Lookups of places that a refused unit named, a row for each cause.
struct Named([Tally; 4]);

impl Named {
    fn new(of: &str) -> Self {
        let row = |what| Tally::new(format!("{of}: {what}"));
        Named([
            row("places emptied, RBSP damaged"),
            row("places emptied, RBSP too long"),
            row("places kept, header refused"),
            row("places kept, unit too long"),
        ])
    }
}

/// A table of the library's, and what it must be, with marks of its own.
#[derive(Clone)]
struct Both {
    library: Table,
    expected: expected::table::Table,
    marks: Marks,
}

/// The calls, each with the number of the sequence that it belongs to, or 0.
impl Both {
    /// A new table and its marks, in memory that held other bytes.
    fn new(before: &[u8], marks: Marks) -> Self {
        Both {
            library: Table::new(before),
            expected: expected::table::Table::new(),
            marks,
        }
    }

    /// A unit alone: the answer, whether a refusal changed the table, and every byte of the work buffer.
    fn unit(&mut self, t: &mut Tally, number: u64, unit: &[u8], work: &[u8]) {
        let (mut after, mut expected) = (work.to_vec(), work.to_vec());
        t.same(
            || format!("sequence {number}: unit {unit:02X?} with {} bytes of work", work.len()),
            (self.library.take_unit(unit, &mut after), after),
            (
                (
                    self.expected.take_unit(unit, &mut expected),
                    self.expected.named.iter().any(|(why, _)| why.empties()),
                ),
                expected,
            ),
        );
    }

    /// A stream: the three counts or the refusal, and every byte of the work buffer.
    fn stream(&mut self, t: &mut Tally, number: u64, stream: &[u8], work: &[u8]) {
        let (mut after, mut expected) = (work.to_vec(), work.to_vec());
        t.same(
            || {
                format!(
                    "sequence {number}: stream {stream:02X?} with {} bytes of work",
                    work.len()
                )
            },
            (self.library.take_stream(stream, &mut after), after),
            (self.expected.take_stream(stream, &mut expected), expected),
        );
    }

    /// A lookup of each place that a refused unit of the last call emptied of a set, which gets 6 unless a later unit of a stream filled it
    /// again, and of each that one left filled, unless a later one emptied it.
    fn named(&mut self, rows: &mut Named, lent: &mut Lent, number: u64) {
        for (why, (kind, id)) in std::mem::take(&mut self.expected.named) {
            if why.empties() || self.expected.held(kind, id).is_ok() {
                self.lookup(&mut rows.0[why as usize], lent, number, (kind, id));
            }
        }
    }

    /// A lookup of each of the 20 places.
    fn places(&self, t: &mut Tally, lent: &mut Lent, number: u64) {
        for name in names() {
            self.lookup(t, lent, number, name);
        }
    }

    /// Every number of the set held for a kind and an id and its header, or the refusal.
    fn lookup(&self, t: &mut Tally, lent: &mut Lent, number: u64, (kind, id): (u8, u8)) {
        t.same(
            || format!("sequence {number}: lookup of kind {kind}, id {id}"),
            self.library.lookup(lent, kind, id),
            self.expected.lookup(kind, id),
        );
    }

    /// The list at a cut: the answer, and every byte of the output.
    fn list(&self, t: &mut Tally, number: u64, out: &[u8]) {
        let mut after = out.to_vec();
        t.same(
            || format!("sequence {number}: list into {} bytes", out.len()),
            (self.library.write_list(&mut after), after),
            self.expected.write_list(out),
        );
    }
}
