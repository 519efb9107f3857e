//! Random sequences of calls, with marks, returns, lookups and cuts in between.

use super::make::Bytes;
use super::marks::{Marks, Rows};
use super::{Both, Named};
use crate::expected::sets;
use crate::expected::table::{names, split, work_due};
use crate::library::sets::Lent;
use crate::random::Random;
use crate::tally::Tally;
use kendwyra::{LIST_BYTES, MARKS_BYTES, TABLE_BYTES};

const SEQUENCES: u64 = 150_000;

pub fn random_sequences() -> Vec<Tally> {
    let mut sequences = Sequences::new();
    (0..SEQUENCES).for_each(|_| sequences.one());
    sequences.rows()
}

struct Sequences {
    random: Random,
    bytes: Bytes,
    lent: Lent,
    /// What stands in buffers before a call.
    filler: Vec<u8>,
    /// The memory of an earlier table.
    used: Vec<u8>,
    /// The memory of an earlier table's marks.
    used_marks: Vec<u8>,
    /// How many numbers of marks come in the sequence that is under way.
    few: usize,
    /// The sequence that is under way.
    number: u64,
    units: Tally,
    streams: Tally,
    named: Named,
    marks: Rows,
    lookups: Tally,
    lists: Tally,
    read_again: Tally,
    ends: Tally,
}

impl Sequences {
    fn new() -> Self {
        let mut random = Random::new(30);
        let filler = random.bytes(190_000);
        Sequences {
            random,
            bytes: Bytes::new(),
            lent: Lent::new(),
            filler,
            used: vec![0xFF; TABLE_BYTES],
            used_marks: vec![0xFF; MARKS_BYTES],
            few: 0,
            number: 0,
            units: Tally::new("sequences: units alone"),
            streams: Tally::new("sequences: streams"),
            named: Named::new("sequences"),
            marks: Rows::new(),
            lookups: Tally::new("sequences: lookups"),
            lists: Tally::new("sequences: lists at a cut"),
            read_again: Tally::new("sequences: lists read into a new table"),
            ends: Tally::new("sequences, each with all places at its end"),
        }
    }

    fn rows(self) -> Vec<Tally> {
        let mut rows = vec![self.units, self.streams];
        rows.extend(self.named.0);
        rows.extend(self.marks.all());
        rows.extend([self.lookups, self.lists, self.read_again, self.ends]);
        rows
    }

    /// Calls to a new table, and after a cut also to the table that its list made.
    fn one(&mut self) {
        self.number += 1;
        self.bytes.choose();
        self.few = [1, 2, 8, 10][self.random.below(4)];
        let mut tables = vec![self.new_table()];
        if self.random.below(500) == 0 {
            let stream = self.bytes.filling_stream();
            self.stream(&mut tables, &stream);
            self.cut(&mut tables);
        }
        for _ in 0..=self.random.below(12) {
            if self.random.below(10) == 0 {
                self.cut(&mut tables);
            }
            if self.random.below(3) == 0 {
                self.mark(&mut tables);
            }
            self.call(&mut tables);
            if self.random.below(6) == 0 {
                self.look(&tables);
            }
        }
        self.end(&tables);
        if self.random.below(40) == 0 {
            (0..=8).for_each(|mark| self.go_back(&mut tables, mark));
        }
        let Both { library, marks, .. } = tables.swap_remove(0);
        (self.used, self.used_marks) = (library.memory(), marks.library.memory());
    }

    /// In memory of an earlier table, in memory that held any bytes, or in clear memory.
    fn new_table(&mut self) -> Both {
        let marks = match self.random.below(4) {
            0 => Marks::new(&self.used_marks),
            1 => Marks::new(&self.filled(MARKS_BYTES)),
            _ => Marks::clear(),
        };
        match self.random.below(4) {
            0 => Both::new(&self.used, marks),
            1 => Both::new(&self.filled(TABLE_BYTES), marks),
            _ => Both::new(&[0; TABLE_BYTES], marks),
        }
    }

    /// A length for a work buffer of which `due` bytes are needed for `len` bytes of input.
    fn room(&mut self, due: usize, len: usize) -> usize {
        match self.random.below(16) {
            0 => due.saturating_sub(1),
            1 => [0, self.random.below(due + 1)][self.random.below(2)],
            2..=5 => due + 1 + self.random.below(40),
            6 => due + self.random.below(3_000),
            7 | 8 => due.max(len),
            _ => due,
        }
    }

    fn filled(&mut self, room: usize) -> Vec<u8> {
        let at = self.random.below(1_000);
        self.filler[at..at + room].to_vec()
    }

    /// A unit alone or a stream; a long one rarely.
    fn call(&mut self, tables: &mut [Both]) {
        match (self.random.below(3), self.random.below(500)) {
            (0, 0) => {
                let unit = self.bytes.long_unit();
                self.unit(tables, &unit);
            }
            (0, _) => {
                let unit = self.bytes.unit();
                self.unit(tables, &unit);
            }
            (_, 0) => {
                let stream = self.bytes.long_stream();
                self.stream(tables, &stream);
            }
            _ => {
                let stream = self.bytes.stream();
                self.stream(tables, &stream);
            }
        }
    }

    fn unit(&mut self, tables: &mut [Both], unit: &[u8]) {
        let room = self.room(sets::work_due(unit), unit.len());
        let work = self.filled(room);
        for both in tables {
            both.unit(&mut self.units, self.number, unit, &work);
            both.named(&mut self.named, &mut self.lent, self.number);
        }
    }

    fn stream(&mut self, tables: &mut [Both], stream: &[u8]) {
        let due = split(stream).map_or(0, |units| work_due(&units));
        let room = self.room(due, stream.len());
        let work = self.filled(room);
        for both in tables {
            both.stream(&mut self.streams, self.number, stream, &work);
            both.named(&mut self.named, &mut self.lent, self.number);
        }
    }

    /// A mark set in each table or gone back to; now and then one above 7.
    fn mark(&mut self, tables: &mut [Both]) {
        let mark = match self.random.below(12) {
            0 => [8, 9, 255][self.random.below(3)],
            _ => self.random.below(self.few) as u8,
        };
        if self.random.below(2) == 0 {
            return self.go_back(tables, mark);
        }
        for both in tables {
            both.set_mark(&mut self.marks, self.number, mark);
        }
    }

    /// A mark set before a cut is gone back to in the first table alone; one set since then in both, which after it have the same list if they
    /// are alike.
    fn go_back(&mut self, tables: &mut [Both], mark: u8) {
        let mut returns = 0;
        for both in &mut *tables {
            if both.go_back(&mut self.marks, self.number, mark) {
                returns += 1;
                let due = both.expected.list().map_or(40, |list| list.len());
                let out = self.filled(due);
                both.places(&mut self.marks.after, &mut self.lent, self.number);
                both.list(&mut self.marks.after, self.number, &out);
            }
        }
        if let (2, [first, second]) = (returns, tables) {
            if first.expected == second.expected {
                let out = self.filled(LIST_BYTES);
                let [list, again] = [&*first, &*second].map(|both| {
                    let mut after = out.clone();
                    (both.library.write_list(&mut after), after)
                });
                let asked = || format!("sequence {}: list of both after a return to mark {mark}", self.number);
                self.marks.in_both.same(asked, list, again);
            }
        }
    }

    /// All 20 places, and some kinds and ids that name none.
    fn look(&mut self, tables: &[Both]) {
        let any = [self.random.next(), self.random.next()];
        let no_places = [(0, 8), (1, 4), (2, 8), (3, 0), (any[0] as u8, any[1] as u8)];
        for both in tables {
            let before = both.library.clone();
            for name in names().into_iter().chain(no_places) {
                both.lookup(&mut self.lookups, &mut self.lent, self.number, name);
            }
            if both.library != before {
                self.lookups
                    .same(|| "a table after lookups".into(), "changed", "as it was");
            }
        }
    }

    /// The list, into outputs just long enough, one byte less, longer and empty; then the second table is made of it, like the first.
    fn cut(&mut self, tables: &mut Vec<Both>) {
        let list = tables[0].expected.list();
        let due = list.as_ref().map_or(40, Vec::len);
        for room in [due, due.saturating_sub(1), due + 7, 0] {
            let out = self.filled(room);
            for both in &*tables {
                both.list(&mut self.lists, self.number, &out);
            }
        }
        let Ok(list) = list else { return };
        let mut second = self.new_table();
        let due = split(&list).map_or(0, |units| work_due(&units));
        let room = due + [0, 9][self.random.below(2)];
        let work = self.filled(room);
        second.stream(&mut self.read_again, self.number, &list, &work);
        assert!(
            second.expected == tables[0].expected,
            "the document's table is made again by its list"
        );
        tables.truncate(1);
        tables.push(second);
        for both in &*tables {
            both.places(&mut self.read_again, &mut self.lent, self.number);
        }
    }

    /// One case for all places of the tables: the first place that differs.
    fn end(&mut self, tables: &[Both]) {
        let mut differs = None;
        for both in tables {
            for (kind, id) in names() {
                if both.library.lookup(&mut self.lent, kind, id) != both.expected.lookup(kind, id) {
                    differs = differs.or(Some((kind, id)));
                }
            }
        }
        self.ends
            .same(|| format!("sequence {} at its end", self.number), differs, None);
    }
}
