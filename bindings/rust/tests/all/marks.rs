//! Marks set and gone back to.

use crate::bytes::{example, example_list, hex};
use crate::made;
use crate::table::{assert_holds, holding, unit};
use kendwyra::{raw, Aps, Held, Kind, Marks, Refusal, Table, LONGEST_RBSP, MARKS, MARKS_BYTES, TABLE_BYTES};

const WRONG: Refusal = Refusal::InvalidData;
const NOT_SET: Refusal = Refusal::MarkNotSet;

/// That a table holds these and nothing else.
fn assert_holds_only(table: &Table, units: &[Held<Aps>]) {
    assert_holds(table, units);
    for kind in Kind::ALL {
        for id in 0..=kind.max_id() {
            let named = |held: &Held<Aps>| held.set.kind() == kind && held.set.aps_adaptation_parameter_set_id() == id;
            if !units.iter().any(named) {
                assert_eq!(table.head(kind, id), Err(Refusal::EmptyPlace));
            }
        }
    }
}

/// The sets of `made::held`, each with the header of the next.
fn other_headers() -> Vec<Held<Aps>> {
    let headers = made::held().into_iter().map(|held| held.header).cycle().skip(1);
    let with = |(set, header)| Held { header, set };
    made::all().into_iter().zip(headers).map(with).collect()
}

/// Sets, headers, and which places are empty.
#[test]
fn going_back_restores_all_places() {
    let (units, mut marks) = (made::held(), Marks::new());
    let mut table = holding(&units);
    table.set_mark(&mut marks, 3).unwrap();
    for held in &units {
        let first = held.set.kind().number() * 32 + held.set.aps_adaptation_parameter_set_id();
        table.take_unit(&[0x00, 0x89, first], &mut [0]).unwrap_err();
    }
    assert_holds_only(&table, &[]);
    table.set_mark(&mut marks, 4).unwrap();
    table.go_back(&marks, 3).unwrap();
    assert_holds_only(&table, &units);

    let others = other_headers();
    table = holding(&others);
    table.go_back(&marks, 3).unwrap();
    assert_holds_only(&table, &units);
    table.go_back(&marks, 4).unwrap();
    assert_holds_only(&table, &[]);
}

#[test]
fn each_mark_keeps_its_own() {
    let (units, mut marks) = (made::held(), Marks::new());
    let own = |mark| {
        let first = usize::from(mark);
        &units[first..2 * first + 5]
    };
    for mark in 0..MARKS {
        holding(own(mark)).set_mark(&mut marks, mark).unwrap();
    }
    let mut table = Table::new();
    for mark in (0..MARKS).chain((0..MARKS).rev()) {
        table.go_back(&marks, mark).unwrap();
        assert_holds_only(&table, own(mark));
    }
}

#[test]
fn marking_again_replaces() {
    let (units, mut marks) = (made::held(), Marks::new());
    holding(&units[..9]).set_mark(&mut marks, 0).unwrap();
    holding(&units[..4]).set_mark(&mut marks, 1).unwrap();
    holding(&units[7..]).set_mark(&mut marks, 0).unwrap();
    let mut table = holding(&units);
    table.go_back(&marks, 0).unwrap();
    assert_holds_only(&table, &units[7..]);
    table.go_back(&marks, 1).unwrap();
    assert_holds_only(&table, &units[..4]);
    // With nothing held.
    Table::new().set_mark(&mut marks, 0).unwrap();
    table.go_back(&marks, 0).unwrap();
    assert_holds_only(&table, &[]);
}

/// Nor do the units since, and any table may go back.
#[test]
fn going_back_changes_no_mark() {
    let (units, mut marks) = (made::held(), Marks::new());
    let mut table = holding(&units[..5]);
    table.set_mark(&mut marks, 5).unwrap();
    for held in &units[2..] {
        table.take_unit(&unit(held), &mut [0; LONGEST_RBSP]).unwrap();
        table.go_back(&marks, 5).unwrap();
        assert_holds_only(&table, &units[..5]);
    }
    let mut other = holding(&other_headers());
    other.go_back(&marks, 5).unwrap();
    assert_holds_only(&other, &units[..5]);
}

#[test]
fn the_list_after_going_back() {
    let (mut table, mut marks, mut work) = (Table::new(), Marks::new(), [0; LONGEST_RBSP]);
    table.take_stream(&example(), &mut work).unwrap();
    table.set_mark(&mut marks, 7).unwrap();
    assert_eq!(table.list(), Ok(example_list()));
    // ALF 0 emptied, LMCS 0 with another header, LMCS 1 added.
    table.take_unit(&hex("00 89 00"), &mut work).unwrap_err();
    table.take_unit(&hex("05 92 20 42 12"), &mut work).unwrap();
    table.take_unit(&hex("00 89 21 42 12"), &mut work).unwrap();
    assert_ne!(table.list(), Ok(example_list()));
    table.go_back(&marks, 7).unwrap();
    assert_eq!(table.list(), Ok(example_list()));
    // The units since are in it, until the next return.
    table.take_unit(&hex("05 92 22 42 12"), &mut work).unwrap();
    let more = [example_list(), hex("00 00 00 01 05 92 22 42 12")].concat();
    assert_eq!(table.list(), Ok(more));
    table.go_back(&marks, 7).unwrap();
    assert_eq!(table.list(), Ok(example_list()));
}

#[test]
fn a_refused_mark_changes_nothing() {
    let (units, mut marks) = (made::held(), Marks::new());
    let mut table = holding(&units);
    for mark in 0..=255 {
        let due = if mark < MARKS { NOT_SET } else { WRONG };
        assert_eq!(table.go_back(&marks, mark), Err(due));
    }
    holding(&units[..2]).set_mark(&mut marks, 6).unwrap();
    for mark in MARKS..=255 {
        assert_eq!(table.set_mark(&mut marks, mark), Err(WRONG));
        assert_eq!(table.go_back(&marks, mark), Err(WRONG));
    }
    for mark in [0, 1, 2, 3, 4, 5, 7] {
        assert_eq!(table.go_back(&marks, mark), Err(NOT_SET));
    }
    assert_holds_only(&table, &units);
    table.go_back(&marks, 6).unwrap();
    assert_holds_only(&table, &units[..2]);
}

/// The bytes of tables and marks, which only `raw` shows.
#[test]
fn bytes() {
    let full = [0x5A; TABLE_BYTES];
    let (mut table, mut marks) = (full, vec![0xFF; MARKS_BYTES].into_boxed_slice());
    let marks: &mut [u8; MARKS_BYTES] = (&mut *marks).try_into().unwrap();
    // SAFETY: here and below the arrays are lent whole; any bytes are some table and some marks.
    unsafe { raw::aps_marks_new(marks) };
    for mark in 0..=255 {
        let code = unsafe { raw::aps_go_back(&mut table, marks, mark) };
        assert_eq!((code, table == full), (if mark < MARKS { 14 } else { 2 }, true));
    }
    for mark in (0..=255).rev() {
        let (kept, before) = ([mark; TABLE_BYTES], marks.to_vec());
        let code = unsafe { raw::aps_set_mark(&kept, marks, mark) };
        assert_eq!(code, if mark < MARKS { 0 } else { 2 });
        assert_eq!(kept, [mark; TABLE_BYTES]);
        assert_eq!(marks[..] == before, code == 2);
    }
    let before = marks.to_vec();
    for mark in 0..=255 {
        let mut table = full;
        let code = unsafe { raw::aps_go_back(&mut table, marks, mark) };
        let due = if mark < MARKS { [mark; TABLE_BYTES] } else { full };
        assert_eq!((code, table == due), (if mark < MARKS { 0 } else { 2 }, true));
    }
    assert!(marks[..] == before);
}

#[test]
fn a_clone_has_marks_of_its_own() {
    let (units, mut first) = (made::held(), Marks::default());
    holding(&units[..3]).set_mark(&mut first, 2).unwrap();
    let mut second = first.clone();
    holding(&units[3..]).set_mark(&mut second, 2).unwrap();
    holding(&units[3..]).set_mark(&mut second, 7).unwrap();
    let mut table = Table::new();
    table.go_back(&first, 2).unwrap();
    assert_holds_only(&table, &units[..3]);
    assert_eq!(table.go_back(&first, 7), Err(NOT_SET));
    table.go_back(&second, 2).unwrap();
    assert_holds_only(&table, &units[3..]);
    let shown = [Marks::new(), first, second].map(|marks| format!("{marks:?}"));
    assert_eq!(shown, ["{}", "{2}", "{2, 7}"]);
}

/// A new one, a clone, setting, going back and `Debug`, in a debug build too.
#[test]
fn little_stack() {
    let calls = || {
        let (mut table, mut marks) = (Table::new(), Marks::new());
        table.set_mark(&mut marks, 0).unwrap();
        table.go_back(&marks.clone(), 0).unwrap();
        format!("{marks:?}")
    };
    let thread = std::thread::Builder::new().stack_size(100_000).spawn(calls).unwrap();
    assert_eq!(thread.join().unwrap(), "{0}");
}
