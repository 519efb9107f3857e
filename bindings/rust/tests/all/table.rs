//! The table: units taken, looked up and cut.

use crate::bytes::{example, example_list, hex};
use crate::made::{self, header, LONGEST_UNIT};
use kendwyra::sets::{read, write_unit};
use kendwyra::{
    raw, Alf, Aps, Counts, Head, Held, Kind, Lmcs, Refusal, Table, Taken, UnitHeader, LIST_BYTES, LONGEST_RBSP,
    TABLE_BYTES,
};

pub fn unit(held: &Held<Aps>) -> Vec<u8> {
    let mut unit = vec![0; LONGEST_UNIT];
    let len = write_unit(&held.set, held.header, &mut unit).unwrap();
    unit.truncate(len);
    unit
}

/// A table that took these units, one by one.
pub fn holding(units: &[Held<Aps>]) -> Table {
    let mut table = Table::new();
    for held in units {
        assert_eq!(
            table.take_unit(&unit(held), &mut [0; LONGEST_RBSP]),
            Ok(Taken::Accepted)
        );
    }
    table
}

/// That each of these is held in its place.
pub fn assert_holds(table: &Table, units: &[Held<Aps>]) {
    for Held { header, set } in units {
        let (header, kind, id) = (*header, set.kind(), set.aps_adaptation_parameter_set_id());
        match set.clone() {
            Aps::Alf(set) => assert_eq!(table.alf(id), Ok(Held { header, set })),
            Aps::Lmcs(set) => assert_eq!(table.lmcs(id), Ok(Held { header, set })),
            Aps::Scaling(set) => assert_eq!(table.scaling(id), Ok(Held { header, set })),
        }
        let (set, head) = (set.clone(), set.head());
        assert_eq!(table.lookup(kind, id), Ok(Held { header, set }));
        assert_eq!(table.head(kind, id), Ok(Held { header, set: head }));
    }
}

#[test]
fn every_place() {
    let units = made::held();
    let table = holding(&units);
    assert_holds(&table, &units);
    let flags = |set: &Aps| set.aps_chroma_present_flag() && !set.aps_extension_flag();
    assert!(units.iter().all(|held| flags(&held.set)));
    let list = table.list().unwrap();
    assert!(list.len() <= LIST_BYTES);
    let due: Vec<u8> = units
        .iter()
        .flat_map(|held| [vec![0, 0, 0, 1], unit(held)].concat())
        .collect();
    assert_eq!(list, due);
    let mut second = Table::new();
    let counts = second.take_stream(&list, &mut [0; LONGEST_RBSP]);
    assert_eq!(
        counts,
        Ok(Counts {
            accepted: 20,
            refused: 0,
            passed_over: 0
        })
    );
    assert_holds(&second, &units);
    assert_eq!(second.list(), Ok(list));
}

#[test]
fn the_last_unit_is_held() {
    let [first, other] = [(header(17, 55, 7), 0), (header(17, 2, 3), 1)].map(|(header, id)| Held {
        header,
        set: Aps::Lmcs(made::lmcs(id)),
    });
    let mut table = holding(&[first, other.clone()]);
    assert_eq!(
        table.take_unit(&hex("00 91 20 42 12"), &mut [0; 3]),
        Ok(Taken::Accepted)
    );
    let last = Held {
        header: header(18, 0, 1),
        set: read(&hex("20 42 12")).unwrap().0,
    };
    assert_holds(&table, &[last, other]);
}

#[test]
fn the_last_header_is_held() {
    let mut table = Table::new();
    for set in made::all() {
        for header in [header(17, 0, 1), header(18, 55, 7), header(18, 1, 1), header(17, 55, 2)] {
            let held = Held {
                header,
                set: set.clone(),
            };
            assert_eq!(
                table.take_unit(&unit(&held), &mut [0; LONGEST_RBSP]),
                Ok(Taken::Accepted)
            );
            assert_holds(&table, &[held]);
        }
    }
}

#[test]
fn a_damaged_unit_empties_its_place() {
    let units = made::held();
    // Cut off or wrong, by each kind and id: its own place is empty, and every other as it was.
    for held in &units {
        let (kind, id) = (held.set.kind(), held.set.aps_adaptation_parameter_set_id());
        let first = kind.number() * 32 + id;
        for damaged in [vec![0x00, 0x89, first], vec![0x37, 0x97, first, 0xFF]] {
            let mut table = holding(&units);
            let refused = table.take_unit(&damaged, &mut [0; 2]);
            assert!(matches!(refused, Err(Refusal::UnexpectedEnd | Refusal::InvalidData)));
            assert_eq!(table.lookup(kind, id), Err(Refusal::EmptyPlace));
            let others: Vec<_> = units.iter().filter(|other| *other != held).cloned().collect();
            assert_holds(&table, &others);
            assert_eq!(
                table.take_unit(&unit(held), &mut [0; LONGEST_RBSP]),
                Ok(Taken::Accepted)
            );
            assert_holds(&table, &units);
        }
    }
}

/// Of a damaged unit too, which would empty its place; the work buffer may be too short.
#[test]
fn a_refused_header_empties_no_place() {
    let units = made::held();
    let mut table = holding(&units);
    for held in &units {
        let first = held.set.kind().number() * 32 + held.set.aps_adaptation_parameter_set_id();
        let rbsps = [vec![], vec![first], vec![first, 0xFF], unit(held)[2..].to_vec()];
        // A forbidden bit, a reserved bit and both; layers; temporal ids.
        for header in ["80 89", "40 91", "C0 8F", "38 89", "3F 97", "00 88", "37 90"] {
            for rbsp in &rbsps {
                let refused = [hex(header), rbsp.clone()].concat();
                let mut work = [0xAA; LONGEST_RBSP];
                for room in [0, LONGEST_RBSP] {
                    let answer = table.take_unit(&refused, &mut work[..room]);
                    assert_eq!(answer, Err(Refusal::InvalidData), "{header}");
                }
                assert_eq!(work, [0xAA; LONGEST_RBSP]);
            }
        }
    }
    assert_holds(&table, &units);
}

#[test]
fn a_refused_header_in_a_stream() {
    let mut table = holding(&made::held());
    let stream = ["38 89 20", "80 89 00 10", "37 97 00 10", "00 88 40 7F", "40 09 07"]
        .map(|unit| [hex("00 00 01"), hex(unit)].concat())
        .concat();
    let mut work = [0xAA; 64];
    let counts = Counts {
        accepted: 1,
        refused: 3,
        passed_over: 1,
    };
    assert_eq!(table.take_stream(&stream, &mut work), Ok(counts));
    assert_eq!(work[..3], [0x00, 0x10, 0xAA]);
    let mut due = made::held();
    due[0] = Held {
        header: header(18, 55, 7),
        set: Aps::Alf(Alf::default()),
    };
    assert_holds(&table, &due);
}

/// Whatever stands around the type.
#[test]
fn units_of_another_type_are_passed_over() {
    let units = made::held();
    let mut table = holding(&units);
    let mut work = [0xAA; 4];
    for unit in [
        "40 09",
        "40 09 24 00",
        "80 08 00 FF",
        "3F 0F 00 10",
        "C0 80 00 10",
        "FF FF 00",
        "FF 98 00",
    ] {
        assert_eq!(table.take_unit(&hex(unit), &mut work), Ok(Taken::PassedOver), "{unit}");
        assert_eq!(table.take_unit(&hex(unit), &mut []), Ok(Taken::PassedOver), "{unit}");
    }
    assert_eq!(work, [0xAA; 4]);
    assert_holds(&table, &units);
}

#[test]
fn what_names_no_place_empties_none() {
    let mut table = holding(&made::held());
    let before = table.list();
    // No RBSP; ids and kinds that are too large; 5; another type; a stream that is refused.
    for (unit, room, refusal) in [
        ("00 89", 0, Refusal::UnexpectedEnd),
        ("00 89 08", 1, Refusal::UnexpectedEnd),
        ("00 89 24", 1, Refusal::UnexpectedEnd),
        ("00 89 48", 1, Refusal::UnexpectedEnd),
        ("00 89 60 00", 2, Refusal::Unsupported),
        ("00 89 00", 0, Refusal::OutputTooShort),
    ] {
        assert_eq!(table.take_unit(&hex(unit), &mut vec![0; room]), Err(refusal));
    }
    assert_eq!(table.take_unit(&hex("00 09 00"), &mut []), Ok(Taken::PassedOver));
    let refused = table.take_stream(&hex("07 00 00 01 00 89 00"), &mut [0; 8]);
    assert_eq!(refused, Err(Refusal::InvalidData));
    assert_eq!(table.list(), before);
}

#[test]
fn refused_and_passed_over() {
    let mut table = holding(&made::held()[19..]);
    let before = table.list();
    let mut work = [9; 64];
    assert_eq!(table.take_unit(&hex("00 81 00 10"), &mut work), Ok(Taken::PassedOver));
    assert_eq!(work, [9; 64]);
    for (unit, refusal) in [
        ("00", Refusal::UnexpectedEnd),
        ("00 89 24", Refusal::UnexpectedEnd),
        ("00 89 24 00", Refusal::InvalidData),
        ("00 89 60 00", Refusal::Unsupported),
    ] {
        assert_eq!(table.take_unit(&hex(unit), &mut work), Err(refusal), "{unit}");
    }
    assert_eq!(
        table.take_stream(&hex("01 00 00 01 00 89 00 10"), &mut work),
        Err(Refusal::InvalidData)
    );
    let mixed = hex("00 00 01 00 89 24 00 00 01 00 81 10 00 00 01 00 00 00 01 07 00 00");
    let counts = table.take_stream(&mixed, &mut work);
    assert_eq!(
        counts,
        Ok(Counts {
            accepted: 0,
            refused: 3,
            passed_over: 1
        })
    );
    assert_eq!(table.list(), before);
}

#[test]
fn places_that_are_not_there() {
    let table = holding(&made::held());
    for id in 0..=255 {
        let no_place = |kind: Kind| id > kind.max_id();
        let due = |kind| {
            if no_place(kind) {
                Err(Refusal::InvalidData)
            } else {
                Ok(())
            }
        };
        assert_eq!(table.alf(id).map(|_| ()), due(Kind::Alf));
        assert_eq!(table.lmcs(id).map(|_| ()), due(Kind::Lmcs));
        assert_eq!(table.scaling(id).map(|_| ()), due(Kind::Scaling));
        for kind in Kind::ALL {
            assert_eq!(table.lookup(kind, id).map(|_| ()), due(kind));
            assert_eq!(table.head(kind, id).map(|_| ()), due(kind));
            if !no_place(kind) {
                assert_eq!(Table::new().lookup(kind, id), Err(Refusal::EmptyPlace));
                assert_eq!(Table::new().head(kind, id), Err(Refusal::EmptyPlace));
            }
        }
    }
}

/// Numbers that are no kind's, which only `raw` takes.
#[test]
fn kinds_that_are_not_there() {
    let mut table = [9; TABLE_BYTES];
    // SAFETY: the arrays, the head and the header are lent whole.
    unsafe { raw::aps_table_new(&mut table) };
    for kind in 0..=255 {
        let (mut head, mut header) = (Head::default(), UnitHeader::default());
        let due = if kind < 3 { 6 } else { 2 };
        // SAFETY: as above.
        let code = unsafe { raw::aps_head_lookup(&table, kind, 0, &mut head, &mut header) };
        assert_eq!((code, head, header), (due, Head::default(), UnitHeader::default()));
    }
}

#[test]
fn an_extended_set_is_held_and_not_listed() {
    let mut table = Table::new();
    table.take_unit(&hex("00 89 00 A0"), &mut [0; 2]).unwrap_err();
    table.take_unit(&hex("00 89 00 20"), &mut [0; 2]).unwrap();
    let head = Head {
        aps_extension_flag: true,
        ..Head::default()
    };
    assert_eq!(table.head(Kind::Alf, 0).map(|held| held.set), Ok(head));
    assert!(table.lookup(Kind::Alf, 0).unwrap().set.aps_extension_flag());
    let mut out = [9; 64];
    assert_eq!(table.write_list(&mut out), Err(Refusal::Unsupported));
    assert_eq!(out, [9; 64]);
    assert_eq!(table.list(), Err(Refusal::Unsupported));
}

#[test]
fn a_clone_is_a_table_of_its_own() {
    let first = holding(&made::held()[3..4]);
    let mut second = first.clone();
    second.take_stream(&example(), &mut [0; 3]).unwrap();
    assert_eq!(first.lmcs(0), Err(Refusal::EmptyPlace));
    assert_eq!(second.alf(3), first.alf(3));
    let mut third = Table::default();
    third.take_stream(&example_list(), &mut [0; 3]).unwrap();
    let heads = [
        (header(18, 0, 1), Alf::default().head()),
        (header(17, 0, 1), Lmcs::default().head()),
    ];
    let held = heads.map(|(header, set)| Held { header, set });
    assert_eq!(format!("{third:?}"), format!("{held:?}"));
}
