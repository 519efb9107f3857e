//! Each refusal by its number.

use crate::bytes::hex;
use crate::made::{self, LONGEST_UNIT};
use kendwyra::escapes::{ebsp_to_rbsp, rbsp_to_ebsp};
use kendwyra::sets::{nal_header, read, read_unit, rewrite, write};
use kendwyra::{Alf, Aps, Head, Kind, Lmcs, Marks, Refusal, Scaling, Table, UnitHeader, LONGEST_INPUT, LONGEST_RBSP};

#[test]
fn numbers_and_words() {
    for number in 1..=14 {
        let refusal = Refusal::from_number(number).unwrap();
        assert_eq!(refusal.number(), number);
        let error: Box<dyn std::error::Error> = refusal.into();
        assert!(!error.to_string().is_empty());
    }
    for number in [0, 256].into_iter().chain(15..20) {
        assert_eq!(Refusal::from_number(number), None);
    }
}

#[test]
fn each_number() {
    assert_eq!(read(&[]).map_err(Refusal::number), Err(1));
    assert_eq!(read(&hex("24 00")).map_err(Refusal::number), Err(2));
    assert_eq!(read(&hex("60 00")).map_err(Refusal::number), Err(3));
    assert_eq!(read(&[0; LONGEST_RBSP + 1]).map_err(Refusal::number), Err(4));
    assert_eq!(nal_header(&[0; LONGEST_INPUT + 1]).map_err(Refusal::number), Err(4));
    let set = Aps::Alf(Alf::default());
    assert_eq!(write(&set, &mut [0]).map_err(Refusal::number), Err(5));
    assert_eq!(Table::new().lookup(Kind::Alf, 0).map_err(Refusal::number), Err(6));
    let never_set = Table::new().go_back(&Marks::new(), 0);
    assert_eq!(never_set.map_err(Refusal::number), Err(14));
}

#[test]
fn units() {
    let mut work = [0; 8];
    let rows = [
        ("00", 1),
        ("00 81", 2),
        ("80 89", 2),
        ("40 89", 2),
        ("38 89", 2),
        ("00 88", 2),
        ("80 89 00 10", 2),
        ("40 89 00 10", 2),
        ("38 89 00 10", 2),
        ("00 90 00 10", 2),
        ("00 89", 1),
        ("37 97", 1),
        ("00 89 24", 1),
        ("00 89 24 00", 2),
        ("00 89 60 00", 3),
    ];
    for (unit, number) in rows {
        let due = Err(Refusal::from_number(number).unwrap());
        let unit = hex(unit);
        assert_eq!(read_unit(&unit, &mut work).map(|_| ()), due, "{unit:X?}");
        assert_eq!(Head::read_unit(&unit, &mut work).map(|_| ()), due, "{unit:X?}");
        assert_eq!(Alf::read_unit(&unit, &mut work).map(|_| ()), due, "{unit:X?}");
        assert_eq!(Lmcs::read_unit(&unit, &mut work).map(|_| ()), due, "{unit:X?}");
        assert_eq!(Scaling::read_unit(&unit, &mut work).map(|_| ()), due, "{unit:X?}");
    }
}

/// A set is read by its own kind's call only; one that is refused for itself gets the same by every call.
#[test]
fn another_kind() {
    for set in made::all() {
        let (mut rbsp, mut unit, mut work) = ([0; LONGEST_RBSP], [0; LONGEST_UNIT], [0; LONGEST_RBSP]);
        let len = set.write(&mut rbsp).unwrap();
        let unit_len = set.write_unit(UnitHeader::default(), &mut unit).unwrap();
        let (rbsp, unit) = (&rbsp[..len], &unit[..unit_len]);
        let wrong = Refusal::InvalidData;
        let of = |kind, set: Aps| {
            if set.kind() == kind {
                Ok((set, len * 8))
            } else {
                Err(wrong)
            }
        };
        let alf = |(set, end)| (Aps::Alf(set), end);
        assert_eq!(Alf::read(rbsp).map(alf), of(Kind::Alf, set.clone()));
        assert_eq!(Alf::read_unit(unit, &mut work).map(alf), of(Kind::Alf, set.clone()));
        let lmcs = |(set, end)| (Aps::Lmcs(set), end);
        assert_eq!(Lmcs::read(rbsp).map(lmcs), of(Kind::Lmcs, set.clone()));
        assert_eq!(Lmcs::read_unit(unit, &mut work).map(lmcs), of(Kind::Lmcs, set.clone()));
        let scaling = |(set, end)| (Aps::Scaling(set), end);
        assert_eq!(Scaling::read(rbsp).map(scaling), of(Kind::Scaling, set.clone()));
        assert_eq!(
            Scaling::read_unit(unit, &mut work).map(scaling),
            of(Kind::Scaling, set.clone())
        );
        assert_eq!(Head::read(rbsp), Ok((set.head(), len * 8)));
        assert_eq!(Head::read_unit(unit, &mut work), Ok((set.head(), len * 8)));
    }
    for first in 3..8 {
        let rbsp = [first << 5, 0];
        let unsupported = Refusal::Unsupported;
        assert_eq!(Alf::read(&rbsp), Err(unsupported));
        assert_eq!(Lmcs::read(&rbsp), Err(unsupported));
        assert_eq!(Scaling::read(&rbsp), Err(unsupported));
        assert_eq!(read(&rbsp), Err(unsupported));
        assert_eq!(Head::read(&rbsp), Err(unsupported));
    }
}

/// After any of its bytes but the last.
#[test]
fn cut_off() {
    for set in [
        Aps::Alf(made::alf(0)),
        Aps::Lmcs(made::lmcs(0)),
        Aps::Scaling(made::scaling(0)),
    ] {
        let mut out = [0; LONGEST_RBSP];
        let len = write(&set, &mut out).unwrap();
        for cut in 0..len {
            assert_eq!(read(&out[..cut]), Err(Refusal::UnexpectedEnd), "{cut} of {len} bytes");
            assert_eq!(
                Head::read(&out[..cut]),
                Err(Refusal::UnexpectedEnd),
                "{cut} of {len} bytes"
            );
        }
    }
}

#[test]
fn too_long() {
    let (long, mut out) = (vec![0; LONGEST_INPUT + 1], vec![0; 2 * LONGEST_INPUT]);
    let long = &long[..];
    assert_eq!(nal_header(long), Err(Refusal::InputTooLong));
    for kind in 0..8 {
        let mut long = long.to_vec();
        (long[0], long[2]) = (kind << 5, kind << 5);
        assert_eq!(read(&long), Err(Refusal::InputTooLong));
        assert_eq!(Head::read(&long), Err(Refusal::InputTooLong));
        assert_eq!(read_unit(&long, &mut out), Err(Refusal::InputTooLong));
        assert_eq!(Head::read_unit(&long, &mut out), Err(Refusal::InputTooLong));
    }
    assert_eq!(rewrite(long, &mut out), Err(Refusal::InputTooLong));
    assert_eq!(ebsp_to_rbsp(long, &mut out), Err(Refusal::InputTooLong));
    assert_eq!(rbsp_to_ebsp(long, &mut out), Err(Refusal::InputTooLong));
    assert_eq!(Table::new().take_unit(long, &mut out), Err(Refusal::InputTooLong));
    assert_eq!(Table::new().take_stream(long, &mut out), Err(Refusal::InputTooLong));
    assert!(nal_header(&long[1..]).is_ok());
    assert!(ebsp_to_rbsp(&long[1..], &mut out).is_ok());
    assert!(rbsp_to_ebsp(&long[1..], &mut out).is_ok());
    assert!(Table::new().take_unit(&long[1..], &mut []).is_ok());
    assert!(Table::new().take_stream(&long[1..], &mut []).is_ok());
}
