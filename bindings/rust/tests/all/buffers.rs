//! Empty slices, and inputs, outputs and work buffers that are too short.

use crate::bytes::{example, example_list, hex};
use crate::made::{self, header, LONGEST_UNIT};
use kendwyra::escapes::{ebsp_to_rbsp, rbsp_to_ebsp};
use kendwyra::sets::{nal_header, read, read_unit, rewrite, write, write_unit};
use kendwyra::{raw, Alf, Aps, Counts, Head, Lmcs, Refusal, Scaling, Table, Taken, UnitHeader, LONGEST_RBSP};

const END: Refusal = Refusal::UnexpectedEnd;
const SHORT: Refusal = Refusal::OutputTooShort;

#[test]
fn empty_slices() {
    assert_eq!(nal_header(&[]), Err(END));
    assert_eq!(read(&[]), Err(END));
    assert_eq!(Head::read(&[]), Err(END));
    assert_eq!(Alf::read(&[]), Err(END));
    assert_eq!(Lmcs::read(&[]), Err(END));
    assert_eq!(Scaling::read(&[]), Err(END));
    for unit in [hex(""), hex("00 89")] {
        assert_eq!(read_unit(&unit, &mut []), Err(END));
        assert_eq!(Head::read_unit(&unit, &mut []), Err(END));
        assert_eq!(Alf::read_unit(&unit, &mut []), Err(END));
        assert_eq!(Lmcs::read_unit(&unit, &mut []), Err(END));
        assert_eq!(Scaling::read_unit(&unit, &mut []), Err(END));
    }
    assert_eq!(rewrite(&[], &mut []), Err(END));
    assert_eq!(rewrite(&hex("00 10"), &mut []), Err(SHORT));
    for set in made::all() {
        assert_eq!(write(&set, &mut []), Err(SHORT));
        assert_eq!(write_unit(&set, UnitHeader::default(), &mut []), Err(SHORT));
        for wrong in [header(19, 0, 1), header(17, 56, 1), header(18, 0, 0)] {
            assert_eq!(write_unit(&set, wrong, &mut []), Err(Refusal::InvalidData));
        }
    }
    assert_eq!(ebsp_to_rbsp(&[], &mut []), Ok(0));
    assert_eq!(rbsp_to_ebsp(&[], &mut []), Ok(0));
}

#[test]
fn empty_slices_and_a_table() {
    let mut table = Table::new();
    assert_eq!(table.write_list(&mut []), Ok(0));
    assert_eq!(table.list(), Ok(vec![]));
    assert_eq!(table.take_unit(&[], &mut []), Err(END));
    assert_eq!(table.take_unit(&hex("00 01"), &mut []), Ok(Taken::PassedOver));
    let none = Counts {
        accepted: 0,
        refused: 0,
        passed_over: 0,
    };
    assert_eq!(table.take_stream(&[], &mut []), Ok(none));
    table.take_stream(&example(), &mut [0; 3]).unwrap();
    assert_eq!(table.write_list(&mut []), Err(SHORT));
}

/// Writes `due` into room of every length up to its own, and two bytes more.
fn into_each_room(due: &[u8], write: impl Fn(&mut [u8]) -> Result<usize, Refusal>) {
    for room in 0..due.len() {
        let mut out = vec![0xAA; room];
        assert_eq!(write(&mut out), Err(SHORT));
        assert_eq!(out, vec![0xAA; room]);
    }
    for more in [0, 2] {
        let mut out = vec![0xAA; due.len() + more];
        assert_eq!(write(&mut out), Ok(due.len()));
        assert_eq!(out, [due, &[0xAA; 2][..more]].concat());
    }
}

#[test]
fn outputs() {
    let set = Aps::Lmcs(made::lmcs(1));
    let (mut rbsp, mut unit) = ([0; 64], [0; 64]);
    let len = write(&set, &mut rbsp).unwrap();
    let layered = header(18, 55, 7);
    let unit_len = write_unit(&set, layered, &mut unit).unwrap();
    into_each_room(&rbsp[..len], |out| write(&set, out));
    into_each_room(&unit[..unit_len], |out| write_unit(&set, layered, out));
    into_each_room(&rbsp[..len], |out| rewrite(&rbsp[..len], out));
    into_each_room(&hex("00 00 03 01"), |out| rbsp_to_ebsp(&hex("00 00 01"), out));
    into_each_room(&hex("00 00 01"), |out| ebsp_to_rbsp(&hex("00 00 03 01"), out));
    let mut table = Table::new();
    table.take_stream(&example(), &mut [0; 3]).unwrap();
    into_each_room(&example_list(), |out| table.write_list(out));
}

/// Each call of a set of each kind, with a length one short.
#[test]
fn one_short() {
    for set in [
        Aps::Alf(made::alf(1)),
        Aps::Lmcs(made::lmcs(1)),
        Aps::Scaling(made::scaling(1)),
    ] {
        let (mut rbsp, mut unit) = ([0; LONGEST_RBSP], [0; LONGEST_UNIT]);
        let len = write(&set, &mut rbsp).unwrap();
        let unit_len = write_unit(&set, UnitHeader::default(), &mut unit).unwrap();
        let (rbsp, unit) = (&rbsp[..len], &unit[..unit_len]);

        let mut out = vec![0xAA; unit_len];
        assert_eq!(write(&set, &mut out[..len - 1]), Err(SHORT));
        assert_eq!(
            write_unit(&set, UnitHeader::default(), &mut out[..unit_len - 1]),
            Err(SHORT)
        );
        assert_eq!(rewrite(rbsp, &mut out[..len - 1]), Err(SHORT));
        assert_eq!(rbsp_to_ebsp(rbsp, &mut out[..unit_len - 3]), Err(SHORT));
        assert_eq!(ebsp_to_rbsp(&unit[2..], &mut out[..len - 1]), Err(SHORT));
        assert_eq!(read_unit(unit, &mut out[..len - 1]), Err(SHORT));
        assert_eq!(Head::read_unit(unit, &mut out[..len - 1]), Err(SHORT));
        let mut table = Table::new();
        assert_eq!(table.take_unit(unit, &mut out[..len - 1]), Err(SHORT));
        let stream = [&[0, 0, 1], unit].concat();
        assert_eq!(table.take_stream(&stream, &mut out[..len - 1]), Err(SHORT));
        assert_eq!(table.list(), Ok(vec![]));
        assert_eq!(out, vec![0xAA; unit_len]);
        assert_eq!(
            table
                .take_stream(&stream, &mut out[..len])
                .map(|counts| counts.accepted),
            Ok(1)
        );
        assert_eq!(out[..len], *rbsp);

        assert_eq!(read(&rbsp[..len - 1]), Err(END));
        assert_eq!(Head::read(&rbsp[..len - 1]), Err(END));
        assert_eq!(rewrite(&rbsp[..len - 1], &mut out), Err(END));
        assert_eq!(read_unit(&unit[..unit_len - 1], &mut out), Err(END));
        assert_eq!(table.take_unit(&unit[..unit_len - 1], &mut out), Err(END));
        assert_eq!(read_unit(unit, &mut out[..len]), Ok((set, len * 8)));
        assert_eq!(table.take_unit(unit, &mut out[..len]), Ok(Taken::Accepted));
        assert_eq!(table.write_list(&mut vec![0; unit_len + 3]), Err(SHORT));
        assert_eq!(table.write_list(&mut vec![0; unit_len + 4]), Ok(unit_len + 4));
    }
}

/// The calls by kind that only `raw` has.
#[test]
fn raw_calls() {
    type End = unsafe extern "C" fn(*const u8, usize, &mut u64) -> u32;
    type Rewrite = unsafe extern "C" fn(*const u8, usize, *mut u8, usize, &mut u64) -> u32;
    let calls: [(Aps, End, Rewrite); 3] = [
        (Aps::Alf(made::alf(1)), raw::aps_alf_end, raw::aps_alf_rewrite),
        (Aps::Lmcs(made::lmcs(1)), raw::aps_lmcs_end, raw::aps_lmcs_rewrite),
        (
            Aps::Scaling(made::scaling(1)),
            raw::aps_scaling_end,
            raw::aps_scaling_rewrite,
        ),
    ];
    for (set, end, rewrite) in &calls {
        let end = |bytes: &[u8]| {
            let mut bit = 9;
            // SAFETY: the pointer is a slice's, with its own length.
            let code = unsafe { end(bytes.as_ptr(), bytes.len(), &mut bit) };
            (code, bit)
        };
        let rewrite = |bytes: &[u8], out: &mut [u8]| {
            let mut len = 9;
            // SAFETY: both pointers are those of slices, with their own lengths, and the slices don't overlap.
            let code = unsafe { rewrite(bytes.as_ptr(), bytes.len(), out.as_mut_ptr(), out.len(), &mut len) };
            (code, len)
        };
        assert_eq!(end(&[]), (1, 9));
        assert_eq!(rewrite(&[], &mut []), (1, 9));
        for (other, _, _) in &calls {
            let (mut rbsp, mut out) = ([0; LONGEST_RBSP], [0; LONGEST_RBSP]);
            let len = write(other, &mut rbsp).unwrap();
            assert_eq!(end(&rbsp[..len]), (0, len as u64 * 8));
            assert_eq!(end(&rbsp[..len - 1]), (1, 9));
            if other.kind() != set.kind() {
                assert_eq!(rewrite(&rbsp[..len], &mut out), (2, 9));
                continue;
            }
            assert_eq!(rewrite(&rbsp[..len], &mut []), (5, 9));
            assert_eq!(rewrite(&rbsp[..len], &mut out[..len - 1]), (5, 9));
            assert_eq!(out, [0; LONGEST_RBSP]);
            assert_eq!(rewrite(&rbsp[..len], &mut out), (0, len as u64));
            assert_eq!(out, rbsp);
        }
    }
}

#[test]
fn work() {
    let unit = hex("00 89 20 42 12");
    let mut table = Table::new();
    let mut work = [0xAA; 4];
    assert_eq!(read_unit(&unit, &mut work[..2]), Err(SHORT));
    assert_eq!(Head::read_unit(&unit, &mut work[..2]), Err(SHORT));
    assert_eq!(Alf::read_unit(&unit, &mut work[..2]), Err(SHORT));
    assert_eq!(Lmcs::read_unit(&unit, &mut work[..2]), Err(SHORT));
    assert_eq!(Scaling::read_unit(&unit, &mut work[..2]), Err(SHORT));
    assert_eq!(table.take_unit(&unit, &mut work[..2]), Err(SHORT));
    assert_eq!(table.take_stream(&example(), &mut work[..2]), Err(SHORT));
    assert_eq!(work, [0xAA; 4]);
    assert_eq!(table.list(), Ok(vec![]));
    assert_eq!(table.take_unit(&unit, &mut work[..3]), Ok(Taken::Accepted));
    assert_eq!(work[..], hex("20 42 12 AA"));
    assert!(table.take_stream(&example(), &mut work[..3]).is_ok());
    assert_eq!(work[..], hex("00 10 12 AA"));
}
