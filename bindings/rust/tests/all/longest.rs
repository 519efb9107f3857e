//! RBSPs of 2,048 bytes and of one more, read, written and taken, and the work buffers of streams.

use crate::bytes::{bits, example, hex};
use crate::flags::with_bytes;
use crate::made::{self, followed, header, long_lists, stream, unit, LONGER_STEPS, LONGEST_UNIT};
use kendwyra::sets::{read, read_unit, rewrite, write, write_unit};
use kendwyra::{
    raw, Alf, Aps, Counts, Head, Held, Kind, Lmcs, Refusal, Scaling, Table, Taken, UnitHeader, LIST_BYTES,
    LONGEST_INPUT, LONGEST_RBSP, TABLE_BYTES,
};
use std::mem::{offset_of, MaybeUninit};

const LONG: Refusal = Refusal::InputTooLong;
const SHORT: Refusal = Refusal::OutputTooShort;
const WRONG: Refusal = Refusal::InvalidData;

/// What the small set of `followed` is.
fn small(kind: Kind, id: u8) -> (Aps, usize) {
    let (mut alf, mut lmcs, mut scaling) = (Alf::default(), Lmcs::default(), Scaling::default());
    match kind {
        Kind::Alf => {
            alf.aps_adaptation_parameter_set_id = id;
            (Aps::Alf(alf), 16)
        }
        Kind::Lmcs => {
            lmcs.aps_adaptation_parameter_set_id = id;
            lmcs.lmcs_delta_max_bin_idx = 15;
            (Aps::Lmcs(lmcs), 24)
        }
        Kind::Scaling => {
            scaling.aps_adaptation_parameter_set_id = id;
            scaling.scaling_list_copy_mode_flag = [true; 28];
            (Aps::Scaling(scaling), 32)
        }
    }
}

/// Every kind with every id.
fn places() -> impl Iterator<Item = (Kind, u8)> {
    Kind::ALL
        .into_iter()
        .flat_map(|kind| (0..=kind.max_id()).map(move |id| (kind, id)))
}

/// How an RBSP is read by the calls of any kind, the head's and those of each kind.
fn each_reading(rbsp: &[u8]) -> [Result<(), Refusal>; 8] {
    let end = |call: unsafe extern "C" fn(*const u8, usize, &mut u64) -> u32| {
        // SAFETY: the pointer is the slice's, with its length.
        let code = unsafe { call(rbsp.as_ptr(), rbsp.len(), &mut 0) };
        Refusal::from_number(code).map_or(Ok(()), Err)
    };
    [
        read(rbsp).map(|_| ()),
        Head::read(rbsp).map(|_| ()),
        Alf::read(rbsp).map(|_| ()),
        Lmcs::read(rbsp).map(|_| ()),
        Scaling::read(rbsp).map(|_| ()),
        end(raw::aps_alf_end),
        end(raw::aps_lmcs_end),
        end(raw::aps_scaling_end),
    ]
}

/// How a unit is read by each of these calls, and the work buffer after it.
fn each_reading_of_a_unit(unit: &[u8], room: usize) -> [(Result<(), Refusal>, Vec<u8>); 5] {
    let with_work = |read: fn(&[u8], &mut [u8]) -> Result<(), Refusal>| {
        let mut work = vec![0xAA; room];
        (read(unit, &mut work), work)
    };
    [
        with_work(|unit, work| read_unit(unit, work).map(|_| ())),
        with_work(|unit, work| Head::read_unit(unit, work).map(|_| ())),
        with_work(|unit, work| Alf::read_unit(unit, work).map(|_| ())),
        with_work(|unit, work| Lmcs::read_unit(unit, work).map(|_| ())),
        with_work(|unit, work| Scaling::read_unit(unit, work).map(|_| ())),
    ]
}

#[test]
fn constants() {
    // ALF and LMCS sets have at most 832 and 37 bytes; a place has a header too, a unit of the list a start code.
    assert_eq!(LONGEST_RBSP, 2_048);
    assert_eq!(TABLE_BYTES, 8 * (2 + 832) + 4 * (2 + 37) + 8 * (2 + LONGEST_RBSP));
    assert_eq!(
        LIST_BYTES,
        8 * (6 + 832 * 3 / 2) + 4 * (6 + 37 * 3 / 2) + 8 * (4 + LONGEST_UNIT)
    );
}

/// A small set, whatever follows it.
#[test]
fn rbsps() {
    for (kind, id) in places() {
        for byte in [0x00, 0x01, 0x03, 0xFF] {
            let rbsp = followed(kind, id, byte, LONGEST_RBSP);
            let (set, end) = small(kind, id);
            assert_eq!(read(&rbsp), Ok((set.clone(), end)));
            assert_eq!(Head::read(&rbsp), Ok((set.head(), end)));
            let refusals = each_reading(&rbsp).into_iter().filter_map(Result::err);
            assert_eq!(refusals.collect::<Vec<_>>(), [WRONG; 2]);
            let mut out = [0xAA; LONGEST_RBSP];
            assert_eq!(rewrite(&rbsp, &mut out), Ok(end / 8));
            assert_eq!(out[..end / 8], rbsp[..end / 8]);

            let long = followed(kind, id, byte, LONGEST_RBSP + 1);
            assert_eq!(each_reading(&long), [Err(LONG); 8]);
            let mut out = [0xAA; LONGEST_UNIT];
            assert_eq!(rewrite(&long, &mut out), Err(LONG));
            assert_eq!(rewrite(&long, &mut []), Err(LONG));
            for call in [raw::aps_alf_rewrite, raw::aps_lmcs_rewrite, raw::aps_scaling_rewrite] {
                let (from, to, mut len) = (long.as_ptr(), out.as_mut_ptr(), 9);
                // SAFETY: the pointers are those of slices, with their lengths.
                let code = unsafe { call(from, long.len(), to, LONGEST_UNIT, &mut len) };
                assert_eq!((code, len), (4, 9));
            }
            assert_eq!(out, [0xAA; LONGEST_UNIT]);
        }
    }
}

/// Whatever else is wrong with it: its kind or id, or its set.
#[test]
fn a_long_rbsp_is_not_looked_at() {
    for first in 0..=255 {
        for byte in [0x00, 0xFF] {
            let mut rbsp = vec![byte; LONGEST_RBSP + 1];
            rbsp[0] = first;
            assert_eq!(each_reading(&rbsp), [Err(LONG); 8]);
            let unit = [hex("00 89"), rbsp].concat();
            if byte == 0xFF {
                let due = std::array::from_fn(|_| (Err(LONG), vec![]));
                assert_eq!(each_reading_of_a_unit(&unit, 0), due);
            }
        }
    }
}

/// The work buffer has as many bytes as the RBSP, or one less.
#[test]
fn units() {
    let layered = header(18, 55, 7);
    for kind in Kind::ALL {
        for byte in [0x00, 0x01, 0x03, 0xFF] {
            for len in [5, 6, 2_047, LONGEST_RBSP] {
                let rbsp = followed(kind, 3, byte, len);
                let unit = unit(layered, &rbsp);
                let (set, end) = small(kind, 3);
                let mut work = vec![0xAA; len];
                assert_eq!(read_unit(&unit, &mut work), Ok((set, end)));
                for (answer, work) in each_reading_of_a_unit(&unit, len) {
                    assert!(answer.is_ok() || answer == Err(WRONG));
                    assert_eq!(work, rbsp);
                }
                for room in [0, len - 1] {
                    let due = std::array::from_fn(|_| (Err(SHORT), vec![0xAA; room]));
                    assert_eq!(each_reading_of_a_unit(&unit, room), due);
                }
            }
            for len in [LONGEST_RBSP + 1, 3_000] {
                let rbsp = followed(kind, 3, byte, len);
                for room in [0, LONGEST_RBSP, 4_000] {
                    let due = |why| std::array::from_fn(|_| (Err(why), vec![0xAA; room]));
                    assert_eq!(each_reading_of_a_unit(&unit(layered, &rbsp), room), due(LONG));
                    for wrong in [header(16, 0, 1), header(18, 56, 1), header(17, 0, 0)] {
                        assert_eq!(each_reading_of_a_unit(&unit(wrong, &rbsp), room), due(WRONG));
                    }
                }
            }
        }
    }
}

/// Escapes don't count: they are not of the RBSP.
#[test]
fn a_longer_unit() {
    let unit = unit(UnitHeader::default(), &followed(Kind::Lmcs, 0, 0x00, LONGEST_RBSP));
    assert!(unit.len() > 3_000);
    let mut table = Table::new();
    assert_eq!(table.take_unit(&unit, &mut [0; LONGEST_RBSP]), Ok(Taken::Accepted));
    assert_eq!(
        table.lookup(Kind::Lmcs, 0).map(|held| held.set),
        Ok(small(Kind::Lmcs, 0).0)
    );
    // What followed the set is not held.
    assert_eq!(table.list(), Ok(hex("00 00 00 01 00 89 20 42 12")));
}

/// A se(v) that isn't 0.
fn se(step: i32) -> String {
    let code = step.unsigned_abs() * 2 + u32::from(step < 0);
    let digits = format!("{code:b}");
    "0".repeat(digits.len() - 1) + &digits
}

/// The RBSP of `long_lists`, bit by bit: no list is copied or predicted, and each DC is 0.
fn bits_of_long_lists(set: &Scaling) -> Vec<u8> {
    let mut text = format!("010 {:05b} 1", set.aps_adaptation_parameter_set_id);
    for (list, entries) in set.scaling_list.iter().enumerate() {
        text += if list > 13 { "001" } else { "00" };
        let coded = &entries[..[4, 16, 64][usize::from(list > 1) + usize::from(list > 7)]];
        for (i, entry) in coded.iter().enumerate() {
            let step = entry - if i == 0 { 0 } else { coded[i - 1] };
            // The corner of 26 and 27 repeats the sum and is not coded.
            if step != 0 {
                text += &se(step);
            }
        }
    }
    bits(&(text + "0 1"))
}

#[test]
fn sets_read() {
    let longest = long_lists(7, LONGER_STEPS);
    let rbsp = bits_of_long_lists(&longest);
    assert_eq!(rbsp.len(), LONGEST_RBSP);
    assert_eq!(Scaling::read(&rbsp), Ok((longest, 8 * LONGEST_RBSP)));
    for longer in [1, 2, 100, 500] {
        let longer = long_lists(7, LONGER_STEPS + longer);
        let rbsp = bits_of_long_lists(&longer);
        assert!(rbsp.len() > LONGEST_RBSP);
        assert_eq!(each_reading(&rbsp), [Err(LONG); 8]);
        assert_eq!(
            each_reading(&rbsp[..LONGEST_RBSP]).map(|answer| answer.unwrap_err()),
            [Refusal::UnexpectedEnd; 8]
        );
    }
}

#[test]
fn sets_written() {
    let set = Aps::Scaling(long_lists(2, LONGER_STEPS));
    let mut rbsp = [0; LONGEST_RBSP];
    assert_eq!(write(&set, &mut rbsp[1..]), Err(SHORT));
    assert_eq!(rbsp, [0; LONGEST_RBSP]);
    assert_eq!(write(&set, &mut rbsp), Ok(LONGEST_RBSP));
    assert_eq!(read(&rbsp), Ok((set.clone(), 8 * LONGEST_RBSP)));
    let mut again = [0; LONGEST_RBSP];
    assert_eq!(rewrite(&rbsp, &mut again[1..]), Err(SHORT));
    assert_eq!(rewrite(&rbsp, &mut again), Ok(LONGEST_RBSP));
    assert_eq!(again, rbsp);

    let layered = header(18, 1, 2);
    let mut out = [0; LONGEST_UNIT];
    let len = write_unit(&set, layered, &mut out).unwrap();
    assert_eq!(out[..len], unit(layered, &rbsp));
    assert_eq!(read_unit(&out[..len], &mut again), Ok((set.clone(), 8 * LONGEST_RBSP)));
    assert_eq!(read_unit(&out[..len], &mut again[1..]), Err(SHORT));
    assert_eq!(write_unit(&set, layered, &mut out[..len - 1]), Err(SHORT));
}

/// Whatever the room is.
#[test]
fn longer_sets_are_not_written() {
    let longer = [1, 2, 8, 100, 637].map(|longer| long_lists(0, LONGER_STEPS + longer));
    // The longest codes of all, 17 bits for each step and each DC.
    let longest = made::stepped(0, -128, std::iter::repeat(-128));
    for set in longer.into_iter().chain([longest]) {
        let aps = Aps::Scaling(set.clone());
        for room in [0, 1, 2, LONGEST_RBSP, LONGEST_RBSP + 1, 6_000] {
            let mut out = vec![0xAA; room];
            assert_eq!(write(&aps, &mut out), Err(LONG));
            assert_eq!(write_unit(&aps, header(18, 55, 7), &mut out), Err(LONG));
            assert_eq!(out, vec![0xAA; room]);
        }
        // With lists copied it is short enough.
        let mut copied = set;
        copied.scaling_list_copy_mode_flag[12..].fill(true);
        assert!(copied.write(&mut [0; LONGEST_RBSP]).is_ok());
        assert_eq!(copied.write(&mut []), Err(SHORT));
    }
}

/// A unit's header, extension flag 1, what is wrong, then the length, then the room.
#[test]
fn the_order_of_writing() {
    let long = long_lists(0, LONGER_STEPS + 500);
    let refused = |set: &Scaling, due| {
        for room in [0, LONGEST_UNIT] {
            let mut out = vec![0xAA; room];
            assert_eq!(set.write(&mut out), Err(due));
            assert_eq!(set.write_unit(UnitHeader::default(), &mut out), Err(due));
            for wrong in [header(19, 0, 1), header(17, 56, 1), header(18, 0, 8)] {
                assert_eq!(set.write_unit(wrong, &mut out), Err(WRONG));
            }
            assert_eq!(out, vec![0xAA; room]);
        }
    };
    refused(&long, LONG);
    let changes: [fn(&mut Scaling); 6] = [
        |set| set.aps_adaptation_parameter_set_id = 8,
        |set| set.scaling_list[0][0] = 128,
        |set| set.scaling_list[2][15] = i32::MIN,
        |set| set.scaling_list_dc_coef[13] = 128,
        |set| set.scaling_list[27][0] = -129,
        // In the corner, which is not coded.
        |set| set.scaling_list[27][63] += 1,
    ];
    for change in changes {
        let mut set = long.clone();
        change(&mut set);
        refused(&set, WRONG);
        set.aps_extension_flag = true;
        refused(&set, Refusal::Unsupported);
    }
    let flags = [
        offset_of!(Scaling, aps_chroma_present_flag),
        offset_of!(Scaling, scaling_list_copy_mode_flag),
        offset_of!(Scaling, scaling_list_pred_mode_flag) + 27,
    ];
    for at in flags {
        let set: MaybeUninit<Scaling> = with_bytes(&long, &[(at, 2)]);
        let mut len = 9;
        // SAFETY: any bytes are lent as a set; no byte has room.
        let code = unsafe { raw::aps_scaling_write(set.as_ptr(), std::ptr::null_mut(), 0, &mut len) };
        assert_eq!((code, len), (2, 9));
    }
}

/// A table with the small set of each place.
fn full_table() -> (Table, Vec<Held<Aps>>) {
    let mut table = Table::new();
    let header = header(18, 7, 3);
    let mut held = vec![];
    for (kind, id) in places() {
        let unit = unit(header, &followed(kind, id, 0, 5));
        assert_eq!(table.take_unit(&unit, &mut [0; 5]), Ok(Taken::Accepted));
        held.push(Held {
            header,
            set: small(kind, id).0,
        });
    }
    assert_eq!(sets(&table), held);
    (table, held)
}

fn sets(table: &Table) -> Vec<Held<Aps>> {
    places().filter_map(|(kind, id)| table.lookup(kind, id).ok()).collect()
}

#[test]
fn a_unit_with_too_long_an_rbsp_empties_its_place() {
    for (place, (kind, id)) in places().enumerate() {
        for byte in [0x00, 0xFF] {
            let (mut table, mut held) = full_table();
            let layered = header(17, 9, 4);
            let longest = unit(layered, &followed(kind, id, byte, LONGEST_RBSP));
            assert_eq!(table.take_unit(&longest, &mut [0; LONGEST_RBSP]), Ok(Taken::Accepted));
            held[place].header = layered;
            assert_eq!(sets(&table), held);

            let long = unit(layered, &followed(kind, id, byte, LONGEST_RBSP + 1));
            for room in [0, 1, LONGEST_RBSP, LONGEST_RBSP + 1] {
                let mut work = vec![0xAA; room];
                let mut table = table.clone();
                assert_eq!(table.take_unit(&long, &mut work), Err(LONG));
                assert_eq!(work, vec![0xAA; room]);
                assert_eq!(table.lookup(kind, id), Err(Refusal::EmptyPlace));
                assert_eq!(table.head(kind, id), Err(Refusal::EmptyPlace));
                let mut others = held.clone();
                others.remove(place);
                assert_eq!(sets(&table), others);
                assert_eq!(table.take_unit(&longest, &mut [0; LONGEST_RBSP]), Ok(Taken::Accepted));
                assert_eq!(sets(&table), held);
            }
        }
    }
}

/// Too long an RBSP under a refused header, or whose first byte names no place; a unit of over 65,536 bytes; one of another type.
#[test]
fn what_empties_no_place() {
    let (mut table, held) = full_table();
    let mut work = [0xAA; LONGEST_RBSP];
    for (kind, id) in places() {
        let rbsp = followed(kind, id, 0xFF, LONGEST_RBSP + 1);
        for wrong in ["80 89", "40 91", "38 89", "00 88", "3F 97"] {
            let unit = [hex(wrong), rbsp.clone()].concat();
            assert_eq!(table.take_unit(&unit, &mut work), Err(WRONG));
        }
        let unit = [hex("00 81"), rbsp].concat();
        assert_eq!(table.take_unit(&unit, &mut work), Ok(Taken::PassedOver));
        let unit = [hex("00 89"), followed(kind, id, 0xFF, LONGEST_INPUT - 1)].concat();
        assert_eq!(unit.len(), LONGEST_INPUT + 1);
        assert_eq!(table.take_unit(&unit, &mut work), Err(LONG));
        let unit = [hex("00 89"), followed(kind, id, 0xFF, 5)].concat();
        assert_eq!(table.take_unit(&unit, &mut work[..4]), Err(SHORT));
    }
    for first in 0..=255u8 {
        if Kind::from_number(first / 32).is_some_and(|kind| first % 32 <= kind.max_id()) {
            continue;
        }
        for len in [LONGEST_RBSP + 1, LONGEST_INPUT - 2] {
            let unit = [&[0x00, 0x89, first], &vec![0xFF; len - 1][..]].concat();
            assert_eq!(table.take_unit(&unit, &mut work), Err(LONG));
        }
    }
    assert_eq!(work, [0xAA; LONGEST_RBSP]);
    assert_eq!(sets(&table), held);
    // As long as is taken.
    let unit = [hex("00 89"), followed(Kind::Alf, 0, 0xFF, LONGEST_INPUT - 2)].concat();
    assert_eq!(table.take_unit(&unit, &mut work), Err(LONG));
    assert_eq!(work, [0xAA; LONGEST_RBSP]);
    assert_eq!(sets(&table), held[1..]);
}

/// Each counts as refused, but for one of another type.
fn unread() -> Vec<Vec<u8>> {
    let long = followed(Kind::Scaling, 3, 0x00, LONGEST_RBSP + 1);
    vec![
        hex("00 09 00 10"),
        hex("38 89 00 10"),
        hex("80 89 00 10"),
        hex("00 88 00 10"),
        hex("00 89"),
        hex("07"),
        unit(UnitHeader::default(), &long),
        unit(header(18, 56, 1), &long),
    ]
}

#[test]
fn streams_that_need_no_work_buffer() {
    let (mut table, mut held) = full_table();
    for (bytes, passed_over, refused) in [
        (vec![], 0, 0),
        (vec![0; 9], 0, 0),
        (vec![0; LONGEST_INPUT], 0, 0),
        (stream(&[hex("00 09"), hex("28 01 00 10")]), 2, 0),
        (stream(&unread()[..6]), 1, 5),
    ] {
        let counts = Counts {
            accepted: 0,
            refused,
            passed_over,
        };
        assert_eq!(table.take_stream(&bytes, &mut []), Ok(counts));
        assert_eq!(sets(&table), held);
    }
    let counts = Counts {
        accepted: 0,
        refused: 7,
        passed_over: 1,
    };
    assert_eq!(table.take_stream(&stream(&unread()), &mut []), Ok(counts));
    let mut work = [0xAA; LONGEST_RBSP];
    assert_eq!(table.take_stream(&stream(&unread()), &mut work), Ok(counts));
    assert_eq!(work, [0xAA; LONGEST_RBSP]);
    // The place of the long unit, which is the fourth of the scaling lists.
    held.remove(15);
    assert_eq!(sets(&table), held);
}

/// The work buffer has as many bytes as the longest RBSP that is read, or less.
#[test]
fn streams() {
    let layered = header(18, 5, 2);
    for len in [5, 6, 100, 2_047, LONGEST_RBSP] {
        for byte in [0x00, 0xFF] {
            let mut units = unread();
            units.push(unit(layered, &followed(Kind::Alf, 1, byte, len)));
            units.push(unit(layered, &followed(Kind::Lmcs, 2, byte, 4)));
            // Sets that are cut off or damaged are read too.
            units.push(hex("00 89 24"));
            units.push(hex("00 89 24 00"));
            for shift in 0..units.len() {
                units.rotate_left(1);
                let bytes = stream(&units);
                let (mut table, held) = full_table();
                for room in [0, 4, len - 1] {
                    let mut work = vec![0xAA; room];
                    assert_eq!(table.take_stream(&bytes, &mut work), Err(SHORT), "{shift} {len}");
                    assert_eq!(work, vec![0xAA; room]);
                    assert_eq!(sets(&table), held);
                    let wrong = [&[1], &bytes[..]].concat();
                    assert_eq!(table.take_stream(&wrong, &mut work), Err(WRONG));
                }
                let mut work = vec![0xAA; len];
                let counts = Counts {
                    accepted: 2,
                    refused: 9,
                    passed_over: 1,
                };
                assert_eq!(table.take_stream(&bytes, &mut work), Ok(counts));
                let mut due = held;
                due[1].header = layered;
                due[10].header = layered;
                due.remove(15);
                assert_eq!(sets(&table), due);
            }
        }
    }
}

/// 65,536 bytes of stream, then the split, then the work buffer.
#[test]
fn the_order_of_a_stream() {
    let mut table = Table::new();
    let mut bytes = [example(), vec![0; LONGEST_INPUT]].concat();
    assert_eq!(table.take_stream(&bytes, &mut []), Err(LONG));
    bytes.truncate(LONGEST_INPUT);
    assert_eq!(table.take_stream(&bytes, &mut []), Err(SHORT));
    bytes[LONGEST_INPUT - 1] = 7;
    assert_eq!(table.take_stream(&bytes, &mut []), Err(WRONG));
    assert_eq!(table.list(), Ok(vec![]));
    bytes[LONGEST_INPUT - 1] = 0;
    assert_eq!(
        table.take_stream(&bytes, &mut [0; 3]).map(|counts| counts.accepted),
        Ok(2)
    );
}

/// No set that is held is too long for the list.
#[test]
fn a_list_of_the_longest_sets() {
    let mut table = Table::new();
    let mut work = [0; LONGEST_RBSP];
    let mut units = vec![];
    for Held { header, set } in made::held() {
        let set = match set {
            Aps::Scaling(set) => Aps::Scaling(long_lists(set.aps_adaptation_parameter_set_id, LONGER_STEPS)),
            set => set,
        };
        let mut rbsp = [0; LONGEST_RBSP];
        let len = write(&set, &mut rbsp).unwrap();
        assert_eq!(set.kind() == Kind::Scaling, len == LONGEST_RBSP);
        units.push(unit(header, &rbsp[..len]));
        assert_eq!(table.take_unit(units.last().unwrap(), &mut work), Ok(Taken::Accepted));
    }
    let list = table.list().unwrap();
    let due: Vec<u8> = units
        .iter()
        .flat_map(|unit| [&[0, 0, 0, 1], &unit[..]].concat())
        .collect();
    assert_eq!(list, due);
    assert!(list.len() <= LIST_BYTES);
    let mut second = Table::new();
    assert_eq!(
        second.take_stream(&list, &mut work).map(|counts| counts.accepted),
        Ok(20)
    );
    assert_eq!(sets(&second), sets(&table));
    assert_eq!(second.list(), Ok(list));
}
