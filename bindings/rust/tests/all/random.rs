//! Random bytes, the same in each run: whole, sets that are written with some bits flipped or cut off, and RBSPs of some 2,048 bytes.

use crate::flags::{alf_flags, lmcs_flags, scaling_flags};
use crate::made::{self, header, LONGEST_UNIT};
use kendwyra::escapes::{ebsp_to_rbsp, rbsp_to_ebsp};
use kendwyra::sets::{nal_header, read, read_unit, rewrite, write_unit};
use kendwyra::{
    raw, Alf, Aps, Head, Held, Kind, Lmcs, Refusal, Scaling, Table, Taken, UnitHeader, LIST_BYTES, LONGEST_RBSP,
    TABLE_BYTES,
};
use std::fmt::Debug;
use std::mem::MaybeUninit;
use std::ops::Range;

/// Numbers by a xorshift.
struct Random(u64);

impl Random {
    fn number(&mut self) -> u64 {
        self.0 ^= self.0 << 13;
        self.0 ^= self.0 >> 7;
        self.0 ^= self.0 << 17;
        self.0
    }

    fn below(&mut self, end: usize) -> usize {
        (self.number() >> 16) as usize % end
    }

    fn bytes(&mut self, len: usize) -> Vec<u8> {
        (0..len).map(|_| (self.number() >> 32) as u8).collect()
    }

    /// Bytes under a first byte that mostly names a kind, a small set and what makes some 2,048 bytes of it, or one of these with up to two bits
    /// flipped and mostly not cut.
    fn changed(&mut self, written: &[Vec<u8>]) -> Vec<u8> {
        if self.below(8) == 0 {
            let (kind, id) = (Kind::ALL[self.below(3)], self.below(5) as u8);
            let len = LONGEST_RBSP - 8 + self.below(16);
            return made::followed(kind, id, [0x00, 0x03, 0xFF][self.below(3)], len);
        }
        if self.below(4) == 0 {
            let len = self.below(200);
            let mut bytes = self.bytes(len);
            if let Some(first) = bytes.first_mut() {
                *first &= [0x7F, 0x5F, 0xFF][self.below(3)];
            }
            return bytes;
        }
        let mut bytes = written[self.below(written.len())].clone();
        for _ in 0..self.below(3) {
            let bit = self.below(bytes.len() * 8);
            bytes[bit / 8] ^= 1 << (bit % 8);
        }
        if self.below(4) == 0 {
            bytes.truncate(self.below(bytes.len()));
        }
        bytes
    }
}

/// The RBSPs of sets, and small ones.
fn written() -> Vec<Vec<u8>> {
    let small = [
        Aps::Alf(Alf::default()),
        Aps::Lmcs(Lmcs::default()),
        Aps::Scaling(Scaling {
            scaling_list_copy_mode_flag: [true; 28],
            ..Scaling::default()
        }),
    ];
    let of = |set: &Aps| {
        let mut out = vec![0; LONGEST_RBSP];
        let len = set.write(&mut out).unwrap();
        out.truncate(len);
        out
    };
    let longest = Aps::Scaling(made::long_lists(0, made::LONGER_STEPS));
    small.iter().chain(&made::all()).chain([&longest]).map(of).collect()
}

/// What a call of one kind gives into a set whose bytes are all 255: its flags are 0 or 1, and a refusal leaves them.
fn into_ones<S>(flags: &[Range<usize>], call: impl FnOnce(*mut S) -> u32) -> Result<S, Refusal> {
    let mut set = MaybeUninit::<S>::uninit();
    // SAFETY: it is filled with bytes, and taken for a set once the flags among them are 0 or 1.
    unsafe {
        set.as_mut_ptr().write_bytes(255, 1);
        let code = call(set.as_mut_ptr());
        let byte = |at: usize| set.as_ptr().cast::<u8>().add(at).read();
        if code != 0 {
            assert!((0..size_of::<S>()).all(|at| byte(at) == 255));
            return Err(Refusal::from_number(code).unwrap());
        }
        assert!(flags.iter().cloned().flatten().all(|at| byte(at) <= 1));
        Ok(set.assume_init())
    }
}

/// A set of one kind into ones too, and what is due: the set if it is of this kind, `InvalidData` if not, or the set's refusal.
fn one_kind<S: PartialEq + Debug>(
    due: &Result<(Aps, usize), Refusal>,
    kind: Kind,
    aps: fn(S) -> Aps,
    got: Result<(S, usize), Refusal>,
    into_ones: Result<S, Refusal>,
) {
    let due = match due {
        Ok((set, _)) if set.kind() != kind => Err(Refusal::InvalidData),
        due => due.clone(),
    };
    assert_eq!(into_ones.map(aps), due.clone().map(|(set, _)| set));
    assert_eq!(got.map(|(set, end)| (aps(set), end)), due);
}

/// The calls that read an RBSP; they agree.
fn read_rbsp(rbsp: &[u8], flags: &[Vec<Range<usize>>; 3]) {
    let due = read(rbsp);
    let (from, len) = (rbsp.as_ptr(), rbsp.len());
    assert_eq!(due == Err(Refusal::InputTooLong), len > LONGEST_RBSP);
    let head = due.as_ref().map(|(set, end)| (set.head(), *end)).map_err(|why| *why);
    assert_eq!(Head::read(rbsp), head);
    // SAFETY: the pointers are those of the slice, with its length, and of a set.
    let ones = into_ones(&flags[0], |set| unsafe {
        raw::aps_alf_parse_rbsp(from, len, set, &mut 0)
    });
    one_kind(&due, Kind::Alf, Aps::Alf, Alf::read(rbsp), ones);
    // SAFETY: as above.
    let ones = into_ones(&flags[1], |set| unsafe {
        raw::aps_lmcs_parse_rbsp(from, len, set, &mut 0)
    });
    one_kind(&due, Kind::Lmcs, Aps::Lmcs, Lmcs::read(rbsp), ones);
    // SAFETY: as above.
    let ones = into_ones(&flags[2], |set| unsafe {
        raw::aps_scaling_parse_rbsp(from, len, set, &mut 0)
    });
    one_kind(&due, Kind::Scaling, Aps::Scaling, Scaling::read(rbsp), ones);

    for end_of in [raw::aps_alf_end, raw::aps_lmcs_end, raw::aps_scaling_end] {
        let mut end = 0;
        // SAFETY: the pointer is the slice's, with its length.
        let code = unsafe { end_of(from, len, &mut end) };
        assert_eq!(
            (code, end as usize),
            due.as_ref().map_or_else(|why| (why.number(), 0), |(_, end)| (0, *end))
        );
    }

    let (mut out, mut again) = ([0; LONGEST_RBSP], [0; LONGEST_RBSP]);
    let again_len = rewrite(rbsp, &mut again);
    match due {
        Ok((set, end)) => {
            let len = set.write(&mut out);
            assert_eq!(again_len, len);
            assert_eq!(
                len,
                if set.aps_extension_flag() {
                    Err(Refusal::Unsupported)
                } else {
                    Ok(end / 8)
                }
            );
            if let Ok(len) = len {
                assert_eq!(out[..len], rbsp[..len]);
            }
        }
        Err(why) => assert_eq!(again_len, Err(why)),
    }
    assert_eq!(out, again);
}

#[test]
fn rbsps() {
    let (mut random, written) = (Random(0x1234_5678_9ABC_DEF1), written());
    let flags = [alf_flags(), lmcs_flags(), scaling_flags()];
    let (mut taken, mut refused) = (0, 0);
    for _ in 0..4_000 {
        let rbsp = random.changed(&written);
        read_rbsp(&rbsp, &flags);
        *(if read(&rbsp).is_ok() { &mut taken } else { &mut refused }) += 1;
    }
    assert!(taken > 500 && refused > 500, "{taken} and {refused}");
}

/// A unit of these bytes, mostly of a header that is read.
fn unit(random: &mut Random, written: &[Vec<u8>]) -> Vec<u8> {
    let rbsp = random.changed(written);
    let mut unit = vec![0; 2 + rbsp.len() * 2];
    let len = match random.below(4) {
        0 => {
            unit[2..2 + rbsp.len()].copy_from_slice(&rbsp);
            rbsp.len()
        }
        _ => rbsp_to_ebsp(&rbsp, &mut unit[2..]).unwrap(),
    };
    unit.truncate(2 + len);
    let end = [56, 56, 56, 56, 56, 256][random.below(6)];
    unit[0] = random.below(end) as u8;
    unit[1] = [0x89, 0x91, 0x8F, 0x97, 0x8C, random.number() as u8][random.below(6)];
    unit
}

/// The RBSP of a unit that is read: its header is accepted and the RBSP is not too long; else none.
fn rbsp_read(unit: &[u8]) -> Vec<u8> {
    if unit.len() < 2 || header_read(unit).is_none() {
        return vec![];
    }
    let mut rbsp = vec![0; unit.len()];
    let len = ebsp_to_rbsp(&unit[2..], &mut rbsp).unwrap();
    rbsp.truncate(if len > LONGEST_RBSP { 0 } else { len });
    rbsp
}

/// A unit's header where it is read; none: both the table and the calls of a set refuse it or pass it over.
fn header_read(unit: &[u8]) -> Option<UnitHeader> {
    let read = nal_header(unit).unwrap();
    let header = header(read.nal_unit_type, read.nuh_layer_id, read.nuh_temporal_id_plus1);
    let zero_bits = (read.forbidden_zero_bit, read.nuh_reserved_zero_bit) == (0, 0);
    (zero_bits && made::is_taken(header)).then_some(header)
}

#[test]
fn units() {
    let (mut random, written) = (Random(0xFEDC_BA98_7654_3211), written());
    let flags = [alf_flags(), lmcs_flags(), scaling_flags()];
    let mut table = Table::new();
    let (mut taken, mut emptied, mut headers_refused, mut too_long) = (0, 0, 0, 0);
    for _ in 0..4_000 {
        let unit = unit(&mut random, &written);
        let mut works = [[0xAA; LONGEST_RBSP]; 4];
        let due = read_unit(&unit, &mut works[0]);
        let read = rbsp_read(&unit);
        assert_eq!(works[0][..read.len()], read);
        assert!(works[0][read.len()..].iter().all(|byte| *byte == 0xAA));
        assert_eq!(read_unit(&unit, &mut works[1][..read.len()]), due);
        assert_eq!(works[1], works[0]);
        if let Some(short) = read.len().checked_sub(1) {
            works[1].fill(0xAA);
            assert_eq!(read_unit(&unit, &mut works[1][..short]), Err(Refusal::OutputTooShort));
            assert_eq!(
                table.take_unit(&unit, &mut works[1][..short]),
                Err(Refusal::OutputTooShort)
            );
            assert_eq!(works[1], [0xAA; LONGEST_RBSP]);
        }
        let head = due.as_ref().map(|(set, end)| (set.head(), *end)).map_err(|why| *why);
        assert_eq!(Head::read_unit(&unit, &mut works[1]), head);
        let (from, len, to, room) = (unit.as_ptr(), unit.len(), works[2].as_mut_ptr(), LONGEST_RBSP);
        // SAFETY: the pointers are those of the unit and the work buffer, with their lengths, and of a set.
        let ones = into_ones(&flags[0], |set| unsafe {
            raw::aps_alf_parse(from, len, to, room, set, &mut 0)
        });
        one_kind(&due, Kind::Alf, Aps::Alf, Alf::read_unit(&unit, &mut works[3]), ones);
        assert_eq!(works[0], works[2]);
        let to = works[2].as_mut_ptr();
        // SAFETY: as above.
        let ones = into_ones(&flags[1], |set| unsafe {
            raw::aps_lmcs_parse(from, len, to, room, set, &mut 0)
        });
        one_kind(&due, Kind::Lmcs, Aps::Lmcs, Lmcs::read_unit(&unit, &mut works[3]), ones);
        let to = works[2].as_mut_ptr();
        // SAFETY: as above.
        let ones = into_ones(&flags[2], |set| unsafe {
            raw::aps_scaling_parse(from, len, to, room, set, &mut 0)
        });
        one_kind(
            &due,
            Kind::Scaling,
            Aps::Scaling,
            Scaling::read_unit(&unit, &mut works[3]),
            ones,
        );
        assert!(works.iter().all(|work| *work == works[0]));

        let before = table.clone();
        let answer = table.take_unit(&unit, &mut works[1]);
        let is_aps = matches!(nal_header(&unit).unwrap().nal_unit_type, 17 | 18);
        match (due, header_read(&unit)) {
            (Ok((set, _)), header) => {
                taken += 1;
                assert_eq!(answer, Ok(Taken::Accepted));
                let (header, kind, id) = (header.unwrap(), set.kind(), set.aps_adaptation_parameter_set_id());
                let head = set.head();
                assert_eq!(table.head(kind, id), Ok(Held { header, set: head }));
                assert_eq!(table.lookup(kind, id), Ok(Held { header, set }));
            }
            (Err(why), None) => {
                headers_refused += usize::from(is_aps);
                assert_eq!(why, Refusal::InvalidData);
                assert_eq!(answer, if is_aps { Err(why) } else { Ok(Taken::PassedOver) });
                assert_eq!(sets(&table), sets(&before));
                assert_eq!(works[1], [0xAA; LONGEST_RBSP]);
            }
            (Err(why), Some(_)) => {
                assert_eq!(answer, Err(why));
                let mut due = sets(&before);
                if why == Refusal::InputTooLong {
                    too_long += 1;
                    assert_eq!(works[1], [0xAA; LONGEST_RBSP]);
                }
                let damaged = matches!(
                    why,
                    Refusal::UnexpectedEnd | Refusal::InvalidData | Refusal::InputTooLong
                );
                if let Some(place) = unit.get(2).and_then(|&first| place(first)).filter(|_| damaged) {
                    emptied += usize::from(due[place].is_ok());
                    due[place] = Err(Refusal::EmptyPlace);
                }
                assert_eq!(sets(&table), due);
            }
        }
    }
    assert!(taken > 500, "{taken}");
    assert!(emptied > 50, "{emptied}");
    assert!(headers_refused > 100, "{headers_refused}");
    assert!(too_long > 50, "{too_long}");
}

/// The place, by kind and then id, that an RBSP's first byte names.
fn place(first: u8) -> Option<usize> {
    let (kind, id) = (Kind::from_number(first / 32)?, first % 32);
    let before: u8 = Kind::ALL[..kind.number().into()]
        .iter()
        .map(|kind| kind.max_id() + 1)
        .sum();
    (id <= kind.max_id()).then_some((before + id).into())
}

/// Each place of a table.
fn sets(table: &Table) -> Vec<Result<Held<Aps>, Refusal>> {
    let places = Kind::ALL
        .into_iter()
        .flat_map(|kind| (0..=kind.max_id()).map(move |id| (kind, id)));
    places.map(|(kind, id)| table.lookup(kind, id)).collect()
}

/// The units of a stream that is taken: after 00 00 01 each, up to 00 00 00, 00 00 01 or zeros at the end.
fn units_of(stream: &[u8]) -> Vec<&[u8]> {
    let starts = (3..=stream.len()).filter(|at| stream[at - 3..*at] == [0, 0, 1]);
    let from = |at| {
        let rest = &stream[at..];
        let next = rest.windows(3).position(|bytes| matches!(bytes, [0, 0, 0 | 1]));
        let unit = &rest[..next.unwrap_or(rest.len())];
        let zeros = unit.iter().rev().take_while(|byte| **byte == 0).count();
        if next.is_none() {
            &unit[..unit.len() - zeros]
        } else {
            unit
        }
    };
    starts.map(from).collect()
}

#[test]
fn streams() {
    let (mut random, written) = (Random(0x0F1E_2D3C_4B5A_6979), written());
    let mut table = Table::new();
    let (mut accepted, mut refused, mut unread) = (0, 0, 0);
    for _ in 0..600 {
        let mut stream = vec![];
        for _ in 0..random.below(6) {
            stream.extend(&[0, 0, 0, 1][random.below(2)..]);
            stream.extend(unit(&mut random, &written));
        }
        if random.below(8) == 0 {
            let len = random.below(9);
            stream = [random.bytes(len), stream].concat();
        }
        let mut work = vec![0xAA; LONGEST_RBSP];
        let mut before = table.clone();
        match table.take_stream(&stream, &mut work) {
            Ok(counts) => {
                accepted += counts.accepted;
                refused += counts.refused;
                let units = units_of(&stream);
                assert_eq!(units.len(), counts.accepted + counts.refused + counts.passed_over);
                let room = units.iter().map(|unit| rbsp_read(unit).len()).max().unwrap_or(0);
                assert!(work[room..].iter().all(|byte| *byte == 0xAA));
                if let Some(short) = room.checked_sub(1) {
                    let (mut work, old) = (vec![0xAA; short], sets(&before));
                    let answer = before.take_stream(&stream, &mut work);
                    assert_eq!(answer, Err(Refusal::OutputTooShort));
                    assert_eq!((work, sets(&before)), (vec![0xAA; short], old));
                }
                let mut exact = vec![0xAA; room];
                assert_eq!(before.take_stream(&stream, &mut exact), Ok(counts));
                assert_eq!((&exact[..], sets(&before)), (&work[..room], sets(&table)));
            }
            Err(why) => {
                unread += 1;
                assert_eq!(why, Refusal::InvalidData);
                assert!(work.iter().all(|byte| *byte == 0xAA));
                assert_eq!(sets(&table), sets(&before));
            }
        }
        let mut second = Table::new();
        match table.list() {
            Ok(list) => {
                let counts = second.take_stream(&list, &mut [0; LONGEST_RBSP]).unwrap();
                assert_eq!((counts.refused, counts.passed_over), (0, 0));
                assert_eq!(sets(&second), sets(&table));
                assert_eq!(second.list(), Ok(list));
            }
            Err(why) => assert_eq!(why, Refusal::Unsupported),
        }
        if random.below(10) == 0 {
            table = Table::new();
        }
    }
    assert!(
        accepted > 200 && refused > 200 && unread > 20,
        "{accepted}, {refused} and {unread}"
    );
}

/// A table's bytes, with each of the 20 sets in its place.
fn full_table() -> [u8; TABLE_BYTES] {
    let (mut table, mut unit, mut work) = ([0; TABLE_BYTES], [0; LONGEST_UNIT], [0; LONGEST_RBSP]);
    for Held { header, set } in made::held() {
        let len = set.write_unit(header, &mut unit).unwrap();
        // SAFETY: the pointers are those of arrays, with lengths in them.
        let code = unsafe { raw::aps_take_unit(&mut table, unit.as_ptr(), len, work.as_mut_ptr(), work.len()) };
        assert_eq!(code, 0);
    }
    table
}

const ONES: UnitHeader = UnitHeader {
    nal_unit_type: 255,
    nuh_layer_id: 255,
    nuh_temporal_id_plus1: 255,
};

/// What a lookup in any bytes gives into ones: 2 where the id has no place, else a set with a header that is read, or 6.
fn looked_up<S>(call: impl FnOnce(*mut UnitHeader) -> Result<S, Refusal>, no_place: bool) -> Option<UnitHeader> {
    let mut header = ONES;
    let refusal = call(&mut header).err();
    if refusal.is_none() {
        assert!(!no_place && made::is_taken(header));
        return Some(header);
    }
    let due = [Refusal::EmptyPlace, Refusal::InvalidData][usize::from(no_place)];
    assert_eq!((refusal, header), (Some(due), ONES));
    None
}

/// Any bytes are some table.
#[test]
fn tables() {
    let (mut random, written, full) = (Random(0x5A5A_1234_8765_C3C3), written(), full_table());
    let flags = [alf_flags(), lmcs_flags(), scaling_flags()];
    let mut found = 0;
    for round in 0..200 {
        let mut table = match round {
            0 => [0xFF; TABLE_BYTES],
            1 => [0; TABLE_BYTES],
            2 => [1; TABLE_BYTES],
            _ if round % 4 == 0 => random.bytes(TABLE_BYTES).try_into().unwrap(),
            _ => full,
        };
        for _ in 0..random.below(60) {
            let bit = random.below(TABLE_BYTES * 8);
            table[bit / 8] ^= 1 << (bit % 8);
        }
        for id in 0..=9 {
            let (alf, lmcs, scaling) = (&flags[0], &flags[1], &flags[2]);
            let held = [
                looked_up(
                    // SAFETY: the table, a set and a header are lent whole.
                    |header| into_ones(alf, |set| unsafe { raw::aps_alf_lookup(&table, id, set, header) }),
                    id > 7,
                ),
                looked_up(
                    // SAFETY: as above.
                    |header| into_ones(lmcs, |set| unsafe { raw::aps_lmcs_lookup(&table, id, set, header) }),
                    id > 3,
                ),
                looked_up(
                    // SAFETY: as above.
                    |header| {
                        into_ones(scaling, |set| unsafe {
                            raw::aps_scaling_lookup(&table, id, set, header)
                        })
                    },
                    id > 7,
                ),
            ];
            found += held.iter().flatten().count();
            for kind in 0..4 {
                let (mut head, mut header) = ([255u8; 4], ONES);
                // SAFETY: a head's four bytes have no alignment, and these are not taken for one; the header is lent whole.
                let code = unsafe { raw::aps_head_lookup(&table, kind, id, head.as_mut_ptr().cast(), &mut header) };
                match code {
                    0 => assert!(head[..2] == [kind, id] && head[2] <= 1 && head[3] <= 1),
                    _ => assert_eq!(head, [255; 4]),
                }
                let due = held.get(usize::from(kind)).copied().flatten();
                assert_eq!((code == 0).then_some(header), due);
                assert!(code == 0 || header == ONES);
            }
        }
        let (mut out, mut len) = (vec![0xAA; LIST_BYTES], 0);
        // SAFETY: the table is lent whole, and the pointer is a slice's, with its length.
        let code = unsafe { raw::aps_write_list(&table, out.as_mut_ptr(), out.len(), &mut len) };
        assert!(len as usize <= LIST_BYTES);
        assert!(code == 0 || out.iter().all(|byte| *byte == 0xAA));
        let (unit, mut work) = (unit(&mut random, &written), [0; LONGEST_RBSP]);
        // SAFETY: as above.
        unsafe { raw::aps_take_unit(&mut table, unit.as_ptr(), unit.len(), work.as_mut_ptr(), work.len()) };
    }
    assert!((1_000..3_500).contains(&found), "{found}");
}

#[test]
fn escapes() {
    let mut random = Random(0x7777_1111_2222_3335);
    for _ in 0..2_000 {
        let len = random.below(40);
        let mut bytes = random.bytes(len);
        for byte in &mut bytes {
            *byte &= [0, 3, 3, 255][random.below(4)];
        }
        let (mut ebsp, mut rbsp) = ([0; 64], [0; 64]);
        let ebsp_len = rbsp_to_ebsp(&bytes, &mut ebsp).unwrap();
        assert!(ebsp_len <= len * 3 / 2);
        assert_eq!(ebsp_to_rbsp(&ebsp[..ebsp_len], &mut rbsp), Ok(len));
        assert_eq!(rbsp[..len], bytes);
        assert!(ebsp_to_rbsp(&bytes, &mut rbsp).unwrap() <= len);
    }
}

/// Sets with a random number in a field.
#[test]
fn writing() {
    let (mut random, mut sets) = (Random(0x1357_9BDF_0246_8ACE), made::all());
    sets.extend((0..8).map(|id| Aps::Scaling(made::long_lists(id, made::LONGER_STEPS))));
    let (mut taken, mut refused, mut too_long) = (0, 0, 0);
    for round in 0..3_000 {
        let mut set = sets[random.below(sets.len())].clone();
        let number = random.number() as u32 >> random.below(32);
        let at = random.below(2_000);
        match &mut set {
            Aps::Alf(set) => match at % 6 {
                0 => set.alf_luma_num_filters_signalled_minus1 = number,
                1 => set.alf_luma_coeff_delta_idx[at % 25] = number as u8,
                2 => set.alf_luma_coeff_abs[at % 25][at % 12] = number,
                3 => set.alf_luma_clip_idx[at % 25][at % 12] = number as u8,
                4 => set.alf_chroma_num_alt_filters_minus1 = number,
                _ => set.alf_cc_cb_filters_signalled_minus1 = number,
            },
            Aps::Lmcs(set) => match at % 4 {
                0 => set.lmcs_min_bin_idx = number,
                1 => set.lmcs_delta_max_bin_idx = number,
                2 => set.lmcs_delta_cw_prec_minus1 = number,
                _ => set.lmcs_delta_abs_cw[at % 16] = number,
            },
            Aps::Scaling(set) => match at % 3 {
                0 => set.scaling_list_pred_id_delta[at % 28] = number,
                1 => set.scaling_list_dc_coef[at % 14] = number as i32,
                _ => set.scaling_list[at % 28][at % 64] = number as i32,
            },
        }
        let unit_header = header(
            17 + random.below(2) as u8,
            random.below(56) as u8,
            1 + random.below(7) as u8,
        );
        let (mut out, mut unit) = ([0xAA; LONGEST_RBSP], [0xAA; LONGEST_UNIT]);
        match set.write(&mut out) {
            Ok(len) => {
                taken += 1;
                let (again, end) = read(&out[..len]).unwrap();
                assert_eq!(end, len * 8, "{round}");
                assert_eq!(again.head(), set.head());
                let unit_len = write_unit(&set, unit_header, &mut unit).unwrap();
                assert_eq!(header_read(&unit), Some(unit_header));
                assert_eq!(read_unit(&unit[..unit_len], &mut [0; LONGEST_RBSP]), Ok((again, end)));
            }
            Err(why) => {
                let long_lists = matches!(&set, Aps::Scaling(set) if !set.scaling_list_copy_mode_flag[0]);
                assert!(why == Refusal::InvalidData || why == Refusal::InputTooLong && long_lists);
                *(if why == Refusal::InvalidData {
                    &mut refused
                } else {
                    &mut too_long
                }) += 1;
                assert_eq!(write_unit(&set, unit_header, &mut unit), Err(why));
                assert_eq!(write_unit(&set, unit_header, &mut []), Err(why));
                assert_eq!((out, unit), ([0xAA; LONGEST_RBSP], [0xAA; LONGEST_UNIT]));
            }
        }
    }
    assert!(taken > 200 && refused > 200, "{taken} and {refused}");
    assert!(too_long > 20, "{too_long}");
}
