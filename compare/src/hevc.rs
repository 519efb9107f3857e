//! H.265 scaling lists read and written against the Rust's two functions, cut out of its hevc.rs, and the H.266 sets made of them against a plain
//! model of H.265 7.4.5.

use crate::bit_reader::BitReader;
use crate::bit_writer::BitWriter;
use crate::expected::number;
use crate::library::hevc::{lists_of, read, scaling_set, write, NUMBERS};
use crate::library::meanings::bytes;
use crate::random::Random;
use crate::rust_hevc::{parse, write as write_lists, HevcScalingListData};
use crate::tally::Tally;
use kendwyra::raw;

const INPUTS: usize = 1_000_000;
const LONGEST: usize = 65_536;

pub fn compare() -> Vec<Tally> {
    let mut rows = [
        "H.265 lists: read",
        "H.265 lists: refused with 1",
        "H.265 lists: refused with 2",
        "H.265 lists: read and written again",
        "H.265 lists: numbers written",
        "H.265 lists: numbers refused with 2",
        "H.265 lists: made a set",
        "H.265 lists: an element of 0",
        "H.265 lists: too long, or no room",
    ]
    .map(Tally::new);
    let mut random = Random::new(44);
    for round in 0..INPUTS {
        let input = input(&mut random, round);
        let expected = read_both(&mut rows, &mut random, &input);
        if round % 8 < 2 {
            converted(&mut rows, &input, expected);
        }
        if round % 4 == 0 {
            numbers(&mut rows, &mut random, round);
        }
    }
    limits(&mut rows, &mut random);
    rows.into()
}

/// Generated lists, whole, damaged, cut or with bytes after them, and random bytes.
fn input(random: &mut Random, round: usize) -> Vec<u8> {
    if round % 16 == 0 {
        let len = random.below(60);
        return match random.below(3) {
            0 => random.bytes(len),
            1 => random.sparse(len),
            _ => vec![0xFF; len],
        };
    }
    let mut bytes = written(&lists(random)).expect("lists in range are written").0;
    match random.below(10) {
        0 => {
            let bit = random.below(bytes.len() * 8);
            bytes[bit / 8] ^= 0x80 >> (bit % 8);
        }
        1 => bytes.truncate(random.below(bytes.len())),
        2 => {
            let more = random.below(9);
            bytes.extend(random.bytes(more));
        }
        _ => (),
    }
    bytes
}

/// Lists in range: mostly predicted, or sent with small or any steps; now and then with an element of 0.
fn lists(random: &mut Random) -> HevcScalingListData {
    let mut d = HevcScalingListData::default();
    let sent = [2, 8, 1][random.below(3)];
    let wild = random.below(6) == 0;
    for size in 0..4 {
        for matrix in (0..6).step_by(if size == 3 { 3 } else { 1 }) {
            if random.below(sent) > 0 {
                let most = if size == 3 { matrix / 3 } else { matrix };
                d.pred_matrix_id_delta[size][matrix] =
                    [0, 1.min(most), most, random.below(most + 1)][random.below(4)] as u32;
                continue;
            }
            d.pred_mode_flag[size][matrix] = true;
            if size > 1 {
                d.dc_coef_minus8[size - 2][matrix] = [-7, 247, 8, random.below(255) as i32 - 7][random.below(4)];
            }
            let mut value = 8 + random.below(40) as i32;
            for i in 0..if size == 0 { 16 } else { 64 } {
                value = match wild {
                    true => random.below(256) as i32,
                    false => (value + random.below(7) as i32 - 3).clamp(i32::from(random.below(3_000) > 0), 255),
                };
                list(&mut d, size)[matrix][i] = value as u8;
            }
        }
    }
    d
}

/// The lists of a size as slices.
fn list(d: &mut HevcScalingListData, size: usize) -> [&mut [u8]; 6] {
    match size {
        0 => d.list_4x4.each_mut().map(|l| &mut l[..]),
        1 => d.list_8x8.each_mut().map(|l| &mut l[..]),
        2 => d.list_16x16.each_mut().map(|l| &mut l[..]),
        _ => d.list_32x32.each_mut().map(|l| &mut l[..]),
    }
}

/// What the Rust writes, and how many bits.
fn written(d: &HevcScalingListData) -> Result<(Vec<u8>, usize), u32> {
    let mut w = BitWriter::new();
    write_lists(&mut w, d).map_err(number)?;
    let bits = w.bit_pos();
    while !w.byte_aligned() {
        w.write_bit(0);
    }
    Ok((w.finish(), bits))
}

type Read = Result<(HevcScalingListData, usize), u32>;

/// Read by both, and what was read written again.
fn read_both(rows: &mut [Tally; 9], random: &mut Random, input: &[u8]) -> Read {
    let expected = rust(input);
    let row = match &expected {
        Ok(_) => 0,
        Err(1) => 1,
        Err(_) => 2,
    };
    let due = expected.as_ref().map(|(d, end)| (lists_of(d), *end)).map_err(|&e| e);
    rows[row].same(|| format!("lists {input:02X?}"), read(input), due);
    if let Ok((d, end)) = &expected {
        let mut due = input[..end.div_ceil(8)].to_vec();
        if end % 8 > 0 {
            *due.last_mut().expect("a byte") &= 0xFF << (8 - end % 8);
        }
        let mut out = vec![0xA5; due.len() + random.below(3)];
        let len = write(&lists_of(d), &mut out);
        let again = (len, out[..due.len()].to_vec());
        rows[3].same(
            || format!("lists {input:02X?} written again"),
            again,
            (Ok(due.len()), due),
        );
    }
    expected
}

/// The set that is made of them.
fn converted(rows: &mut [Tally; 9], input: &[u8], expected: Read) {
    let (row, made) = match expected {
        Ok((d, _)) => {
            let resolved = resolved(&d);
            match resolved.iter().any(|(list, _)| list.contains(&0)) {
                true => (7, Err(13)),
                false => (6, Ok(resolved)),
            }
        }
        Err(1) => (1, Err(1)),
        Err(e) => (2, Err(e)),
    };
    conversion(&mut rows[row], input, made);
}

/// The Rust's answer, and the bit where it ended; 1 where a bit is missing.
fn rust(input: &[u8]) -> Read {
    let mut r = BitReader::new(input);
    let read = parse(&mut r).map_err(number);
    // The fields in their order, each with its rule, and an end at the first that passes the input's last bit.
    match short(input) {
        Err(1) => Err(1),
        Err(e) => {
            assert!(read.is_err(), "a rule that the Rust has too");
            Err(e)
        }
        Ok(end) => {
            let d = read.expect("lists that the Rust reads");
            assert_eq!(r.bit_pos(), end, "where the Rust ended");
            Ok((d, end))
        }
    }
}

/// H.265 7.3.4 by its own words: 1 at the first missing bit, 2 at the first value out of range, or the bit where it ends.
fn short(input: &[u8]) -> Result<usize, u32> {
    let mut at = 0;
    for size in 0..4 {
        for matrix in (0..6).step_by(if size == 3 { 3 } else { 1 }) {
            if bits(input, &mut at, 1)? == 0 {
                let most = if size == 3 { matrix / 3 } else { matrix };
                if ue(input, &mut at)? > most {
                    return Err(2);
                }
                continue;
            }
            if size > 1 && !(-7..=247).contains(&se(input, &mut at)?) {
                return Err(2);
            }
            for _ in 0..if size == 0 { 16 } else { 64 } {
                if !(-128..=127).contains(&se(input, &mut at)?) {
                    return Err(2);
                }
            }
        }
    }
    Ok(at)
}

fn bits(input: &[u8], at: &mut usize, n: usize) -> Result<u64, u32> {
    if input.len() * 8 < *at + n {
        return Err(1);
    }
    let value = (*at..*at + n).fold(0, |v, i| v * 2 + u64::from(input[i / 8] >> (7 - i % 8) & 1));
    *at += n;
    Ok(value)
}

fn ue(input: &[u8], at: &mut usize) -> Result<u64, u32> {
    let mut zeros = 0;
    while bits(input, at, 1)? == 0 {
        zeros += 1;
        if zeros == 32 {
            return Err(2);
        }
    }
    Ok((1 << zeros) - 1 + bits(input, at, zeros)?)
}

fn se(input: &[u8], at: &mut usize) -> Result<i64, u32> {
    let k = ue(input, at)? as i64;
    Ok(if k % 2 == 1 { (k + 1) / 2 } else { -k / 2 })
}

/// 7.4.5: of each size and matrix, 0 and 3 alone at 32x32, the list in scan order and its DC.
fn resolved(d: &HevcScalingListData) -> Vec<(Vec<u8>, u8)> {
    let mut out: Vec<(Vec<u8>, u8)> = Vec::new();
    let mut copy = d.clone();
    for size in 0..4 {
        let first = out.len();
        let step = if size == 3 { 3 } else { 1 };
        for matrix in (0..6).step_by(step) {
            let delta = d.pred_matrix_id_delta[size][matrix] as usize;
            let made = if d.pred_mode_flag[size][matrix] {
                let n = if size == 0 { 16 } else { 64 };
                let dc = if size > 1 {
                    d.dc_coef_minus8[size - 2][matrix] + 8
                } else {
                    0
                };
                (list(&mut copy, size)[matrix][..n].to_vec(), dc as u8)
            } else if delta == 0 {
                (default(size, matrix), 16)
            } else {
                out[first + matrix / step - delta].clone()
            };
            out.push(made);
        }
    }
    out
}

/// Tables 7-5 and 7-6.
fn default(size: usize, matrix: usize) -> Vec<u8> {
    match (size, matrix) {
        (0, _) => vec![16; 16],
        (_, 0..3) => INTRA.to_vec(),
        _ => INTER.to_vec(),
    }
}

#[rustfmt::skip]
const INTRA: [u8; 64] = [
    16, 16, 16, 16, 16, 16, 16, 16, 16, 16, 17, 16, 17, 16, 17, 18, 17, 18, 18, 17, 18, 21, 19, 20, 21, 20, 19, 21, 24, 22, 22, 24,
    24, 22, 22, 24, 25, 25, 27, 30, 27, 25, 25, 29, 31, 35, 35, 31, 29, 36, 41, 44, 41, 36, 47, 54, 54, 47, 65, 70, 65, 88, 88, 115,
];

#[rustfmt::skip]
const INTER: [u8; 64] = [
    16, 16, 16, 16, 16, 16, 16, 16, 16, 16, 17, 17, 17, 17, 17, 18, 18, 18, 18, 18, 18, 20, 20, 20, 20, 20, 20, 20, 24, 24, 24, 24,
    24, 24, 24, 24, 25, 25, 25, 25, 25, 25, 25, 28, 28, 28, 28, 28, 28, 33, 33, 33, 33, 33, 41, 41, 41, 41, 54, 54, 54, 71, 71, 91,
];

/// The set that is made: its factors and DCs by the calls for them, in each id that a list goes to, and 16 in the others. The set itself is
/// written and read back, unless it is too long.
fn conversion(t: &mut Tally, input: &[u8], expected: Result<Vec<(Vec<u8>, u8)>, u32>) {
    let set = scaling_set(input);
    let (numbers, resolved) = match (set, expected) {
        (Ok(numbers), Ok(resolved)) => (numbers, resolved),
        (set, expected) => {
            return t.same(
                || format!("a set of {input:02X?}"),
                set.map(|_| ()),
                expected.map(|_| ()),
            );
        }
    };
    let ids = (2..20).chain([20, 23]);
    let named: Vec<(usize, (Vec<u8>, u8))> = ids.zip(resolved).collect();
    let mut same = numbers[1..4] == [0, 1, 0];
    for id in 0..28usize {
        let side = [2, 4, 8][usize::from(id > 1) + usize::from(id > 7)];
        let list = named.iter().find(|(of, _)| *of == id);
        let due = list.map_or(vec![16; side * side], |(_, (list, _))| list.clone());
        let mut rows = vec![0; side * side];
        for (&factor, (x, y)) in due.iter().zip(diagonal(side)) {
            rows[y * side + x] = factor;
        }
        let id = id as u32;
        let library = match side {
            8 => bytes(&numbers, 64, |set, out| unsafe {
                raw::aps_scaling_matrix8(set.cast(), id, &mut *out.cast())
            }),
            4 => bytes(&numbers, 16, |set, out| unsafe {
                raw::aps_scaling_matrix4(set.cast(), id, &mut *out.cast())
            }),
            _ => bytes(&numbers, 4, |set, out| unsafe {
                raw::aps_scaling_matrix2(set.cast(), id, &mut *out.cast())
            }),
        };
        same &= library == Ok(rows);
        if id > 13 {
            let dc = bytes(&numbers, 1, |set, out| unsafe {
                raw::aps_scaling_dc(set.cast(), id, &mut *out)
            });
            same &= dc == Ok(vec![list.map_or(16, |(_, (_, dc))| *dc)]);
        }
    }
    let mut out = vec![0; 4_000];
    let written = crate::library::sets::write(&numbers, &mut out);
    same &= written.is_ok() || written == Err(4);
    t.same(|| format!("factors of the set of {input:02X?}"), same, true);
}

/// 6.5.3: x and y along the diagonals of a block, each from the bottom left up.
fn diagonal(side: usize) -> Vec<(usize, usize)> {
    let diagonal = |d: usize| {
        (0..side)
            .filter(move |&x| x <= d && d - x < side)
            .map(move |x| (x, d - x))
    };
    (0..2 * side - 1).flat_map(diagonal).collect()
}

/// Lists as numbers, in range or with some changed, written into just enough room, less and more.
fn numbers(rows: &mut [Tally; 9], random: &mut Random, round: usize) {
    let mut d = lists(random);
    if round % 8 == 0 {
        let (size, matrix) = (random.below(4), random.below(6));
        match random.below(3) {
            0 => d.pred_matrix_id_delta[size][matrix] = [random.below(8) as u32, random.number()][random.below(2)],
            1 => d.dc_coef_minus8[size / 2][matrix] = [-9, -8, -7, 247, 248, random.number() as i32][random.below(6)],
            _ => d.pred_mode_flag[size][matrix] ^= true,
        }
    }
    let expected = written(&d);
    let numbers = lists_of(&d);
    let due = expected.as_ref().map_or(20, |(bytes, _)| bytes.len());
    for room in [due, due - 1, due + 3, 0] {
        let mut out = vec![0xA5; room];
        let len = write(&numbers, &mut out);
        let (row, due) = match &expected {
            Ok((bytes, _)) if bytes.len() <= room => (
                4,
                (Ok(bytes.len()), [&bytes[..], &vec![0xA5; room - bytes.len()]].concat()),
            ),
            Ok(_) => (8, (Err(5), vec![0xA5; room])),
            Err(e) => (5, (Err(*e), vec![0xA5; room])),
        };
        rows[row].same(
            || format!("lists written into {room} bytes: {numbers:?}"),
            (len, out),
            due,
        );
    }
}

/// 65,536 bytes are read, and one more gets 4; a flag that is neither 0 nor 1 gets 2.
fn limits(rows: &mut [Tally; 9], random: &mut Random) {
    for _ in 0..200 {
        let mut input = written(&lists(random)).expect("lists in range").0;
        let whole = read(&input);
        input.resize(LONGEST, 0xFF);
        rows[8].same(|| "as long as is read".into(), read(&input), whole);
        input.push(0);
        rows[8].same(|| "longer by one".into(), read(&input), Err(4));
        rows[8].same(
            || "longer by one, a set".into(),
            scaling_set(&input).map(|_| ()),
            Err(4),
        );
        let mut numbers = lists_of(&lists(random));
        numbers[random.below(24)] = [2, 255][random.below(2)];
        rows[5].same(|| "a flag 2".into(), write(&numbers, &mut [0; 3_000]), Err(2));
    }
    assert_eq!(NUMBERS, 24 + 24 + 12 + 96 + 3 * 384);
}
