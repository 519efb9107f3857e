//! The calls of H.265 lists, by the crate's declarations. Lists are numbers in one order: that of C's struct.

use super::structs::Struct;
use super::{ARRAY_CHANGED, MARK};
use crate::library::sets::sized;
use crate::rust_hevc::HevcScalingListData;
use kendwyra::hevc::Lists;
use kendwyra::raw;

/// How many numbers lists have.
pub const NUMBERS: usize = 1_308;

/// The numbers of the Rust's record.
pub fn lists_of(d: &HevcScalingListData) -> Vec<i64> {
    let flags = d.pred_mode_flag.iter().flatten().map(|&b| i64::from(b));
    let deltas = d.pred_matrix_id_delta.iter().flatten().map(|&n| i64::from(n));
    let dcs = d.dc_coef_minus8.iter().flatten().map(|&n| i64::from(n));
    let small = d.list_4x4.iter().flatten().map(|&n| i64::from(n));
    let large = [&d.list_8x8, &d.list_16x16, &d.list_32x32];
    let large = large.into_iter().flatten().flatten().map(|&n| i64::from(n));
    flags.chain(deltas).chain(dcs).chain(small).chain(large).collect()
}

/// C's struct as bytes, with some after it that no call may change.
const SIZE: usize = size_of::<Lists>();

fn bytes_of(numbers: &[i64]) -> Vec<u8> {
    let (flags, rest) = numbers.split_at(24);
    let (words, lists) = rest.split_at(36);
    let mut out: Vec<u8> = flags.iter().map(|&n| n as u8).collect();
    words.iter().for_each(|&n| out.extend((n as u32).to_le_bytes()));
    out.extend(lists.iter().map(|&n| n as u8));
    out.resize(SIZE, MARK as u8);
    out
}

fn numbers_of(bytes: &[u8]) -> Vec<i64> {
    let words: Vec<u32> = bytes[24..168]
        .as_chunks()
        .0
        .iter()
        .map(|word| u32::from_le_bytes(*word))
        .collect();
    let flags = bytes[..24].iter().map(|&b| i64::from(b));
    let deltas = words[..24].iter().map(|&n| i64::from(n));
    let dcs = words[24..].iter().map(|&n| i64::from(n as i32));
    let lists = bytes[168..168 + 1_248].iter().map(|&b| i64::from(b));
    flags.chain(deltas).chain(dcs).chain(lists).collect()
}

#[repr(align(8))]
struct Aligned([u8; SIZE + 8]);

/// The lists, and the bit where reading ended.
pub fn read(bytes: &[u8]) -> Result<(Vec<i64>, usize), u32> {
    let mut lent = Aligned([MARK as u8; SIZE + 8]);
    let mut end = MARK;
    let to = std::hint::black_box(lent.0.as_mut_ptr());
    let code = unsafe { raw::aps_hevc_parse(bytes.as_ptr(), bytes.len(), to.cast(), &mut end) };
    let kept = if code == 0 { &lent.0[SIZE..] } else { &lent.0[..] };
    if kept.iter().any(|&b| b != MARK as u8) {
        return Err(ARRAY_CHANGED + code);
    }
    sized(code, end).map(|end| (numbers_of(&lent.0), end))
}

/// Lists into an output.
pub fn write(numbers: &[i64], out: &mut [u8]) -> Result<usize, u32> {
    let mut lent = Aligned([MARK as u8; SIZE + 8]);
    lent.0[..SIZE].copy_from_slice(&bytes_of(numbers));
    let mut len = MARK;
    let from = std::hint::black_box(lent.0.as_ptr());
    let code = unsafe { raw::aps_hevc_write(from.cast(), out.as_mut_ptr(), out.len(), &mut len) };
    if lent.0[..SIZE] != bytes_of(numbers) {
        return Err(ARRAY_CHANGED + code);
    }
    sized(code, len)
}

/// The set of lists, as its numbers.
pub fn scaling_set(bytes: &[u8]) -> Result<Vec<i64>, u32> {
    let mut set = Struct::marked(2);
    let code = unsafe { raw::aps_hevc_scaling_set(bytes.as_ptr(), bytes.len(), set.pointer::<u8>().cast()) };
    match (code, set.numbers()) {
        (0, Some(numbers)) => Ok(numbers),
        (code, _) if code != 0 && set.is_marked() => Err(code),
        (code, _) => Err(ARRAY_CHANGED + code),
    }
}
