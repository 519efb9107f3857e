//! The calls on what a set means, by the crate's declarations: a struct is lent, and words or bytes are filled.

use super::sets::HEAD;
use super::structs::Struct;
use super::{ARRAY_CHANGED, MARK};

/// After what a call fills.
const AFTER: usize = 3;

/// What a call fills, or the refusal's number. After a refusal nothing has changed, and never the struct or what follows.
fn filled<T: Copy + PartialEq>(
    numbers: &[i64],
    len: usize,
    mark: T,
    call: impl FnOnce(*const u8, *mut T) -> u32,
) -> Result<Vec<T>, u32> {
    let mut set = Struct::of(numbers);
    let before = set.clone();
    let mut out = vec![mark; len + AFTER];
    let code = call(set.pointer(), std::hint::black_box(out.as_mut_ptr()));
    let kept = if code == 0 { &out[len..] } else { &out[..] };
    if set != before || kept.iter().any(|&x| x != mark) {
        return Err(ARRAY_CHANGED + code);
    }
    if code != 0 {
        return Err(code);
    }
    out.truncate(len);
    Ok(out)
}

pub fn words(numbers: &[i64], len: usize, call: impl FnOnce(*const u8, *mut u32) -> u32) -> Result<Vec<u32>, u32> {
    filled(numbers, len, MARK as u32, call)
}

pub fn bytes(numbers: &[i64], len: usize, call: impl FnOnce(*const u8, *mut u8) -> u32) -> Result<Vec<u8>, u32> {
    filled(numbers, len, MARK as u8, call)
}

/// The set with extension flag 0.
pub fn plain(numbers: &[i64]) -> Vec<i64> {
    let mut plain = numbers.to_vec();
    plain[HEAD - 1] = 0;
    plain
}
