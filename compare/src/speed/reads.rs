//! Reads, one after another, of inputs one after another.

use std::hint::black_box;
use std::time::Instant;

use super::{time, Run, Time, CALLS};
use crate::bit_reader::BitReader;
use crate::library::raw;
use crate::rust_calls;

/// The bits that the Rust's reader has taken where it refuses a ue.
const REFUSED_BITS: u64 = 32;

/// One call: the bytes, the bit, and the value with the bit after it and whether bits were lacking.
fn walk(inputs: &[Vec<u8>], call: impl Fn(&[u8], usize, &mut [u64; 3]) -> u32) -> Run {
    let (mut calls, mut sum) = (0, 0u64);
    let began = Instant::now();
    for bytes in inputs {
        let mut answer = [0; 3];
        while (answer[1] as usize) < bytes.len() * 8 && calls < CALLS {
            if call(bytes, answer[1] as usize, &mut answer) != 0 {
                answer = [0, answer[1] + REFUSED_BITS, 0];
            }
            sum = sum.wrapping_add(answer[0]);
            calls += 1;
        }
    }
    (calls, began.elapsed(), sum)
}

fn walk_inlined(inputs: &[Vec<u8>], read: impl Fn(&mut BitReader<'_>) -> u64) -> Run {
    let (mut calls, mut sum) = (0, 0u64);
    let began = Instant::now();
    for bytes in inputs {
        let mut r = BitReader::new(bytes);
        while !r.at_end() && calls < CALLS {
            sum = sum.wrapping_add(read(&mut r));
            calls += 1;
        }
    }
    (calls, began.elapsed(), sum)
}

type ReadBits = unsafe extern "C" fn(*const u8, usize, usize, u32, *mut u64) -> u32;
type ReadCode<T> = unsafe extern "C" fn(*const u8, usize, usize, *mut T) -> u32;

pub fn u(name: String, inputs: &[Vec<u8>], n: u32) -> Time {
    let through = |call: ReadBits| {
        let call = black_box(call);
        walk(inputs, |b, at, answer| unsafe {
            call(b.as_ptr(), b.len(), at, n, answer.as_mut_ptr())
        })
    };
    time(
        name,
        [
            &mut || walk_inlined(inputs, |r| r.u(n).into()),
            &mut || through(rust_calls::u),
            &mut || through(raw::bitstream_u),
        ],
    )
}

pub fn ue(name: String, inputs: &[Vec<u8>]) -> Time {
    let inlined = |r: &mut BitReader<'_>| r.ue().map_or(0, u64::from);
    codes_read(name, inputs, inlined, rust_calls::ue, raw::bitstream_ue)
}

pub fn ue_by_table(name: String, inputs: &[Vec<u8>]) -> Time {
    let inlined = |r: &mut BitReader<'_>| r.ue().map_or(0, u64::from);
    codes_read(name, inputs, inlined, rust_calls::ue, raw::bitstream_ue_by_table)
}

pub fn se(name: String, inputs: &[Vec<u8>]) -> Time {
    let inlined = |r: &mut BitReader<'_>| r.se().map_or(0, |v| v as u64);
    codes_read(name, inputs, inlined, rust_calls::se, raw::bitstream_se)
}

fn codes_read<T>(
    name: String,
    inputs: &[Vec<u8>],
    inlined: impl Fn(&mut BitReader<'_>) -> u64,
    rust: ReadCode<T>,
    library: ReadCode<T>,
) -> Time {
    let through = |call: ReadCode<T>| {
        let call = black_box(call);
        walk(inputs, |b, at, answer| unsafe {
            call(b.as_ptr(), b.len(), at, answer.as_mut_ptr().cast())
        })
    };
    time(
        name,
        [
            &mut || walk_inlined(inputs, &inlined),
            &mut || through(rust),
            &mut || through(library),
        ],
    )
}
