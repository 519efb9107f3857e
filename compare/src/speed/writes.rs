//! Writes, each value after the one before.

use std::hint::black_box;
use std::time::Instant;

use super::{sum, time, Time, CALLS};
use crate::bit_writer::BitWriter;
use crate::library::raw;
use crate::random::Random;
use crate::rust_calls;

/// Values of which the codes have 1 to 5 bits.
pub fn short_codes(random: &mut Random) -> Vec<u32> {
    (0..CALLS).map(|_| random.below(7) as u32).collect()
}

/// Values of which the codes have 33 to 63 bits.
pub fn long_codes(random: &mut Random) -> Vec<u32> {
    (0..8_192)
        .map(|_| (1 << (16 + random.below(16))) - 1 + random.below(65_536) as u32)
        .collect()
}

pub fn encoded(codes: &[u32]) -> Vec<u8> {
    let mut w = BitWriter::new();
    codes
        .iter()
        .for_each(|&v| w.write_ue(v).expect("a value that has a code"));
    w.finish()
}

/// The se value that has this code.
fn signed(code: u32) -> i32 {
    let half = code.div_ceil(2) as i32;
    if code % 2 == 1 {
        half
    } else {
        -half
    }
}

/// Each value written after the one before: into the Rust's writer, and into 65,536 bytes that are lent.
fn writes<T: Copy>(
    name: String,
    values: &[T],
    inlined: impl Fn(&mut BitWriter, T),
    called: impl Fn(&mut BitWriter, T, &mut u64) -> u32,
    library: impl Fn(&mut [u8], usize, T, &mut u64) -> u32,
) -> Time {
    let count = values.len() as u64;
    let rust = |write: &dyn Fn(&mut BitWriter)| {
        let mut w = BitWriter::new();
        let began = Instant::now();
        write(&mut w);
        (count, began.elapsed(), sum(w.as_bytes()))
    };
    let in_its_loop = |w: &mut BitWriter| values.iter().for_each(|&v| inlined(w, v));
    let through = |w: &mut BitWriter| {
        let mut after = 0;
        values.iter().for_each(|&v| _ = called(w, v, &mut after));
    };
    let mut out = vec![0; 65_536];
    let mut lent = || {
        let mut after = 0;
        let began = Instant::now();
        for &v in values {
            library(&mut out, after as usize, v, &mut after);
        }
        (count, began.elapsed(), sum(&out[..(after as usize).div_ceil(8)]))
    };
    time(name, [&mut || rust(&in_its_loop), &mut || rust(&through), &mut lent])
}

pub fn write_bits(name: String, n: u32) -> Time {
    let values: Vec<u32> = (0..CALLS as u32).take(65_536 * 8 / n as usize).collect();
    let rust = black_box(rust_calls::write_bits as extern "C" fn(&mut BitWriter, u32, u32, *mut u64) -> u32);
    writes(
        name,
        &values,
        |w, v| w.write_bits(v, n),
        |w, v, after| rust(w, v, n, after),
        |out, at, v, after| unsafe { raw::bitstream_write_bits(out.as_mut_ptr(), out.len(), at, v, n, after) },
    )
}

pub fn write_ue(name: String, codes: &[u32]) -> Time {
    let rust = black_box(rust_calls::write_ue as extern "C" fn(&mut BitWriter, u32, *mut u64) -> u32);
    writes(
        name,
        codes,
        |w, v| _ = w.write_ue(v),
        |w, v, after| rust(w, v, after),
        |out, at, v, after| unsafe { raw::bitstream_write_ue(out.as_mut_ptr(), out.len(), at, v, after) },
    )
}

pub fn write_se(name: String, codes: &[u32]) -> Time {
    let values: Vec<i32> = codes.iter().map(|&k| signed(k)).collect();
    let rust = black_box(rust_calls::write_se as extern "C" fn(&mut BitWriter, i32, *mut u64) -> u32);
    writes(
        name,
        &values,
        |w, v| _ = w.write_se(v),
        |w, v, after| rust(w, v, after),
        |out, at, v, after| unsafe { raw::bitstream_write_se(out.as_mut_ptr(), out.len(), at, v, after) },
    )
}
