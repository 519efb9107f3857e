//! Escapes: the Rust makes a new list, the library fills one that is lent.

use std::hint::black_box;
use std::time::Instant;

use super::{sum, time, Time};
use crate::library::raw;
use crate::{nal, rust_calls};

type RustEscape = extern "C" fn(*const u8, usize, &mut Vec<u8>) -> u32;
type LibraryEscape = unsafe extern "C" fn(*const u8, usize, *mut u8, usize, *mut u64) -> u32;

pub fn ebsp_to_rbsp(name: String, src: &[u8]) -> Time {
    escapes(
        name,
        src,
        nal::ebsp_to_rbsp,
        rust_calls::ebsp_to_rbsp,
        raw::bitstream_ebsp_to_rbsp,
    )
}

pub fn rbsp_to_ebsp(name: String, src: &[u8]) -> Time {
    escapes(
        name,
        src,
        nal::rbsp_to_ebsp,
        rust_calls::rbsp_to_ebsp,
        raw::bitstream_rbsp_to_ebsp,
    )
}

fn escapes(name: String, src: &[u8], inlined: fn(&[u8]) -> Vec<u8>, rust: RustEscape, library: LibraryEscape) -> Time {
    let rust = black_box(rust);
    let mut list = Vec::new();
    let mut in_its_loop = || {
        let began = Instant::now();
        let made = inlined(black_box(src));
        (1, began.elapsed(), sum(&made))
    };
    let mut through = || {
        let began = Instant::now();
        rust(src.as_ptr(), src.len(), &mut list);
        (1, began.elapsed(), sum(&list))
    };
    let mut out = vec![0; 98_307];
    let mut lent = || {
        let mut n = 0;
        let began = Instant::now();
        unsafe { library(src.as_ptr(), src.len(), out.as_mut_ptr(), out.len(), &mut n) };
        (1, began.elapsed(), sum(&out[..n as usize]))
    };
    time(name, [&mut in_its_loop, &mut through, &mut lent])
}
