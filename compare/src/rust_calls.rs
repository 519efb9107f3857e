//! The Rust behind the library's call boundary: the same arguments where it can take them, the same answer arrays, of which it leaves the
//! number that tells of lacking bits.

use crate::bit_reader::BitReader;
use crate::bit_writer::BitWriter;
use crate::h266::aps;
use crate::nal;

fn reader<'a>(bytes: *const u8, len: usize, at: usize) -> BitReader<'a> {
    let mut r = BitReader::new(unsafe { std::slice::from_raw_parts(bytes, len) });
    r.skip(at);
    r
}

#[inline(never)]
pub extern "C" fn u(bytes: *const u8, len: usize, at: usize, n: u32, answer: *mut u64) -> u32 {
    let mut r = reader(bytes, len, at);
    let v = r.u(n);
    unsafe { *(answer as *mut [u64; 2]) = [v.into(), r.bit_pos() as u64] };
    0
}

#[inline(never)]
pub extern "C" fn ue(bytes: *const u8, len: usize, at: usize, answer: *mut u64) -> u32 {
    let mut r = reader(bytes, len, at);
    let Ok(v) = r.ue() else { return 2 };
    unsafe { *(answer as *mut [u64; 2]) = [v.into(), r.bit_pos() as u64] };
    0
}

#[inline(never)]
pub extern "C" fn se(bytes: *const u8, len: usize, at: usize, answer: *mut i64) -> u32 {
    let mut r = reader(bytes, len, at);
    let Ok(v) = r.se() else { return 2 };
    unsafe { *(answer as *mut [i64; 2]) = [v.into(), r.bit_pos() as i64] };
    0
}

#[inline(never)]
pub extern "C" fn write_bits(w: &mut BitWriter, value: u32, n: u32, answer: *mut u64) -> u32 {
    w.write_bits(value, n);
    unsafe { *answer = w.bit_pos() as u64 };
    0
}

#[inline(never)]
pub extern "C" fn write_ue(w: &mut BitWriter, value: u32, answer: *mut u64) -> u32 {
    let Ok(()) = w.write_ue(value) else { return 2 };
    unsafe { *answer = w.bit_pos() as u64 };
    0
}

#[inline(never)]
pub extern "C" fn write_se(w: &mut BitWriter, value: i32, answer: *mut u64) -> u32 {
    let Ok(()) = w.write_se(value) else { return 2 };
    unsafe { *answer = w.bit_pos() as u64 };
    0
}

#[inline(never)]
pub extern "C" fn ebsp_to_rbsp(src: *const u8, len: usize, out: &mut Vec<u8>) -> u32 {
    *out = nal::ebsp_to_rbsp(unsafe { std::slice::from_raw_parts(src, len) });
    0
}

#[inline(never)]
pub extern "C" fn rbsp_to_ebsp(src: *const u8, len: usize, out: &mut Vec<u8>) -> u32 {
    *out = nal::rbsp_to_ebsp(unsafe { std::slice::from_raw_parts(src, len) });
    0
}

#[inline(never)]
pub extern "C" fn rbsp_end(bytes: *const u8, len: usize) -> u32 {
    let read = aps::parse_aps_rbsp(unsafe { std::slice::from_raw_parts(bytes, len) });
    std::hint::black_box(read).is_err().into()
}

#[inline(never)]
pub extern "C" fn rewrite(bytes: *const u8, len: usize, out: *mut u8, room: usize) -> u32 {
    let bytes = unsafe { std::slice::from_raw_parts(bytes, len) };
    let out = unsafe { std::slice::from_raw_parts_mut(out, room) };
    match aps::parse_aps_rbsp(bytes).and_then(|set| aps::write_aps(&set)) {
        Ok(written) if written.len() <= room => {
            out[..written.len()].copy_from_slice(&written);
            written.len() as u32
        }
        _ => 0,
    }
}

#[inline(never)]
pub extern "C" fn write(set: &aps::VvcAps, out: *mut u8, room: usize) -> u32 {
    let out = unsafe { std::slice::from_raw_parts_mut(out, room) };
    match aps::write_aps(set) {
        Ok(written) if written.len() <= room => {
            out[..written.len()].copy_from_slice(&written);
            written.len() as u32
        }
        _ => 0,
    }
}
