//! The proved library's calls.

pub mod hevc;
pub mod marks;
pub mod meanings;
pub mod sets;
pub mod structs;
pub mod table;

/// The calls that the crate has no declarations of; its archive has them.
pub mod raw {
    extern "C" {
        pub fn bitstream_u(bytes: *const u8, len: usize, at: usize, n: u32, answer: *mut u64) -> u32;
        pub fn bitstream_ue(bytes: *const u8, len: usize, at: usize, answer: *mut u64) -> u32;
        pub fn bitstream_se(bytes: *const u8, len: usize, at: usize, answer: *mut i64) -> u32;
        pub fn bitstream_ue_by_table(bytes: *const u8, len: usize, at: usize, answer: *mut u64) -> u32;
        pub fn bitstream_se_by_table(bytes: *const u8, len: usize, at: usize, answer: *mut i64) -> u32;
        pub fn bitstream_trailing(bytes: *const u8, len: usize, at: usize, answer: *mut u64) -> u32;
        pub fn bitstream_write_bits(out: *mut u8, len: usize, at: usize, value: u32, n: u32, answer: *mut u64) -> u32;
        pub fn bitstream_write_ue(out: *mut u8, len: usize, at: usize, value: u32, answer: *mut u64) -> u32;
        pub fn bitstream_write_se(out: *mut u8, len: usize, at: usize, value: i32, answer: *mut u64) -> u32;
        pub fn bitstream_write_trailing(out: *mut u8, len: usize, at: usize, answer: *mut u64) -> u32;
        pub fn bitstream_ebsp_to_rbsp(src: *const u8, len: usize, out: *mut u8, room: usize, answer: *mut u64) -> u32;
        pub fn bitstream_rbsp_to_ebsp(src: *const u8, len: usize, out: *mut u8, room: usize, answer: *mut u64) -> u32;
    }
}

/// What stands in the answer array before each call.
const MARK: u64 = 0x5A5A_5A5A_5A5A_5A5A;

/// A field's value, the bit after it, and 1 where bits were lacking or 0; or the refusal's number.
pub type Field = Result<(i64, usize, u64), u32>;

/// A refusal that changed the answer array: a number that is expected nowhere.
const ARRAY_CHANGED: u32 = 1000;

fn read<const N: usize>(code: u32, answer: [u64; N]) -> Result<[u64; N], u32> {
    match code {
        0 => Ok(answer),
        _ if answer == [MARK; N] => Err(code),
        _ => Err(ARRAY_CHANGED + code),
    }
}

pub fn u(bytes: &[u8], at: usize, n: u32) -> Field {
    let mut answer = [MARK; 3];
    let code = unsafe { raw::bitstream_u(bytes.as_ptr(), bytes.len(), at, n, answer.as_mut_ptr()) };
    read(code, answer).map(|[v, q, lacking]| (v as i64, q as usize, lacking))
}

/// A call that reads an unsigned field at a bit.
type Unsigned = unsafe extern "C" fn(*const u8, usize, usize, *mut u64) -> u32;
/// A call that reads a signed field at a bit.
type Signed = unsafe extern "C" fn(*const u8, usize, usize, *mut i64) -> u32;

fn unsigned(call: Unsigned, bytes: &[u8], at: usize) -> Field {
    let mut answer = [MARK; 3];
    let code = unsafe { call(bytes.as_ptr(), bytes.len(), at, answer.as_mut_ptr()) };
    read(code, answer).map(|[v, q, lacking]| (v as i64, q as usize, lacking))
}

fn signed(call: Signed, bytes: &[u8], at: usize) -> Field {
    let mut answer = [MARK as i64; 3];
    let code = unsafe { call(bytes.as_ptr(), bytes.len(), at, answer.as_mut_ptr()) };
    read(code, answer.map(|x| x as u64)).map(|[v, q, lacking]| (v as i64, q as usize, lacking))
}

pub fn ue(bytes: &[u8], at: usize) -> Field {
    unsigned(raw::bitstream_ue, bytes, at)
}

pub fn se(bytes: &[u8], at: usize) -> Field {
    signed(raw::bitstream_se, bytes, at)
}

pub fn ue_by_table(bytes: &[u8], at: usize) -> Field {
    unsigned(raw::bitstream_ue_by_table, bytes, at)
}

pub fn se_by_table(bytes: &[u8], at: usize) -> Field {
    signed(raw::bitstream_se_by_table, bytes, at)
}

pub fn trailing(bytes: &[u8], at: usize) -> Result<usize, u32> {
    let mut answer = [MARK; 1];
    let code = unsafe { raw::bitstream_trailing(bytes.as_ptr(), bytes.len(), at, answer.as_mut_ptr()) };
    read(code, answer).map(|[q]| q as usize)
}

pub fn write_bits(out: &mut [u8], at: usize, value: u32, n: u32) -> Result<usize, u32> {
    let mut answer = [MARK; 1];
    let code = unsafe { raw::bitstream_write_bits(out.as_mut_ptr(), out.len(), at, value, n, answer.as_mut_ptr()) };
    read(code, answer).map(|[q]| q as usize)
}

pub fn write_ue(out: &mut [u8], at: usize, value: u32) -> Result<usize, u32> {
    let mut answer = [MARK; 1];
    let code = unsafe { raw::bitstream_write_ue(out.as_mut_ptr(), out.len(), at, value, answer.as_mut_ptr()) };
    read(code, answer).map(|[q]| q as usize)
}

pub fn write_se(out: &mut [u8], at: usize, value: i32) -> Result<usize, u32> {
    let mut answer = [MARK; 1];
    let code = unsafe { raw::bitstream_write_se(out.as_mut_ptr(), out.len(), at, value, answer.as_mut_ptr()) };
    read(code, answer).map(|[q]| q as usize)
}

pub fn write_trailing(out: &mut [u8], at: usize) -> Result<usize, u32> {
    let mut answer = [MARK; 1];
    let code = unsafe { raw::bitstream_write_trailing(out.as_mut_ptr(), out.len(), at, answer.as_mut_ptr()) };
    read(code, answer).map(|[q]| q as usize)
}

pub fn ebsp_to_rbsp(src: &[u8], out: &mut [u8]) -> Result<usize, u32> {
    let mut answer = [MARK; 1];
    let (from, to) = (src.as_ptr(), out.as_mut_ptr());
    let code = unsafe { raw::bitstream_ebsp_to_rbsp(from, src.len(), to, out.len(), answer.as_mut_ptr()) };
    read(code, answer).map(|[n]| n as usize)
}

pub fn rbsp_to_ebsp(src: &[u8], out: &mut [u8]) -> Result<usize, u32> {
    let mut answer = [MARK; 1];
    let (from, to) = (src.as_ptr(), out.as_mut_ptr());
    let code = unsafe { raw::bitstream_rbsp_to_ebsp(from, src.len(), to, out.len(), answer.as_mut_ptr()) };
    read(code, answer).map(|[n]| n as usize)
}
