//! What each call must answer: the Rust's answer where `document` has no refusal, else that refusal's number, and 1 for a set that ends
//! too early.

pub mod meanings;
pub mod sets;
pub mod short;
pub mod table;
pub mod written;

use std::fmt::Debug;

use crate::bit_reader::BitReader;
use crate::bit_writer::BitWriter;
use crate::library::Field;
use crate::{nal, BitstreamError};

/// Refusals that the Rust does not have: it takes inputs of any length, any start and width, and any header of an APS unit's type, and its
/// outputs grow. 4 is a long input, 2 a far start, a wide field or such a header, 4 again a long RBSP, 5 a short output or work buffer; in
/// this order.
pub mod document {
    pub const LONGEST: usize = 65_536;
    pub const LONGEST_RBSP: usize = 2_048;
    pub const FARTHEST: usize = 1_048_576;
    pub const WIDEST: u32 = 32;
    pub const LAST_LAYER: u8 = 55;

    pub fn read(len: usize, at: usize, n: u32) -> Result<(), u32> {
        if len > LONGEST {
            return Err(4);
        }
        write(at, n)
    }

    pub fn write(at: usize, n: u32) -> Result<(), u32> {
        if at > FARTHEST || n > WIDEST {
            return Err(2);
        }
        Ok(())
    }

    pub fn escape(len: usize) -> Result<(), u32> {
        if len > LONGEST {
            return Err(4);
        }
        Ok(())
    }

    /// The length without escapes; every byte counts, those after the stop bit too.
    pub fn rbsp(len: usize) -> Result<(), u32> {
        if len > LONGEST_RBSP {
            return Err(4);
        }
        Ok(())
    }

    /// What a header of type 17 or 18 has besides: its two zero bits, the layer and the temporal id plus one.
    pub fn header(zero_bits: [u8; 2], layer: u8, temporal_id_plus1: u8) -> Result<(), u32> {
        if zero_bits != [0, 0] || layer > LAST_LAYER || !(1..=7).contains(&temporal_id_plus1) {
            return Err(2);
        }
        Ok(())
    }

    pub fn room(due: usize, room: usize) -> Result<(), u32> {
        if due > room {
            return Err(5);
        }
        Ok(())
    }
}

/// The numbers of the Rust's three errors.
pub fn number(e: BitstreamError) -> u32 {
    match e {
        BitstreamError::UnexpectedEnd(_) => 1,
        BitstreamError::InvalidData(_) => 2,
        BitstreamError::Unsupported(_) => 3,
    }
}

fn reader(bytes: &[u8], at: usize) -> BitReader<'_> {
    let mut r = BitReader::new(bytes);
    r.skip(at);
    r
}

/// Whether a bit is missing by the reading that stops there; where none is, it must come to what the Rust comes to.
fn is_short<T: PartialEq + Debug>(short: Result<T, u32>, rust: Result<T, u32>, bytes: &[u8]) -> bool {
    let missing = short == Err(1);
    assert!(
        missing || short == rust,
        "{bytes:02X?}: {short:?} with no bit missing, the Rust's {rust:?}"
    );
    missing
}

/// The Rust's value and place, and whether bits were lacking.
fn field(bytes: &[u8], rust: Result<(i64, usize), u32>, short: Result<(i64, usize), u32>) -> Field {
    let lacking = is_short(short, rust, bytes);
    rust.map(|(value, after)| (value, after, lacking.into()))
}

pub fn u(bytes: &[u8], at: usize, n: u32) -> Field {
    document::read(bytes.len(), at, n)?;
    let mut r = reader(bytes, at);
    let v = r.u(n);
    field(bytes, Ok((v.into(), r.bit_pos())), short::field(bytes, at, |r| r.u(n)))
}

pub fn ue(bytes: &[u8], at: usize) -> Field {
    document::read(bytes.len(), at, 0)?;
    let mut r = reader(bytes, at);
    let v = r.ue().map_err(number);
    let rust = v.map(|v| (v.into(), r.bit_pos()));
    field(bytes, rust, short::field(bytes, at, |r| r.ue()))
}

pub fn se(bytes: &[u8], at: usize) -> Field {
    document::read(bytes.len(), at, 0)?;
    let mut r = reader(bytes, at);
    let v = r.se().map_err(number);
    let rust = v.map(|v| (v.into(), r.bit_pos()));
    field(bytes, rust, short::field(bytes, at, |r| r.se()))
}

pub fn trailing(bytes: &[u8], at: usize) -> Result<usize, u32> {
    document::read(bytes.len(), at, 0)?;
    let mut r = reader(bytes, at);
    r.read_rbsp_trailing_bits().map_err(number)?;
    Ok(r.bit_pos())
}

/// The Rust's writer with the first `at` bits of `out` in it, of which those past `out` are 0.
fn writer(out: &[u8], at: usize) -> BitWriter {
    let mut w = BitWriter::new();
    let mut r = BitReader::new(out);
    for _ in 0..at {
        w.write_bit(r.read_bit());
    }
    w
}

/// One field written by the Rust into `out`, which keeps its later bytes; a field of no bits changes nothing.
fn written(
    out: &[u8],
    at: usize,
    field: impl Fn(&mut BitWriter) -> Result<(), BitstreamError>,
) -> Result<(Vec<u8>, usize), u32> {
    let mut w = writer(out, at);
    field(&mut w).map_err(number)?;
    let after = w.bit_pos();
    if after == at {
        return Ok((out.to_vec(), after));
    }
    let mut bytes = w.finish();
    document::room(bytes.len(), out.len())?;
    bytes.extend_from_slice(&out[bytes.len()..]);
    Ok((bytes, after))
}

pub fn write_bits(out: &[u8], at: usize, value: u32, n: u32) -> Result<(Vec<u8>, usize), u32> {
    document::write(at, n)?;
    written(out, at, |w| {
        w.write_bits(value, n);
        Ok(())
    })
}

pub fn write_ue(out: &[u8], at: usize, value: u32) -> Result<(Vec<u8>, usize), u32> {
    document::write(at, 0)?;
    written(out, at, |w| w.write_ue(value))
}

pub fn write_se(out: &[u8], at: usize, value: i32) -> Result<(Vec<u8>, usize), u32> {
    document::write(at, 0)?;
    written(out, at, |w| w.write_se(value))
}

pub fn write_trailing(out: &[u8], at: usize) -> Result<(Vec<u8>, usize), u32> {
    document::write(at, 0)?;
    written(out, at, |w| {
        w.write_rbsp_trailing_bits();
        Ok(())
    })
}

/// Bytes that the Rust made, put at the start of `out`.
pub fn put(bytes: Vec<u8>, out: &[u8]) -> Result<(Vec<u8>, usize), u32> {
    document::room(bytes.len(), out.len())?;
    let n = bytes.len();
    Ok(([&bytes, &out[n..]].concat(), n))
}

pub fn ebsp_to_rbsp(src: &[u8], out: &[u8]) -> Result<(Vec<u8>, usize), u32> {
    document::escape(src.len())?;
    put(nal::ebsp_to_rbsp(src), out)
}

pub fn rbsp_to_ebsp(src: &[u8], out: &[u8]) -> Result<(Vec<u8>, usize), u32> {
    document::escape(src.len())?;
    put(nal::rbsp_to_ebsp(src), out)
}
