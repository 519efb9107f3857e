//! Bytes written as text.

/// Bytes in hexadecimal; spaces are left out.
pub fn hex(text: &str) -> Vec<u8> {
    text.split_whitespace()
        .map(|byte| u8::from_str_radix(byte, 16).unwrap())
        .collect()
}

/// Bits, highest first, with zeros to the last byte's end; spaces are left out.
pub fn bits(text: &str) -> Vec<u8> {
    let bits: Vec<u8> = text.bytes().filter(|c| *c != b' ').map(|c| c - b'0').collect();
    bits.chunks(8)
        .map(|byte| byte.iter().enumerate().map(|(i, bit)| bit << (7 - i)).sum())
        .collect()
}

/// The README's example: an LMCS set of type 17, then an ALF set of type 18.
pub fn example() -> Vec<u8> {
    hex("00 00 00 01 00 89 20 42 12 00 00 00 01 00 91 00 10")
}

/// Its list at a cut.
pub fn example_list() -> Vec<u8> {
    hex("00 00 00 01 00 91 00 10 00 00 00 01 00 89 20 42 12")
}
