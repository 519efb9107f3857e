//! What the program `small` must write: each RBSP of two bytes, then of three, that the Rust reads as a set with extension flag 0, none of whose
//! bits is missing, and that is as long as the set written again.

use crate::expected::sets::{end, read_rbsp};

pub fn print() {
    for len in [2, 3] {
        for number in 0..1u32 << (8 * len) {
            let bytes = &number.to_be_bytes()[4 - len..];
            if read_rbsp(bytes).is_ok_and(|set| !set.aps_extension_flag && end(&set) == 8 * len) {
                let line: Vec<String> = bytes.iter().map(|b| format!("{b:02X}")).collect();
                println!("{}", line.join(" "));
            }
        }
    }
}
