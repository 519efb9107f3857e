//! What the program `boundaries` must write, in its order: the answers are those of `expected`.

mod escapes;
mod reads;
mod writes;

pub fn print() {
    reads::lines();
    writes::lines();
    escapes::lines();
}

/// All bytes; of more than 16 how many there are, the first and the last.
fn list(bytes: &[u8]) -> String {
    match bytes {
        [] => " no bytes".to_string(),
        [first, .., last] if bytes.len() > 16 => {
            format!(" {} bytes {first:02X} .. {last:02X}", bytes.len())
        }
        _ => all(bytes),
    }
}

fn all(bytes: &[u8]) -> String {
    bytes.iter().map(|b| format!(" {b:02X}")).collect()
}
