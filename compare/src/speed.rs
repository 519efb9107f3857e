//! Nanoseconds for a call: the Rust in its own loop, the Rust behind the library's call boundary, and the library.

mod escapes;
mod reads;
pub mod sets;
pub mod table;
mod writes;

use std::time::Duration;

use crate::random::Random;
use escapes::{ebsp_to_rbsp, rbsp_to_ebsp};
use reads::{se, u, ue, ue_by_table};
use writes::{encoded, long_codes, short_codes, write_bits, write_se, write_ue};

/// One row, in nanoseconds for a call.
pub struct Time {
    name: String,
    inlined: f64,
    called: f64,
    library: f64,
}

/// All rows: calls that the Rust has too, and those of the table.
#[derive(Default)]
pub struct Times {
    calls: Vec<Time>,
    table: Vec<table::Row>,
}

pub fn measure() -> Times {
    Times {
        calls: calls(),
        table: table::measure(),
    }
}

fn calls() -> Vec<Time> {
    let mut random = Random::new(9);
    let mut times = Vec::new();
    for (len, size) in [(2, "2"), (7, "7"), (65_536, "65,536")] {
        let inputs: Vec<Vec<u8>> = (0..65_536 / len).map(|_| random.bytes(len)).collect();
        for width in [1, 2, 5, 13, 32] {
            times.push(u(format!("u({width}), inputs of {size} bytes"), &inputs, width));
        }
        times.push(ue(format!("ue, inputs of {size} bytes"), &inputs));
        times.push(se(format!("se, inputs of {size} bytes"), &inputs));
    }
    for (kind, codes) in [("short", short_codes(&mut random)), ("long", long_codes(&mut random))] {
        let input = [encoded(&codes)];
        times.push(ue(format!("ue, {kind} codes"), &input));
        times.push(se(format!("se, {kind} codes"), &input));
        times.push(ue_by_table(format!("ue by table, {kind} codes"), &input));
        times.push(write_ue(format!("write_ue, {kind} codes"), &codes));
        times.push(write_se(format!("write_se, {kind} codes"), &codes));
    }
    for width in [1, 5, 13, 32] {
        times.push(write_bits(format!("write_bits({width})"), width));
    }
    for (kind, bytes) in [("random", random.bytes(65_536)), ("zero", vec![0; 65_536])] {
        times.push(ebsp_to_rbsp(format!("ebsp_to_rbsp of 65,536 {kind} bytes"), &bytes));
        times.push(rbsp_to_ebsp(format!("rbsp_to_ebsp of 65,536 {kind} bytes"), &bytes));
    }
    for input in sets::inputs() {
        times.extend(sets::rows(&input));
    }
    times
}

pub fn print(times: &Times) {
    if times.calls.is_empty() {
        return;
    }
    println!(
        "\n{:<56}{:>13}{:>13}{:>13}{:>11}{:>11}",
        "ns for a call", "Rust inlined", "Rust called", "library", "inl./lib.", "call./lib."
    );
    for t in &times.calls {
        let (inlined, called) = (t.inlined / t.library, t.called / t.library);
        println!(
            "{:<56}{:>13.2}{:>13.2}{:>13.2}{:>11.2}{:>11.2}",
            t.name, t.inlined, t.called, t.library, inlined, called
        );
    }
    table::print(&times.table);
}

/// Calls made, the time that they took, and a sum over their answers on which the ways must agree.
pub type Run = (u64, Duration, u64);

/// Runs are short and many, so that some are not interrupted.
const ROUNDS: usize = 60;
const CALLS: u64 = 32_768;

/// The least time for a call of each way, over rounds that take the ways in turn.
pub fn least<const N: usize>(name: &str, mut ways: [&mut dyn FnMut() -> Run; N]) -> [f64; N] {
    let mut best = [f64::MAX; N];
    let mut sums = [0; N];
    for _ in 0..ROUNDS {
        for (i, way) in ways.iter_mut().enumerate() {
            let (calls, took, sum) = way();
            best[i] = best[i].min(took.as_nanos() as f64 / calls as f64);
            sums[i] = sum;
        }
    }
    assert!(sums == [sums[0]; N], "{name}: the answers differ: {sums:?}");
    best
}

fn time(name: String, ways: [&mut dyn FnMut() -> Run; 3]) -> Time {
    let [inlined, called, library] = least(&name, ways);
    Time {
        name,
        inlined,
        called,
        library,
    }
}

fn sum(bytes: &[u8]) -> u64 {
    bytes
        .iter()
        .fold(bytes.len() as u64, |s, &b| s.wrapping_mul(31).wrapping_add(b.into()))
}
