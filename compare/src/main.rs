//! Compares the proved library with the Rust that it follows, and measures both.
#![allow(dead_code)] // parts of the Rust that are not compared

// The Rust: bit_reader, bit_writer, nal, h266::aps, the header of h266, of hevc the scaling lists as rust_hevc, and BitstreamError.
include!(env!("COMPARE_RUST"));

mod boundaries;
mod calls;
mod curve;
mod escapes;
mod expected;
mod factors;
mod fields;
mod filters;
mod headers;
mod hevc;
mod library;
mod random;
mod records;
mod replay;
mod rust_calls;
mod sets;
mod small;
mod speed;
mod table;
mod tally;
mod written;

use std::process::ExitCode;

fn main() -> ExitCode {
    let mut parts: Vec<String> = std::env::args().skip(1).collect();
    match parts.iter().map(String::as_str).collect::<Vec<_>>()[..] {
        ["boundaries"] => return printed(boundaries::print),
        ["sample"] => return printed(replay::print_sample),
        ["replay"] => return printed(replay::print_answers),
        ["small"] => return printed(small::print),
        _ => (),
    }
    if parts.is_empty() {
        parts = [
            "fields", "escapes", "sets", "written", "records", "table", "filters", "factors", "curve", "hevc", "calls", "speed",
        ]
        .map(String::from)
        .to_vec();
    }
    let mut rows = Vec::new();
    let mut calls = Vec::new();
    let mut times = speed::Times::default();
    for part in &parts {
        match part.as_str() {
            "fields" => rows.extend(fields::compare()),
            "escapes" => rows.extend(escapes::compare()),
            "sets" => rows.extend(sets::compare()),
            "written" => rows.extend(written::compare()),
            "records" => rows.push(records::compare()),
            "table" => rows.extend(table::compare()),
            "filters" => rows.extend(filters::compare()),
            "factors" => rows.extend(factors::compare()),
            "curve" => rows.extend(curve::compare()),
            "hevc" => rows.extend(hevc::compare()),
            "calls" => calls = calls::compare(),
            "speed" => times = speed::measure(),
            _ => {
                eprintln!("no part {part}: fields, escapes, sets, written, records, table, filters, factors, curve, hevc, calls, speed, boundaries, sample, replay or small");
                return ExitCode::from(2);
            }
        }
    }
    tally::print(&rows);
    speed::print(&times);
    calls::print(&calls);
    let answers = calls.iter().map(|row| &row.answers);
    if rows
        .iter()
        .chain(answers)
        .any(|row| row.differences > 0 || row.cases == 0)
    {
        return ExitCode::FAILURE;
    }
    ExitCode::SUCCESS
}

fn printed(lines: fn()) -> ExitCode {
    lines();
    ExitCode::SUCCESS
}
