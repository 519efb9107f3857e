//! Sets of each kind, small, typical and full, read and written; beside them their units.

use std::hint::black_box;

use super::{record, Row};
use crate::expected::{self, document::LONGEST_RBSP};
use crate::h266::aps::{parse_aps_rbsp, write_aps, VvcAps};
use crate::headers::{self, Header};
use crate::library::sets::unit_header;
use crate::nal;
use crate::random::Random;
use crate::sets::make::{Maker, Style};
use crate::sets::{flip, long};
use crate::speed::sets::{calls, inputs};
use crate::tally::Tally;
use kendwyra::{sets, Aps, Refusal};

const CASES: usize = 20_000;

pub fn rows() -> Vec<Row> {
    let inputs = inputs();
    let reads = inputs
        .iter()
        .enumerate()
        .map(|(i, input)| read(&input.name, &input.one, i));
    let writes = inputs
        .iter()
        .enumerate()
        .map(|(i, input)| write(&input.name, &input.one, i));
    reads.chain(writes).collect()
}

/// Random sets of the kind and size that the input of this index has.
fn made(random: &mut Random, input: usize) -> VvcAps {
    made_of(random, [Style::Sparse, Style::Typical, Style::Full][input % 3], input)
}

fn made_of(random: &mut Random, style: Style, input: usize) -> VvcAps {
    Maker { random, style }.set((input / 3) as u8)
}

/// Every tenth RBSP has a bit flipped or is cut, and every tenth has bytes after it, up to around the longest that is read.
fn read(name: &str, rbsp: &[u8], input: usize) -> Row {
    let mut t = Tally::new(format!("read of a {name}"));
    let mut random = Random::new(40 + input as u64);
    for case in 0..CASES {
        let mut bytes = write_aps(&made(&mut random, input)).expect("a set in range is written");
        let len = bytes.len();
        match case % 20 {
            9 => flip(&mut bytes, random.below(len * 8)),
            19 => bytes.truncate(random.below(len)),
            4 | 14 => {
                let len = LONGEST_RBSP - 2 + random.below(6);
                bytes = long::followed(&mut random, &bytes, len);
            }
            _ => (),
        }
        same_read(&mut t, &bytes);
        let unit_type = headers::aps_type(&mut random);
        let header = headers::any(&mut random, unit_type);
        let room = bytes.len().saturating_sub(usize::from(case % 8 == 3));
        same_unit_read(&mut t, &[&header[..], &nal::rbsp_to_ebsp(&bytes)].concat(), room);
    }
    Row::new(
        t,
        &mut || calls(rbsp, |b| black_box(&parse_aps_rbsp(b)).is_err().into()),
        &mut || calls(rbsp, |b| black_box(&sets::read(b)).is_err().into()),
    )
}

/// The set, and the bit where reading ended.
fn same_read(t: &mut Tally, bytes: &[u8]) {
    let asked = || format!("read of {bytes:02X?}");
    let ours = sets::read(bytes);
    let rust = expected::sets::read_rbsp(bytes);
    let end = ours.as_ref().ok().map(|(_, end)| *end);
    let expected = rust.as_ref().ok().map(expected::sets::end);
    record::same(t, asked, ours.map(|(set, _)| set), rust.as_ref().map_err(|&e| e));
    if end != expected {
        t.same(|| format!("end of {}", asked()), end, expected);
    }
}

/// Beside that the set of a unit, and every byte of the work buffer.
fn same_unit_read(t: &mut Tally, unit: &[u8], room: usize) {
    let (mut work, mut after) = (vec![0; room], vec![0; room]);
    let ours = Aps::read_unit(unit, &mut work).map_err(Refusal::number);
    let rust = expected::sets::read_unit(unit, &mut after, true);
    let rust = rust.map(|(_, set)| (record::set(&set), expected::sets::end(&set)));
    if (&ours, &work) != (&rust, &after) {
        t.same(|| format!("read of unit {unit:02X?}"), (ours, work), (rust, after));
    }
}

/// Every tenth set has extension flag 1 or too large an id, or goes into one byte less than it takes; of full ones every tenth is another,
/// with scaling lists that are too long.
fn write(name: &str, rbsp: &[u8], input: usize) -> Row {
    let mut t = Tally::new(format!("write of a {name}"));
    let mut random = Random::new(50 + input as u64);
    let filler = random.bytes(4_000);
    for case in 0..CASES {
        let mut record = made(&mut random, input);
        match case % 30 {
            9 => record.aps_extension_flag = true,
            19 => record.aps_adaptation_parameter_set_id = 8 + random.below(248) as u8,
            4 | 14 | 24 if input % 3 == 2 => record = made_of(&mut random, Style::Long, input),
            _ => (),
        }
        let rust = expected::written::rbsp(&record);
        let due = rust.as_ref().map_or([40, 3_500][case % 20 / 10], Vec::len);
        let room = if case % 30 == 29 {
            due - 1
        } else {
            due + random.below(3)
        };
        same_write(&mut t, &record, rust, &filler[..room]);
        let unit_type = headers::aps_type(&mut random);
        let mut header = headers::good(&mut random, unit_type);
        if case % 8 == 7 {
            header[random.below(3)] = random.next() as u8;
        }
        same_unit_written(&mut t, &record, header, &filler[..room + 2]);
    }
    let record = parse_aps_rbsp(rbsp).expect("a set that the Rust wrote");
    let (set, mut out) = (record::set(&record), vec![0; 4_000]);
    Row::new(
        t,
        &mut || calls(rbsp, |_| write_aps(black_box(&record)).map_or(0, |w| w.len() as u64)),
        &mut || calls(rbsp, |_| sets::write(black_box(&set), &mut out).map_or(0, |n| n as u64)),
    )
}

/// The answer, and every byte of the output after it.
fn same_write(t: &mut Tally, record: &VvcAps, rust: Result<Vec<u8>, u32>, out: &[u8]) {
    let mut after = out.to_vec();
    let ours = sets::write(&record::set(record), &mut after).map_err(Refusal::number);
    let asked = || format!("write of {record:?} into {} bytes", out.len());
    t.same(asked, (ours, after), put(rust, out));
}

/// Beside that the set's unit with a header.
fn same_unit_written(t: &mut Tally, record: &VvcAps, header: Header, out: &[u8]) {
    let mut after = out.to_vec();
    let written = record::set(record).write_unit(unit_header(header), &mut after);
    let ours = (written.map_err(Refusal::number), after);
    let expected = put(expected::written::unit(record, header), out);
    if ours != expected {
        let asked = || format!("unit of header {header:?} of {record:?} into {} bytes", out.len());
        t.same(asked, ours, expected);
    }
}

fn put(rust: Result<Vec<u8>, u32>, out: &[u8]) -> (Result<usize, u32>, Vec<u8>) {
    match rust.and_then(|bytes| expected::put(bytes, out)) {
        Ok((after, len)) => (Ok(len), after),
        Err(e) => (Err(e), out.to_vec()),
    }
}
