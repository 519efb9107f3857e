//! The table: units and streams taken, lookups and cuts, some against calls that do a part of the same.

use std::hint::black_box;
use std::time::Instant;

use super::sets::{calls, inputs, ParseRbsp};
use super::{least, Run};
use crate::expected::table::names;
use crate::h266::aps;
use crate::library::sets::unit_header;
use crate::nal;
use crate::random::Random;
use crate::sets::make::{Maker, Style};
use kendwyra::sets::UnitHeader;
use kendwyra::{raw, Alf, Head, Lmcs, Scaling, TABLE_BYTES};

/// One row, in nanoseconds for a call.
pub struct Row {
    name: String,
    library: f64,
    against: Option<f64>,
    /// How many bytes the call goes through.
    bytes: Option<usize>,
}

pub fn measure() -> Vec<Row> {
    let mut rows: Vec<Row> = inputs().iter().map(|input| unit(&input.name, &input.one)).collect();
    rows.extend(streams().iter().map(|(name, bytes)| stream(name, bytes)));
    rows.extend(full_table());
    rows.push(empty_list());
    rows
}

pub fn print(rows: &[Row]) {
    if rows.is_empty() {
        return;
    }
    println!(
        "\n{:<76}{:>12}{:>12}{:>8}{:>7}",
        "the table, ns for a call", "library", "against", "ratio", "GB/s"
    );
    for row in rows {
        let against = row.against.map_or(String::new(), |t| format!("{t:.2}"));
        let ratio = row.against.map_or(String::new(), |t| format!("{:.2}", row.library / t));
        let rate = row
            .bytes
            .map_or(String::new(), |n| format!("{:.2}", n as f64 / row.library));
        println!(
            "{:<76}{:>12.2}{:>12}{:>8}{:>7}",
            row.name, row.library, against, ratio, rate
        );
    }
}

type Bytes = [u8; TABLE_BYTES];

fn new_table() -> Bytes {
    let mut table = [0; TABLE_BYTES];
    unsafe { raw::aps_table_new(&mut table) };
    table
}

/// One call that takes long; a refusal would differ from the other ways' sum.
fn once(call: impl FnOnce() -> u32) -> Run {
    let began = Instant::now();
    let code = call();
    (1, began.elapsed(), code.into())
}

/// A unit taken, against the Rust's reading of it.
fn unit(name: &str, rbsp: &[u8]) -> Row {
    let unit = [&[0x00, 0x89][..], &nal::rbsp_to_ebsp(rbsp)].concat();
    let name = format!(
        "{name}: unit of {} bytes taken, against the Rust's parse_aps",
        unit.len()
    );
    let mut table = new_table();
    let mut work = vec![0; unit.len()];
    let (to, room): (*mut u8, usize) = (work.as_mut_ptr(), work.len());
    let [taken, read] = least(
        &name,
        [
            &mut || {
                calls(&unit, |u| unsafe {
                    raw::aps_take_unit(&mut table, u.as_ptr(), u.len(), to, room).into()
                })
            },
            &mut || calls(&unit, |u| black_box(aps::parse_aps(u)).is_err().into()),
        ],
    );
    Row {
        name,
        library: taken,
        against: Some(read),
        bytes: None,
    }
}

/// As many units of type 1 as go into 65,536 bytes, each of `len` bytes after its start code.
pub fn foreign(len: usize, mut body: impl FnMut(usize) -> Vec<u8>) -> Vec<u8> {
    let mut stream = Vec::new();
    while stream.len() + 4 + len <= 65_536 {
        let mut unit = [&[0x00, 0x09][..], &body(len)].concat();
        unit.truncate(len);
        if let Some(last) = unit.last_mut() {
            *last |= 0x40;
        }
        stream.extend([&[0, 0, 0, 1][..], &unit].concat());
    }
    stream
}

/// Streams of units that are passed over.
fn streams() -> Vec<(String, Vec<u8>)> {
    let mut random = Random::new(32);
    let repeated = |bytes: &[u8], len: usize| bytes.iter().copied().cycle().take(len).collect();
    let mut out = Vec::new();
    for (len, size) in [(1_400, "1,400"), (100, "100")] {
        let stream = foreign(len, |n| nal::rbsp_to_ebsp(&random.bytes(n)));
        out.push((format!("stream of other units of {size} bytes, random"), stream));
    }
    for (bytes, shown) in [
        (&[0, 0, 3][..], "00 00 03"),
        (&[0, 0, 3, 1], "00 00 03 01"),
        (&[0, 1], "00 01"),
    ] {
        let stream = foreign(1_400, |n| repeated(bytes, n));
        out.push((format!("stream of other units of 1,400 bytes, {shown}"), stream));
    }
    out.push(("stream of other units of 2 bytes".into(), foreign(2, |_| Vec::new())));
    out.push(("stream of 65,536 zero bytes".into(), vec![0; 65_536]));
    out
}

fn stream(name: &str, stream: &[u8]) -> Row {
    let mut table = new_table();
    let mut work = vec![0; stream.len()];
    let mut counts = [0; 3];
    let [taken] = least(
        name,
        [&mut || {
            let bytes = black_box(stream);
            let (to, room) = (work.as_mut_ptr(), work.len());
            once(|| unsafe { raw::aps_take_stream(&mut table, bytes.as_ptr(), bytes.len(), to, room, &mut counts) })
        }],
    );
    assert!(counts[0] == 0 && counts[1] == 0, "{name}: {counts:?}");
    Row {
        name: name.into(),
        library: taken,
        against: None,
        bytes: Some(stream.len()),
    }
}

/// A full set for each place, as an RBSP.
fn full_sets() -> Vec<Vec<u8>> {
    let mut random = Random::new(33);
    let mut maker = Maker {
        random: &mut random,
        style: Style::Full,
    };
    let rbsp = |(kind, id)| {
        let mut set = maker.set(kind);
        set.aps_adaptation_parameter_set_id = id;
        aps::write_aps(&set).expect("a set in range is written")
    };
    names().into_iter().map(rbsp).collect()
}

/// Cuts and lookups of a table whose 20 places hold full sets.
fn full_table() -> Vec<Row> {
    let rbsps = full_sets();
    let mut table = new_table();
    let mut out = vec![0; 65_536];
    let (to, room): (*mut u8, usize) = (out.as_mut_ptr(), out.len());
    for rbsp in &rbsps {
        let unit = [&[0x00, 0x89][..], &nal::rbsp_to_ebsp(rbsp)].concat();
        let code = unsafe { raw::aps_take_unit(&mut table, unit.as_ptr(), unit.len(), to, room) };
        assert!(code == 0, "a full set is accepted");
    }
    let mut rows = cuts(&table, &rbsps, to, room);
    for (place, name) in [(0, "ALF"), (8, "LMCS"), (12, "scaling")] {
        rows.push(lookup(&table, name, names()[place], &rbsps[place]));
    }
    rows
}

/// The list of 20 full sets, against these read, and against these read and written.
fn cuts(table: &Bytes, rbsps: &[Vec<u8>], to: *mut u8, room: usize) -> Vec<Row> {
    let mut head = Head::default();
    let each = |call: &mut dyn FnMut(&[u8]) -> u32| once(|| rbsps.iter().map(|b| call(black_box(b))).sum());
    let [list, read, rewritten] = least(
        "a cut of 20 full sets",
        [
            &mut || once(|| unsafe { raw::aps_write_list(black_box(table), to, room, &mut 0) }),
            &mut || each(&mut |b| unsafe { raw::aps_head_parse_rbsp(b.as_ptr(), b.len(), &mut head, &mut 0) }),
            &mut || each(&mut |b| unsafe { raw::aps_rewrite(b.as_ptr(), b.len(), to, room, &mut 0) }),
        ],
    );
    let against = |name: &str, other| Row {
        name: format!("a cut of 20 full sets, against {name}"),
        library: list,
        against: Some(other),
        bytes: None,
    };
    vec![
        against("these read", read),
        against("these read and written", rewritten),
    ]
}

type Lookup<T> = unsafe extern "C" fn(&Bytes, u8, *mut T, *mut UnitHeader) -> u32;

/// A set looked up, against its RBSP read; both fill a struct.
fn lookup(table: &Bytes, name: &str, (kind, id): (u8, u8), rbsp: &[u8]) -> Row {
    let name = format!("lookup of a full {name} set, against its RBSP read");
    let [looked, read] = match kind {
        0 => lookup_of::<Alf>(&name, table, id, rbsp, raw::aps_alf_lookup, raw::aps_alf_parse_rbsp),
        1 => lookup_of::<Lmcs>(&name, table, id, rbsp, raw::aps_lmcs_lookup, raw::aps_lmcs_parse_rbsp),
        _ => lookup_of::<Scaling>(
            &name,
            table,
            id,
            rbsp,
            raw::aps_scaling_lookup,
            raw::aps_scaling_parse_rbsp,
        ),
    };
    Row {
        name,
        library: looked,
        against: Some(read),
        bytes: None,
    }
}

fn lookup_of<T: Default + PartialEq>(
    name: &str,
    table: &Bytes,
    id: u8,
    rbsp: &[u8],
    lookup: Lookup<T>,
    parse_rbsp: ParseRbsp<T>,
) -> [f64; 2] {
    let (mut looked_up, mut parsed) = (T::default(), T::default());
    let mut header = unit_header([0; 3]);
    let times = least(
        name,
        [
            &mut || {
                calls(rbsp, |_| unsafe {
                    lookup(black_box(table), id, &mut looked_up, &mut header).into()
                })
            },
            &mut || {
                calls(rbsp, |b| unsafe {
                    parse_rbsp(b.as_ptr(), b.len(), &mut parsed, &mut 0).into()
                })
            },
        ],
    );
    assert!(looked_up == parsed, "{name}: the sets differ");
    assert!(header == unit_header([17, 0, 1]), "{name}: the header differs");
    times
}

fn empty_list() -> Row {
    let table = new_table();
    let name = "an empty table's list";
    let write = || unsafe { raw::aps_write_list(black_box(&table), std::ptr::dangling_mut(), 0, &mut 0) };
    let [list] = least(name, [&mut || calls(&[0; 400], |_| write().into())]);
    Row {
        name: name.into(),
        library: list,
        against: None,
        bytes: None,
    }
}
