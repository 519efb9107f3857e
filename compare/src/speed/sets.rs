//! Sets read from RBSPs, and written again: the Rust makes its records, the library its own.

use std::hint::black_box;
use std::time::Instant;

use super::{time, Run, Time};
use crate::h266::aps::{self, parse_aps_rbsp, write_aps, VvcAps};
use crate::random::Random;
use crate::rust_calls;
use crate::sets::make::{Maker, Style};
use kendwyra::{raw, Alf, Head, Lmcs, Scaling};

/// Small, typical and full sets of the three kinds: one that is repeated, and of the last two sizes as many as are read in turn.
pub struct Input {
    pub name: String,
    pub one: Vec<u8>,
    pub in_turn: Vec<Vec<u8>>,
}

/// So many different sets that no branch is learnt by heart.
const IN_TURN: usize = 64;

pub fn inputs() -> Vec<Input> {
    let mut random = Random::new(17);
    let mut out = Vec::new();
    for (kind, name, small) in [
        (0, "ALF", &[0x00, 0x10][..]),
        (1, "LMCS", &[0x20, 0x42, 0x12]),
        (2, "scaling", &[0x40, 0x7F, 0xFF, 0xE8]),
    ] {
        out.push(Input {
            name: format!("small {name} set"),
            one: small.to_vec(),
            in_turn: Vec::new(),
        });
        for (size, style) in [("typical", Style::Typical), ("full", Style::Full)] {
            let mut maker = Maker {
                random: &mut random,
                style,
            };
            let sets: Vec<Vec<u8>> = (0..IN_TURN)
                .map(|_| aps::write_aps(&maker.set(kind)).unwrap_or_default())
                .collect();
            out.push(Input {
                name: format!("{size} {name} set"),
                one: middle(sets.clone()),
                in_turn: sets,
            });
        }
    }
    out
}

/// The one of middle length.
fn middle(mut sets: Vec<Vec<u8>>) -> Vec<u8> {
    sets.sort_by_key(Vec::len);
    sets.swap_remove(sets.len() / 2)
}

pub fn calls(bytes: &[u8], call: impl FnMut(&[u8]) -> u64) -> Run {
    calls_in_turn(&[bytes], call)
}

fn calls_in_turn<T: AsRef<[u8]>>(sets: &[T], mut call: impl FnMut(&[u8]) -> u64) -> Run {
    let bytes: usize = sets.iter().map(|set| set.as_ref().len() + 10).sum();
    let rounds = (40_000 / bytes).max(1);
    let began = Instant::now();
    let mut sum = 0;
    for _ in 0..rounds {
        for set in sets {
            sum += call(black_box(set.as_ref()));
        }
    }
    ((rounds * sets.len()) as u64, began.elapsed(), sum)
}

type End = unsafe extern "C" fn(*const u8, usize, &mut u64) -> u32;
type Rewrite = unsafe extern "C" fn(*const u8, usize, *mut u8, usize, &mut u64) -> u32;
pub type ParseRbsp<T> = unsafe extern "C" fn(*const u8, usize, *mut T, &mut u64) -> u32;
type Write<T> = unsafe extern "C" fn(*const T, *mut u8, usize, &mut u64) -> u32;

/// All rows of an input: its head alone, the record of its kind read, that written again, a struct filled, and a struct written.
pub fn rows(input: &Input) -> Vec<Time> {
    let kind = usize::from(input.one[0] >> 5);
    let mut out = Vec::new();
    let mut times = |name: &str, sets: &[&[u8]]| {
        let own = [raw::aps_alf_end as End, raw::aps_lmcs_end, raw::aps_scaling_end][kind];
        let rewrite = [
            raw::aps_alf_rewrite as Rewrite,
            raw::aps_lmcs_rewrite,
            raw::aps_scaling_rewrite,
        ][kind];
        let mut head = Head::default();
        let head = |from, len, end: &mut u64| unsafe { raw::aps_head_parse_rbsp(from, len, &mut head, end) };
        out.push(read(format!("{name}, its head"), sets, head));
        let own = read(format!("{name}, read"), sets, |from, len, end: &mut u64| unsafe {
            own(from, len, end)
        });
        let written = write(name, sets, &own, rewrite);
        out.push(own);
        out.extend(written);
        out.extend(match kind {
            0 => structs::<Alf>(name, sets, raw::aps_alf_parse_rbsp, raw::aps_alf_write),
            1 => structs::<Lmcs>(name, sets, raw::aps_lmcs_parse_rbsp, raw::aps_lmcs_write),
            _ => structs::<Scaling>(name, sets, raw::aps_scaling_parse_rbsp, raw::aps_scaling_write),
        });
    };
    times(&format!("{}, {} bytes", input.name, input.one.len()), &[&input.one]);
    if !input.in_turn.is_empty() {
        let sets: Vec<&[u8]> = input.in_turn.iter().map(Vec::as_slice).collect();
        times(&format!("{}s, {} in turn", input.name, sets.len()), &sets);
    }
    out
}

/// The set read; the Rust makes its record and drops it, whatever the library's call hands over.
fn read(name: String, sets: &[&[u8]], mut library: impl FnMut(*const u8, usize, &mut u64) -> u32) -> Time {
    let rust = black_box(rust_calls::rbsp_end as extern "C" fn(*const u8, usize) -> u32);
    time(
        name,
        [
            &mut || calls_in_turn(sets, |b| black_box(parse_aps_rbsp(b)).is_err().into()),
            &mut || calls_in_turn(sets, |b| rust(b.as_ptr(), b.len()).into()),
            &mut || {
                let mut end = 0;
                calls_in_turn(sets, |b| library(b.as_ptr(), b.len(), &mut end).into())
            },
        ],
    )
}

/// The set read into a struct, and written from one that stands ready: of the Rust a record that stands ready.
fn structs<T: Default>(name: &str, sets: &[&[u8]], parse_rbsp: ParseRbsp<T>, write: Write<T>) -> [Time; 2] {
    let mut set = T::default();
    let filled = read(
        format!("{name}, read into a struct"),
        sets,
        |from, len, end: &mut u64| unsafe { parse_rbsp(from, len, black_box(&mut set), end) },
    );
    let ready = |b: &&[u8]| {
        let mut set = T::default();
        let code = unsafe { parse_rbsp(b.as_ptr(), b.len(), &mut set, &mut 0) };
        assert!(code == 0, "a set that the Rust wrote");
        (parse_aps_rbsp(b).expect("a set that the Rust wrote"), set)
    };
    let ready: Vec<(VvcAps, T)> = sets.iter().map(ready).collect();
    let rust = black_box(rust_calls::write as extern "C" fn(&VvcAps, *mut u8, usize) -> u32);
    let mut out = vec![0; 4_000];
    let room = out.len();
    let to: *mut u8 = out.as_mut_ptr();
    let in_turn = |write: &mut dyn FnMut(&(VvcAps, T)) -> u64| {
        let mut next = ready.iter().cycle();
        calls_in_turn(sets, |_| next.next().map_or(0, |set| write(black_box(set))))
    };
    let written = time(
        format!("{name}, written from a struct"),
        [
            &mut || in_turn(&mut |(record, _)| write_aps(record).map_or(0, |w| w.len() as u64)),
            &mut || in_turn(&mut |(record, _)| rust(record, to, room).into()),
            &mut || {
                let mut len = 0;
                in_turn(&mut |(_, set)| unsafe {
                    write(set, to, room, &mut len);
                    len
                })
            },
        ],
    );
    [filled, written]
}

/// The set read and written again, and the time of the writing alone: of the library what is left of that without the reading, of the
/// Rust its write of a set that stands ready.
fn write(name: &str, sets: &[&[u8]], read: &Time, library: Rewrite) -> [Time; 2] {
    let rust = black_box(rust_calls::rewrite as extern "C" fn(*const u8, usize, *mut u8, usize) -> u32);
    let library = black_box(library);
    let mut out = vec![0; 4_000];
    let room = out.len();
    let to: *mut u8 = out.as_mut_ptr();
    let both = time(
        format!("{name}, read and written"),
        [
            &mut || {
                calls_in_turn(sets, |b| {
                    parse_aps_rbsp(b)
                        .and_then(|set| write_aps(&set))
                        .map_or(0, |w| w.len() as u64)
                })
            },
            &mut || calls_in_turn(sets, |b| rust(b.as_ptr(), b.len(), to, room).into()),
            &mut || {
                let mut len = 0;
                calls_in_turn(sets, |b| unsafe {
                    library(b.as_ptr(), b.len(), to, room, &mut len);
                    len
                })
            },
        ],
    );
    let records: Vec<_> = sets
        .iter()
        .map(|b| parse_aps_rbsp(b).expect("a set that the Rust wrote"))
        .collect();
    let ready = || {
        let mut next = records.iter().cycle();
        calls_in_turn(sets, |_| {
            next.next()
                .map_or(0, |set| write_aps(black_box(set)).map_or(0, |w| w.len() as u64))
        })
    };
    let ready = time(String::new(), [&mut || ready(), &mut || ready(), &mut || ready()]);
    let alone = Time {
        name: format!("{name}, written"),
        inlined: ready.inlined,
        called: ready.called,
        library: both.library - read.library,
    };
    [both, alone]
}
