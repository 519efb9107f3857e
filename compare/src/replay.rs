//! The sample that the program `replay_sets` reads, a name and an RBSP to a line, some with a change of one field after it, and what the
//! program must write.

mod changes;

use crate::bit_writer::BitWriter;
use crate::expected;
use crate::expected::document::LONGEST_RBSP;
use crate::h266::aps;
use crate::random::Random;
use crate::sets::long::scaling;
use crate::sets::make::{Maker, Style, STYLES};
use crate::sets::{extended, flip};

struct Case {
    name: String,
    rbsp: Vec<u8>,
}

pub fn print_sample() {
    for case in sample() {
        let hex: String = case.rbsp.iter().map(|b| format!("{b:02X}")).collect();
        println!("{}: {hex}", case.name);
    }
    for change in changes::sample() {
        println!("{}", change.line());
    }
}

/// The bit where reading ended and the fields that are not 0, after the index of the first in a row; or the refusal's number.
pub fn print_answers() {
    for case in sample() {
        let answer = match expected::sets::parse_rbsp(&case.rbsp) {
            Ok((numbers, end)) => format!("bit {end}{numbers:?}"),
            Err(e) => format!("refused {e}"),
        };
        println!("{}: {answer}", case.name);
    }
    for change in changes::sample() {
        println!("{}", change.answer());
    }
}

fn sample() -> Vec<Case> {
    let mut cases = marked();
    cases.extend(endings());
    cases.extend(short());
    cases.extend(alf_limits());
    cases.extend(lmcs_limits());
    cases.extend(scaling_limits());
    cases.extend(full_sets());
    cases.extend(around_the_longest());
    cases.extend(any_sets());
    cases
}

fn case(name: impl Into<String>, rbsp: &[u8]) -> Case {
    Case {
        name: name.into(),
        rbsp: rbsp.to_vec(),
    }
}

fn marked() -> Vec<Case> {
    vec![
        case("empty", &[]),
        case("ALF, nothing sent", &[0x00, 0x10]),
        case("ALF, nothing sent, chroma flag", &[0x00, 0x82]),
        case("ALF, nothing sent, extension flag", &[0x00, 0x20]),
        case("ALF, nothing sent, a byte more", &[0x00, 0x10, 0xFF]),
        case("ALF, no stop bit", &[0x00, 0x00]),
        case("ALF id 8, one byte", &[0x08]),
        case("LMCS, one byte", &[0x20]),
        case("LMCS, bins 0 to 0", &[0x20, 0x42, 0x12]),
        case("LMCS id 4, one byte", &[0x24]),
        case("scaling, all copied", &[0x40, 0x7F, 0xFF, 0xE8]),
        case("kind 3, one byte", &[0x60]),
        case("kind 4", &[0x80, 0x10]),
        case("kind 7", &[0xFF, 0xFF]),
        case("LMCS min 15, delta max 0", &[0x20, 0x04, 0x32]),
    ]
}

fn endings() -> Vec<Case> {
    vec![
        case("ALF id 7", &[0x07, 0x10]),
        case("ALF id 8", &[0x08, 0x10]),
        case("ALF id 31", &[0x1F, 0x10]),
        case("ALF, padding not 0", &[0x00, 0x11]),
        case("ALF, stop bit 0", &[0x00, 0x0F]),
        case("ALF, extension flag, one bit more", &[0x00, 0x30]),
        case("ALF, zeros", &[0x00; 6]),
        case("scaling id 7", &[0x47, 0x7F, 0xFF, 0xE8]),
        case("scaling id 8", &[0x48, 0x7F, 0xFF, 0xE8]),
        case("scaling, ends in the copy flags", &[0x40, 0x7F]),
        case("scaling, stop bit 0", &[0x40, 0x7F, 0xFF, 0xE0]),
        case("scaling, extension flag", &[0x40, 0x7F, 0xFF, 0xF0]),
    ]
}

/// Sets that end too early, and rules that are judged before or after a missing bit.
fn short() -> Vec<Case> {
    vec![
        case("ALF, ends before the extension flag", &[0x00, 0x5F, 0xFF]),
        case("ALF id 8, ends before the extension flag", &[0x08, 0x5F, 0xFF]),
        case("ALF id 8, ends where a magnitude begins", &[0x08, 0x54]),
        case("ALF luma, cut in a magnitude's zeros", &[0x00, 0x50, 0x00]),
        case("ALF luma count-1 2, cut after an index of 2", &[0x00, 0x4E]),
        case("ALF luma count-1 2, cut after an index of 3", &[0x00, 0x4F]),
        case("LMCS, cut in its delta max", &[0x20, 0x42]),
        case("LMCS min 127, ends after it", &[0x20, 0x00, 0x80]),
        case("LMCS, 31 zeros up to the end", &[0x20, 0, 0, 0, 0]),
        case("LMCS min 7, 32 zeros up to the end", &[0x20, 0x08, 0, 0, 0, 0]),
        case("scaling, cut in the zeros of a step of -128", &[0x40, 0x1F, 0x00]),
    ]
}

/// A field to write.
#[derive(Clone, Copy)]
enum Field {
    U(u32, u32),
    Ue(u32),
    Se(i32),
}

use Field::{Se, Ue, U};

/// The fields after each other, then extension flag 0, the stop bit and zeros.
fn written(runs: &[&[Field]]) -> Vec<u8> {
    let mut w = BitWriter::new();
    for &field in runs.iter().copied().flatten() {
        match field {
            U(value, n) => w.write_bits(value, n),
            Ue(value) => w.write_ue(value).expect("a value that has a code"),
            Se(value) => w.write_se(value).expect("a value that has a code"),
        }
    }
    w.write_bit(0);
    w.write_rbsp_trailing_bits();
    w.finish()
}

/// Kind, id and chroma flag.
fn head(kind: u32, id: u32, chroma: u32) -> [Field; 3] {
    [U(kind, 3), U(id, 5), U(chroma, 1)]
}

/// Magnitudes of 0.
const ZEROS: [Field; 12] = [Ue(0); 12];

fn alf_limits() -> Vec<Case> {
    let luma = head(0, 0, 0);
    let chroma = head(0, 0, 1);
    let mut cases = Vec::new();
    for count in [0u32, 1, 23, 24, 25] {
        let indexes = if count > 0 {
            vec![U(0, u32::BITS - count.leading_zeros()); 25]
        } else {
            vec![]
        };
        let filters = vec![Ue(0); 12 * (count as usize + 1)];
        let rbsp = written(&[&luma, &[U(1, 1), U(0, 1), Ue(count)], &indexes, &filters]);
        cases.push(case(format!("ALF luma count-1 {count}"), &rbsp));
    }
    for index in [2, 3] {
        let indexes = vec![U(index, 2); 25];
        let rbsp = written(&[&luma, &[U(1, 1), U(0, 1), Ue(2)], &indexes, &[Ue(0); 36]]);
        cases.push(case(format!("ALF luma count-1 2, indexes {index}"), &rbsp));
    }
    for magnitude in [1, 127, 128, 129] {
        for sign in [0, 1] {
            let first = [Ue(magnitude), U(sign, 1)];
            let rbsp = written(&[&luma, &[U(1, 1), U(0, 1), Ue(0)], &first, &ZEROS[1..]]);
            cases.push(case(format!("ALF luma magnitude {magnitude}, sign {sign}"), &rbsp));
            let rbsp = written(&[&chroma, &[U(4, 4), U(0, 1), Ue(0)], &first, &ZEROS[..5]]);
            cases.push(case(format!("ALF chroma magnitude {magnitude}, sign {sign}"), &rbsp));
        }
    }
    let clips = [U(0b11_10_01_00, 8); 3];
    let rbsp = written(&[&luma, &[U(1, 1), U(1, 1), Ue(0)], &ZEROS, &clips]);
    cases.push(case("ALF luma clips", &rbsp));
    for count in [0, 7, 8] {
        let alternatives: Vec<Field> = (0..=count)
            .flat_map(|i| [&ZEROS[..6], &[U(i % 4, 12)]].concat())
            .collect();
        let rbsp = written(&[&chroma, &[U(4, 4), U(1, 1), Ue(count)], &alternatives]);
        cases.push(case(format!("ALF chroma count-1 {count}, clips in each"), &rbsp));
    }
    for (name, signal) in [("Cb", 2), ("Cr", 1)] {
        for count in [0, 3, 4] {
            let coefficient = |i| if i % 2 == 0 { U(0b111_1, 4) } else { U(0, 3) };
            let filters: Vec<Field> = (0..7 * (count + 1)).map(coefficient).collect();
            let rbsp = written(&[&chroma, &[U(signal, 4), Ue(count)], &filters]);
            cases.push(case(format!("ALF {name} count-1 {count}"), &rbsp));
        }
    }
    cases
}

fn lmcs_limits() -> Vec<Case> {
    let mut cases = Vec::new();
    let mut of = |name: String, id, min, max, prec: u32| {
        let bins = vec![U(0, prec.min(14) + 1); 16u32.saturating_sub(min + max) as usize];
        let rbsp = written(&[&head(1, id, 0), &[Ue(min), Ue(max), Ue(prec)], &bins]);
        cases.push(case(name, &rbsp));
    };
    of("LMCS id 3".into(), 3, 0, 0, 0);
    of("LMCS id 4".into(), 4, 0, 0, 0);
    for (min, max) in [(15, 1), (16, 0), (0, 15), (0, 16), (8, 7), (8, 8), (7, 8)] {
        of(format!("LMCS min {min}, delta max {max}"), 0, min, max, 0);
    }
    for prec in [0, 14, 15] {
        of(format!("LMCS precision-1 {prec}"), 0, 3, 4, prec);
    }
    for (abs, sign) in [(0, 0), (7, 0), (7, 1)] {
        let end = if abs == 0 {
            vec![U(0, 3)]
        } else {
            vec![U(abs, 3), U(sign, 1)]
        };
        let bin = [Ue(15), Ue(0), Ue(3), U(15, 4), U(1, 1)];
        let rbsp = written(&[&head(1, 1, 1), &bin, &end]);
        cases.push(case(format!("LMCS chroma delta {abs}, sign {sign}"), &rbsp));
    }
    cases
}

/// A set without chroma whose first coded list, id 2 or `id`, holds `fields`, and whose other lists are copies.
fn one_list(id: u32, fields: &[Field]) -> Vec<u8> {
    let coded = |i: u32| i % 3 == 2 || i == 27;
    let copy = |i: u32| {
        if i == 2 || i == 8 {
            vec![U(1, 1)]
        } else {
            vec![U(1, 1), Ue(0)]
        }
    };
    let before: Vec<Field> = (0..id).filter(|&i| coded(i)).flat_map(copy).collect();
    let after: Vec<Field> = (id + 1..28).filter(|&i| coded(i)).flat_map(copy).collect();
    written(&[&head(2, 0, 0), &before, fields, &after])
}

fn scaling_limits() -> Vec<Case> {
    let mut cases = Vec::new();
    for value in [-128, 127, -129, 128] {
        let steps = [&[U(0, 2), Se(value)], &[Se(0); 15][..]].concat();
        cases.push(case(format!("scaling step {value}"), &one_list(2, &steps)));
        let dc = [&[U(0, 2), Se(value)], &[Se(0); 64][..]].concat();
        cases.push(case(format!("scaling DC {value}"), &one_list(14, &dc)));
    }
    for step in [-128, 127] {
        let steps = [&[U(0, 2)], &[Se(step); 64][..]].concat();
        cases.push(case(
            format!("scaling, every step of id 11 {step}"),
            &one_list(11, &steps),
        ));
    }
    for (id, steps) in [(23, 64), (26, 48), (27, 48)] {
        let read: Vec<Field> = (0..steps).map(|i| Se(i % 5 - 2)).collect();
        let fields = [&[U(0, 2), Se(3)], &read[..]].concat();
        cases.push(case(
            format!("scaling, {steps} steps of id {id}"),
            &one_list(id, &fields),
        ));
    }
    for (id, most) in [(5, 3), (11, 3), (26, 18), (27, 19)] {
        for delta in [most, most + 1] {
            let copy = one_list(id, &[U(1, 1), Ue(delta)]);
            cases.push(case(format!("scaling, copied id {id}, delta {delta}"), &copy));
        }
    }
    let predicted = [&[U(1, 2)], &[Se(1); 16][..]].concat();
    cases.push(case("scaling, predicted id 2", &one_list(2, &predicted)));
    let predicted = [&[U(1, 2)], &[Se(-1); 64][..]].concat();
    cases.push(case("scaling, predicted id 8", &one_list(8, &predicted)));
    let predicted = [&[U(1, 2), Ue(3)], &[Se(1); 64][..]].concat();
    cases.push(case("scaling, predicted id 11", &one_list(11, &predicted)));
    cases
}

const KINDS: [&str; 3] = ["ALF", "LMCS", "scaling"];

fn full_sets() -> Vec<Case> {
    let mut random = Random::new(15);
    let mut full = |kind: usize| {
        let style = Style::Full;
        let set = Maker {
            random: &mut random,
            style,
        }
        .set(kind as u8);
        let rbsp = aps::write_aps(&set).expect("a set in range is written");
        case(format!("{}, full", KINDS[kind]), &rbsp)
    };
    vec![full(0), full(1)]
}

/// Scaling lists of the longest RBSP that is read, and of one byte more.
fn around_the_longest() -> Vec<Case> {
    let mut random = Random::new(18);
    let mut of = |len| aps::write_aps(&scaling(&mut random, len)).expect("a set in range is written");
    vec![
        case("scaling, 2,048 bytes", &of(LONGEST_RBSP)),
        case("scaling, 2,049 bytes", &of(LONGEST_RBSP + 1)),
    ]
}

/// Sets of every kind and style, whole, with extension flag 1, with a bit flipped, and cut; none is long.
fn any_sets() -> Vec<Case> {
    let mut random = Random::new(16);
    let mut cases = Vec::new();
    while cases.len() < 200 {
        let kind = random.below(3);
        let style = STYLES[random.below(3)];
        let set = Maker {
            random: &mut random,
            style,
        }
        .set(kind as u8);
        let good = aps::write_aps(&set).expect("a set in range is written");
        if good.len() > [90, 40, 120][kind] {
            continue;
        }
        let mut damaged = good.clone();
        flip(&mut damaged, random.below(good.len() * 8));
        let (name, rbsp) = match random.below(4) {
            0 => ("extended", extended(&good)),
            1 => ("damaged", damaged),
            2 => ("cut", good[..random.below(good.len())].to_vec()),
            _ => ("whole", good),
        };
        cases.push(case(format!("{} {}, {name}", KINDS[kind], cases.len()), &rbsp));
    }
    cases
}
