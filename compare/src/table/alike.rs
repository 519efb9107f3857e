//! Pairs of tables that hold the same in every place, or differ in one field of one set, in one field of one header or in one empty place:
//! their lists are the same bytes exactly where every place agrees. Each list, read into a new table and written again, is the same.

use super::marks::Marks;
use super::{Both, Named};
use crate::expected::table::{names, split, work_due};
use crate::expected::{sets, written};
use crate::headers::{self, Header};
use crate::library::sets::HEAD;
use crate::library::structs::types;
use crate::random::Random;
use crate::sets::make::{Maker, Style};
use crate::tally::Tally;
use kendwyra::{LIST_BYTES, LONGEST_RBSP, TABLE_BYTES};

const PAIRS: usize = 40_000;

/// A set's numbers and the header of its unit.
type Unit = (Vec<i64>, Header);

/// What the second table has that the first has not.
#[derive(Clone, Copy)]
enum Change {
    Nothing,
    Field,
    Header,
    Empty,
}

const CHANGES: [Change; 4] = [Change::Nothing, Change::Field, Change::Header, Change::Empty];

pub fn alike_lists() -> Vec<Tally> {
    let mut rows = [
        "alike: the same in every place",
        "alike: a field of a set changed",
        "alike: a field of a header changed",
        "alike: a place empty in one",
        "alike: a field changed that is not looked at",
        "alike: lists written, read and written again",
    ]
    .map(Tally::new);
    let mut random = Random::new(33);
    for round in 0..PAIRS {
        let change = CHANGES[round % CHANGES.len()];
        pair(&mut rows, &mut random, round as u64, change);
    }
    rows.into()
}

fn pair(rows: &mut [Tally; 6], random: &mut Random, number: u64, change: Change) {
    let units = units(random);
    let mut others = units.clone();
    let at = random.below(others.len());
    match change {
        Change::Nothing => (),
        Change::Field => others[at].0 = another_field(random, &units[at].0),
        Change::Header => others[at].1 = another_header(random, units[at].1),
        Change::Empty => _ = others.remove(at),
    }
    shuffle(random, &mut others);
    let (first, second) = (table(random, &units), table(random, &others));
    let [list, other] = [&first, &second].map(|both| list(both));
    let agree = names()
        .into_iter()
        .all(|(kind, id)| first.expected.lookup(kind, id) == second.expected.lookup(kind, id));
    let row = match change {
        Change::Field if agree => 4,
        _ => change as usize,
    };
    rows[row].same(|| format!("pair {number}: lists equal"), list == other, agree);
    again(&mut rows[5], random, number, &list);
}

/// Sets that are taken for some places, one for each.
fn units(random: &mut Random) -> Vec<Unit> {
    let few = 1 + random.below(8);
    let mut units = Vec::new();
    for (kind, id) in names() {
        if random.below(8) < few {
            let style = [Style::Sparse, Style::Typical, Style::Extreme, Style::Full][random.below(4)];
            let mut set = Maker { random, style }.set(kind);
            set.aps_adaptation_parameter_set_id = id;
            let numbers = sets::numbers(&set).0;
            if rbsp(&numbers).is_some() {
                let unit_type = headers::aps_type(random);
                units.push((numbers, headers::good(random, unit_type)));
            }
        }
    }
    if units.is_empty() {
        return self::units(random);
    }
    units
}

/// The RBSP of a set that the Rust writes, if it is not too long.
fn rbsp(set: &[i64]) -> Option<Vec<u8>> {
    let (len, out) = written::write(set, &[0; LONGEST_RBSP]);
    len.ok().map(|n| out[..n].to_vec())
}

/// The set with one of its numbers changed, a flag among them, so that it is written still.
fn another_field(random: &mut Random, set: &[i64]) -> Vec<i64> {
    loop {
        let mut other = set.to_vec();
        let i = match random.below(8) {
            0 => 2,
            _ => HEAD + random.below(set.len() - HEAD),
        };
        let (low, high) = types(set[0] as usize)[i - 1].range();
        other[i] = (set[i] + [-1, 1][random.below(2)]).clamp(low, high);
        if other[i] != set[i] && rbsp(&other).is_some() {
            return other;
        }
    }
}

/// The header with one of its fields changed.
fn another_header(random: &mut Random, header: Header) -> Header {
    let [unit_type, layer, temporal_id_plus1] = header;
    match random.below(3) {
        0 => [35 - unit_type, layer, temporal_id_plus1],
        1 => [unit_type, (layer + 1 + random.below(55) as u8) % 56, temporal_id_plus1],
        _ => [unit_type, layer, 1 + (temporal_id_plus1 + random.below(6) as u8) % 7],
    }
}

fn shuffle(random: &mut Random, units: &mut [Unit]) {
    for i in (1..units.len()).rev() {
        units.swap(i, random.below(i + 1));
    }
}

/// A table that takes the units, now and then an older one of the same place before.
fn table(random: &mut Random, units: &[Unit]) -> Both {
    let mut both = Both::new(&random.bytes(TABLE_BYTES), Marks::clear());
    let mut t = Tally::new("");
    let mut named = Named::new("");
    let mut lent = crate::library::sets::Lent::new();
    let mut work = [0; LONGEST_RBSP];
    work.fill(random.next() as u8);
    for (set, header) in units {
        if random.below(4) == 0 {
            let older = another_header(random, *header);
            both.unit(&mut t, 0, &unit(set, older), &work);
        }
        both.unit(&mut t, 0, &unit(set, *header), &work);
        both.named(&mut named, &mut lent, 0);
    }
    assert!(t.differences == 0, "units that the part `table` compares");
    both
}

fn unit(set: &[i64], header: Header) -> Vec<u8> {
    let (len, out) = written::write_nal(set, header, &[0; 2 * LONGEST_RBSP]);
    out[..len.expect("a set that is written")].to_vec()
}

fn list(both: &Both) -> Vec<u8> {
    let mut out = vec![0xA5; LIST_BYTES];
    let len = both
        .library
        .write_list(&mut out)
        .expect("a table without extension flags");
    out.truncate(len);
    out
}

/// The list read into a new table, with a work buffer just long enough, and written again into just enough room.
fn again(t: &mut Tally, random: &mut Random, number: u64, list: &[u8]) {
    let due = split(list).map_or(0, |units| work_due(&units));
    let mut table = crate::library::table::Table::new(&random.bytes(TABLE_BYTES));
    let counts = table.take_stream(list, &mut vec![0; due]);
    let mut out = vec![0; list.len()];
    let len = table.write_list(&mut out);
    t.same(
        || format!("pair {number}: a list of {} bytes read and written again", list.len()),
        (counts.map(|counts| counts[1]), len, out),
        (Ok(0), Ok(list.len()), list.to_vec()),
    );
}
