//! The table against the plain model over the Rust: streams taken, lookups and cuts.

use std::hint::black_box;
use std::time::Instant;

use super::{record, Row};
use crate::expected::document::LONGEST_RBSP;
use crate::expected::table::{names, split, work_due, Table as Model, Why};
use crate::h266::aps::{write_aps, VvcAps};
use crate::headers::{self, Header};
use crate::nal;
use crate::random::Random;
use crate::sets::make::Style;
use crate::sets::{extended, flip, long};
use crate::speed::sets::calls;
use crate::speed::table::foreign;
use crate::speed::Run;
use crate::tally::Tally;
use kendwyra::{Aps, Counts, Kind, Refusal, Table, LIST_BYTES};

const CASES: usize = 2_000;

pub fn rows() -> Vec<Row> {
    let mut rows = vec![typical_sets(), other_units()];
    let lookups = [(0, "ALF"), (1, "LMCS"), (2, "scaling")].map(|(kind, name)| lookup(kind, name));
    rows.extend(lookups);
    rows.push(cut());
    rows
}

/// A unit with a header that is taken, after a start code; some with extension flag 1.
fn unit(random: &mut Random, set: &VvcAps, extension: bool) -> Vec<u8> {
    let mut rbsp = write_aps(set).expect("a set in range is written");
    if extension {
        rbsp = extended(&rbsp);
    }
    let unit_type = headers::aps_type(random);
    let header = headers::bytes(headers::good(random, unit_type));
    [&[0, 0, 0, 1][..], &header, &nal::rbsp_to_ebsp(&rbsp)].concat()
}

/// A set for each of the 20 places; the one at `extension` has that flag.
pub(super) fn filling(random: &mut Random, style: Style, extension: Option<usize>) -> Vec<u8> {
    let units = names().into_iter().enumerate();
    units
        .flat_map(|(i, name)| {
            let set = long::taken(random, style, name);
            unit(random, &set, extension == Some(i))
        })
        .collect()
}

/// A table of the crate's, and what it must be.
pub(super) struct Both {
    pub ours: Table,
    pub model: Model,
    /// What stands in work buffers before a call.
    filler: Vec<u8>,
}

impl Both {
    pub fn new() -> Self {
        Both {
            ours: Table::new(),
            model: Model::new(),
            filler: Random::new(70).bytes(66_000),
        }
    }

    /// The counts or the refusal, every byte of the work buffer, and then the fields of every place.
    fn stream(&mut self, t: &mut Tally, stream: &[u8], room: usize) {
        let (mut after, mut expected) = (self.filler[..room].to_vec(), self.filler[..room].to_vec());
        let asked = || format!("stream {stream:02X?} with {room} bytes of work");
        t.same(
            asked,
            (taken(&mut self.ours, stream, &mut after), after),
            (self.model.take_stream(stream, &mut expected), expected),
        );
        let (ours, model) = self.places();
        if ours != model {
            t.same(|| format!("places after {}", asked()), ours, model);
        }
    }

    pub fn places(&self) -> (Vec<Held>, Vec<Held>) {
        let ours = |name| looked_up(&self.ours, name);
        let model = |name| modelled(&self.model, name);
        (
            names().into_iter().map(ours).collect(),
            names().into_iter().map(model).collect(),
        )
    }

    /// The times of a stream of whole sets that is taken again and again.
    fn row(mut self, t: Tally, stream: &[u8]) -> Row {
        self.model.looking = false;
        let (mut work, mut again) = (self.filler.clone(), self.filler.clone());
        Row::new(
            t,
            &mut || once(|| sum(self.model.take_stream(black_box(stream), &mut work))),
            &mut || once(|| sum(taken(&mut self.ours, black_box(stream), &mut again))),
        )
    }
}

/// The header and the fields of a place, or the refusal's number.
pub(super) type Held = Result<(Header, Aps), u32>;

fn looked_up(table: &Table, (kind, id): (u8, u8)) -> Held {
    let held = table
        .lookup(Kind::ALL[usize::from(kind)], id)
        .map_err(Refusal::number)?;
    let h = held.header;
    Ok(([h.nal_unit_type, h.nuh_layer_id, h.nuh_temporal_id_plus1], held.set))
}

fn modelled(model: &Model, (kind, id): (u8, u8)) -> Held {
    let entry = model.held(kind, id)?;
    Ok((entry.header, record::set(&entry.set)))
}

pub(super) fn taken(table: &mut Table, stream: &[u8], work: &mut [u8]) -> Result<[u64; 3], u32> {
    let counts = |c: Counts| [c.accepted, c.refused, c.passed_over].map(|n| n as u64);
    table.take_stream(stream, work).map(counts).map_err(Refusal::number)
}

/// One call that takes long.
fn once(call: impl FnOnce() -> u64) -> Run {
    let began = Instant::now();
    let answer = call();
    (1, began.elapsed(), answer)
}

fn sum(counts: Result<[u64; 3], u32>) -> u64 {
    counts.map_or(0, |[accepted, refused, passed_over]| {
        accepted << 40 | refused << 20 | passed_over
    })
}

/// As long as the longest RBSP that is read, every tenth one byte less, and every fifth as long as the stream.
fn room(stream: &[u8], case: usize) -> usize {
    let due = split(stream).map_or(0, |units| work_due(&units));
    match case % 10 {
        4 => due.saturating_sub(1),
        1 | 8 => stream.len(),
        _ => due,
    }
}

/// Every tenth stream has a bit flipped or is cut, every tenth has a bit of a header flipped, every tenth ends with a set that is too long, and
/// every tenth has too short a work buffer.
fn typical_sets() -> Row {
    let mut t = Tally::new("stream of 20 typical sets taken");
    let mut random = Random::new(71);
    let mut both = Both::new();
    for case in 0..CASES {
        let mut stream = filling(&mut random, Style::Typical, None);
        damage(&mut random, &mut stream, case);
        if case % 10 == 6 {
            let len = LONGEST_RBSP + 1 + random.below(400);
            let long = long::scaling(&mut random, len);
            stream.extend(unit(&mut random, &long, false));
        }
        let room = room(&stream, case);
        both.stream(&mut t, &stream, room);
    }
    for why in [Why::Damaged, Why::LongRbsp] {
        let emptied = both.model.named.iter().any(|&(of, _)| of == why);
        assert!(emptied, "sets that are damaged or too long empty places");
    }
    both.row(t, &filling(&mut random, Style::Typical, None))
}

pub(super) fn damage(random: &mut Random, stream: &mut Vec<u8>, case: usize) {
    let len = stream.len();
    match case % 20 {
        9 => flip(stream, random.below(len * 8)),
        19 => stream.truncate(1 + random.below(len - 1)),
        2 | 12 => flip(stream, 32 + random.below(16)),
        _ => (),
    }
}

/// Units of every type but 17 and 18, damaged as above.
fn other_units() -> Row {
    let mut t = Tally::new("stream of other units taken");
    let mut random = Random::new(72);
    let mut both = Both::new();
    for case in 0..CASES {
        let mut stream = Vec::new();
        while stream.len() < 60_000 {
            let unit_type = [random.below(17), 19 + random.below(13)][random.below(2)] as u8;
            let most = [20, 200, 3_000][random.below(3)];
            let len = random.below(most);
            let body = nal::rbsp_to_ebsp(&random.bytes(len));
            stream.extend([&[0, 0, 0, 1, 0x00, unit_type << 3 | 1][..], &body].concat());
        }
        damage(&mut random, &mut stream, case);
        let room = room(&stream, case);
        both.stream(&mut t, &stream, room);
    }
    both.row(t, &foreign(1_400, |n| nal::rbsp_to_ebsp(&random.bytes(n))))
}

/// A full set taken, then looked up; every tenth lookup is of any kind and id.
fn lookup(kind: u8, name: &str) -> Row {
    let mut t = Tally::new(format!("lookup of a full {name} set"));
    let mut random = Random::new(73);
    let mut both = Both::new();
    let mut place = (kind, 0);
    for case in 0..CASES {
        place = (kind, random.below(if kind == 1 { 4 } else { 8 }) as u8);
        let set = long::taken(&mut random, Style::Full, place);
        let stream = unit(&mut random, &set, false);
        let (mut work, mut again) = (vec![0; stream.len()], vec![0; stream.len()]);
        let accepted = [
            both.model.take_stream(&stream, &mut work),
            taken(&mut both.ours, &stream, &mut again),
        ];
        assert!(accepted == [Ok([1, 0, 0]); 2], "a full set is accepted");
        let name = match case % 10 {
            9 => (random.below(3) as u8, random.below(10) as u8),
            _ => place,
        };
        t.same(
            || format!("lookup of kind and id {name:?}"),
            looked_up(&both.ours, name),
            modelled(&both.model, name),
        );
    }
    let (Both { ours, model, .. }, (kind, id)) = (both, place);
    Row::new(
        t,
        &mut || {
            calls(&[0; 400], |_| {
                black_box(&black_box(&model).held(kind, id).cloned()).is_err().into()
            })
        },
        &mut || {
            calls(&[0; 400], |_| {
                black_box(&black_box(&ours).lookup(Kind::ALL[usize::from(kind)], id))
                    .is_err()
                    .into()
            })
        },
    )
}

/// Full sets in all places, in every tenth table the largest, in every tenth one with extension flag 1; every tenth list also into one byte
/// less.
fn cut() -> Row {
    let mut t = Tally::new("cut of 20 full sets");
    let mut random = Random::new(74);
    let mut both = Both::new();
    let mut work = vec![0; 65_536];
    for case in 0..CASES {
        let extension = (case % 10 == 5).then(|| random.below(20));
        let style = if case % 10 == 7 { Style::Largest } else { Style::Full };
        let stream = filling(&mut random, style, extension);
        let accepted = [
            both.model.take_stream(&stream, &mut work),
            taken(&mut both.ours, &stream, &mut work),
        ];
        assert!(accepted == [Ok([20, 0, 0]); 2], "full sets are accepted");
        both.list(&mut t, usize::from(case % 10 == 4));
    }
    let stream = filling(&mut random, Style::Full, None);
    let taken = taken(&mut both.ours, &stream, &mut work);
    assert!(
        taken == both.model.take_stream(&stream, &mut work),
        "full sets are accepted"
    );
    Row::new(
        t,
        &mut || once(|| black_box(&both.model).list().map_or(0, |list| list.len() as u64)),
        &mut || once(|| black_box(&both.ours).list().map_or(0, |list| list.len() as u64)),
    )
}

impl Both {
    /// The list as a new one, and written into an output that is `less` too short.
    fn list(&self, t: &mut Tally, less: usize) {
        let expected = self.model.list();
        let room = expected.as_ref().map_or(LIST_BYTES, Vec::len) - less;
        let mut after = self.filler[..room].to_vec();
        let ours = (self.ours.write_list(&mut after).map_err(Refusal::number), after);
        let written = self.model.write_list(&self.filler[..room]);
        t.same(
            || format!("list, and written into {room} bytes"),
            (self.ours.list().map_err(Refusal::number), ours),
            (expected, written),
        );
    }
}
