//! The table: 20 places, each with the set last accepted for it as the Rust's `parse_aps` reads it and its unit's header, unless a unit that
//! is damaged or has too long an RBSP has named the place since, and their list by `write_aps_nal` with these headers.

use super::{document, sets, written};
use crate::h266::aps::VvcAps;
use crate::h266::{self, NAL_TYPE_PREFIX_APS};
use crate::headers::{self, Header};
use crate::library::sets::Held;
use crate::library::table::Taken;
use crate::nal;

/// Ids of each kind: ALF 0 to 7, LMCS 0 to 3, scaling 0 to 7.
const IDS: [u8; 3] = [8, 4, 8];

/// The 20 kinds and ids, kind rising, then id rising.
pub fn names() -> Vec<(u8, u8)> {
    let of_kind = |kind: u8| (0..IDS[kind as usize]).map(move |id| (kind, id));
    (0..3).flat_map(of_kind).collect()
}

/// The units of a stream, or 2. What stands before the first 00 00 01 is zero; what follows a 00 00 01, up to the next, is a unit and then
/// zero bytes. A unit with 00 00 00 in it would end there, and its other bytes would stand where only zero bytes may.
pub fn split(stream: &[u8]) -> Result<Vec<&[u8]>, u32> {
    let codes: Vec<usize> = (0..stream.len())
        .filter(|&i| stream[i..].starts_with(&[0, 0, 1]))
        .collect();
    let first = codes.first().copied().unwrap_or(stream.len());
    if stream[..first].iter().any(|&b| b != 0) {
        return Err(2);
    }
    let ends = codes.iter().skip(1).copied().chain([stream.len()]);
    let mut units = Vec::new();
    for (code, end) in codes.iter().zip(ends) {
        let unit = without_last_zeros(&stream[code + 3..end]);
        if unit.windows(3).any(|three| three == [0, 0, 0]) {
            return Err(2);
        }
        units.push(unit);
    }
    Ok(units)
}

fn without_last_zeros(bytes: &[u8]) -> &[u8] {
    let len = bytes.iter().rposition(|&b| b != 0).map_or(0, |last| last + 1);
    &bytes[..len]
}

/// 2 bytes or more, and a type other than 17 or 18.
fn is_passed_over(unit: &[u8]) -> bool {
    h266::parse_nal_header(unit).is_ok_and(|header| !sets::is_aps(header.nal_unit_type))
}

/// The longest RBSP that is read of a stream's units: none has 0.
pub fn work_due(units: &[&[u8]]) -> usize {
    units.iter().map(|unit| sets::work_due(unit)).max().unwrap_or(0)
}

/// The kind and the id that a unit's RBSP names if it has a byte: that has the kind in three bits, then the id in five.
fn named(unit: &[u8]) -> Option<(u8, u8)> {
    let body = unit.get(2..)?;
    let first = *nal::ebsp_to_rbsp(body).first()?;
    Some((first / 32, first % 32))
}

/// Why a unit was refused that named a place which held a set: the first two empty it, the others leave it as it was.
#[derive(Clone, Copy, PartialEq)]
pub enum Why {
    /// 1 or 2 after its header.
    Damaged,
    /// 4 after its header.
    LongRbsp,
    /// Its header; with one that is taken it would have emptied the place.
    Header,
    /// It has more than 65,536 bytes.
    LongUnit,
}

impl Why {
    pub fn empties(self) -> bool {
        matches!(self, Why::Damaged | Why::LongRbsp)
    }
}

/// A set in force, and its unit's header.
#[derive(Clone, PartialEq)]
pub struct Entry {
    pub set: VvcAps,
    pub header: Header,
}

/// In the order of their names.
type Places = [Option<Entry>; 20];

#[derive(Clone, PartialEq)]
pub struct Table {
    places: Places,
    /// Whether missing bits are looked for, which takes time that is not the Rust's.
    pub looking: bool,
    /// The places that held a set when a refused unit named them, until a caller takes this list.
    pub named: Vec<(Why, (u8, u8))>,
}

impl Table {
    pub fn new() -> Self {
        Table {
            places: [const { None }; 20],
            looking: true,
            named: Vec::new(),
        }
    }

    /// 4; 1; passed over; 2 for the header; 4 for a long RBSP; 5; then as `parse_aps`, but 1 where a bit is missing. A unit that is damaged or
    /// has a long RBSP is refused too, and empties a place; one that is too long itself or is refused for its header empties none, whatever
    /// follows that.
    pub fn take_unit(&mut self, unit: &[u8], work: &mut [u8]) -> Result<Taken, u32> {
        if let Err(refusal) = document::escape(unit.len()) {
            self.keep(unit, Why::LongUnit);
            return Err(refusal);
        }
        if is_passed_over(unit) {
            return Ok(Taken::PassedOver);
        }
        if let Err(refusal) = sets::unit_header(unit) {
            self.keep(unit, Why::Header);
            return Err(refusal);
        }
        match sets::read_unit(unit, work, self.looking) {
            Ok((header, set)) => {
                let place = place(set.aps_params_type, set.aps_adaptation_parameter_set_id);
                self.places[place.expect("a set that was read has a place")] = Some(Entry { set, header });
                Ok(Taken::Accepted)
            }
            Err(refusal) => {
                if let Some(why) = emptying(refusal) {
                    self.empty(unit, why);
                }
                Err(refusal)
            }
        }
    }

    /// An RBSP without a byte, and a kind or an id that is too large, have no place to empty.
    fn empty(&mut self, unit: &[u8], why: Why) {
        let Some(name) = named(unit) else { return };
        let Some(place) = place(name.0, name.1) else { return };
        if self.places[place].take().is_some() {
            self.named.push((why, name));
        }
    }

    /// Notes the place that the unit would have emptied with a header that is taken, no more bytes than are taken, and room to work in.
    fn keep(&mut self, unit: &[u8], why: Why) {
        let Some(body) = unit.get(2..) else { return };
        let mut good = [&headers::bytes([NAL_TYPE_PREFIX_APS, 0, 1])[..], body].concat();
        good.truncate(document::LONGEST);
        let read = sets::read_unit(&good, &mut [0; document::LONGEST_RBSP], self.looking);
        let named = read.err().and_then(emptying).and_then(|_| named(&good));
        let filled = named.filter(|&(kind, id)| self.held(kind, id).is_ok());
        self.named.extend(filled.map(|name| (why, name)));
    }

    /// How many units were accepted, refused and passed over. 4; 2; 5 for the longest RBSP that is read.
    pub fn take_stream(&mut self, stream: &[u8], work: &mut [u8]) -> Result<[u64; 3], u32> {
        document::escape(stream.len())?;
        let units = split(stream)?;
        document::room(work_due(&units), work.len())?;
        let mut counts = [0; 3];
        for unit in units {
            match self.take_unit(unit, work) {
                Ok(Taken::Accepted) => counts[0] += 1,
                Err(_) => counts[1] += 1,
                Ok(Taken::PassedOver) => counts[2] += 1,
            }
        }
        Ok(counts)
    }

    /// 2; 6.
    pub fn lookup(&self, kind: u8, id: u8) -> Result<Held, u32> {
        let Entry { set, header } = self.held(kind, id)?;
        Ok(Held {
            set: sets::numbers(set),
            header: *header,
        })
    }

    /// The record and the header that a lookup shows.
    pub fn held(&self, kind: u8, id: u8) -> Result<&Entry, u32> {
        let place = place(kind, id).ok_or(2u32)?;
        self.places[place].as_ref().ok_or(6)
    }

    /// The list at a cut. 3; 2.
    pub fn list(&self) -> Result<Vec<u8>, u32> {
        let unit = |Entry { set, header }: &Entry| written::unit(set, *header);
        let units: Vec<Result<Vec<u8>, u32>> = self.places.iter().flatten().map(unit).collect();
        for refusal in [3, 2] {
            if units.contains(&Err(refusal)) {
                return Err(refusal);
            }
        }
        let entry = |unit| [vec![0, 0, 0, 1], unit].concat();
        Ok(units.into_iter().flatten().flat_map(entry).collect())
    }

    /// The length of the list, and the output after it. 5 comes last.
    pub fn write_list(&self, out: &[u8]) -> (Result<usize, u32>, Vec<u8>) {
        match self.list().and_then(|list| super::put(list, out)) {
            Ok((after, len)) => (Ok(len), after),
            Err(e) => (Err(e), out.to_vec()),
        }
    }
}

/// Marks 0 to 7, each never set or with the places as they were when it was last set.
#[derive(Clone)]
pub struct Marks([Option<Places>; 8]);

impl Marks {
    pub fn new() -> Self {
        Marks([const { None }; 8])
    }

    /// 2.
    pub fn set(&mut self, mark: u8, table: &Table) -> Result<(), u32> {
        let kept = self.0.get_mut(usize::from(mark)).ok_or(2u32)?;
        *kept = Some(table.places.clone());
        Ok(())
    }

    /// 2; 14.
    pub fn go_back(&self, mark: u8, table: &mut Table) -> Result<(), u32> {
        let kept = self.0.get(usize::from(mark)).ok_or(2u32)?;
        table.places = kept.clone().ok_or(14u32)?;
        Ok(())
    }

    pub fn is_set(&self, mark: u8) -> bool {
        self.0.get(usize::from(mark)).is_some_and(Option::is_some)
    }
}

/// Of the refusals after a header 1 and 2 are of a damaged RBSP, and 4 of one that is too long; 3 and 5 empty nothing.
fn emptying(refusal: u32) -> Option<Why> {
    match refusal {
        1 | 2 => Some(Why::Damaged),
        4 => Some(Why::LongRbsp),
        _ => None,
    }
}

fn place(kind: u8, id: u8) -> Option<usize> {
    let before: u8 = IDS.get(..kind.into())?.iter().sum();
    (id < *IDS.get(usize::from(kind))?).then_some((before + id).into())
}
