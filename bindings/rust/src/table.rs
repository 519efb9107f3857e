//! The table of the sets in force.

use crate::error::{answer, sized, Refusal};
use crate::marks::Marks;
use crate::sets::{Alf, Aps, Head, Kind, Lmcs, Scaling, UnitHeader};
use crate::{raw, LIST_BYTES, TABLE_BYTES};
use std::fmt;

/// The sets in force: 20 places, for ALF ids 0 to 7, LMCS ids 0 to 3 and scaling ids 0 to 7.
#[derive(Clone)]
pub struct Table(Box<[u8; TABLE_BYTES]>);

/// What a unit alone comes to that is not refused.
#[derive(Debug, Clone, Copy, PartialEq, Eq)]
pub enum Taken {
    /// Its set is now the one held for its kind and id.
    Accepted,
    /// It is no set: its type is neither 17 nor 18.
    PassedOver,
}

/// What a place holds of the unit that was accepted for it.
#[derive(Debug, Clone, Copy, PartialEq, Eq)]
pub struct Held<T> {
    /// The unit's type, layer and temporal id plus one.
    pub header: UnitHeader,
    /// Its set, or the set's head.
    pub set: T,
}

impl<T> Held<T> {
    fn map<U>(self, of: impl FnOnce(T) -> U) -> Held<U> {
        Held {
            header: self.header,
            set: of(self.set),
        }
    }
}

/// How the units of a stream were taken.
#[derive(Debug, Clone, Copy, PartialEq, Eq)]
pub struct Counts {
    /// Units whose sets are now held.
    pub accepted: usize,
    /// Units of type 17 or 18, or under 2 bytes, that are refused.
    pub refused: usize,
    /// Units of other types.
    pub passed_over: usize,
}

impl Table {
    /// A table with every place empty.
    pub fn new() -> Table {
        let mut bytes = Box::new([0; TABLE_BYTES]);
        // SAFETY: the box is a whole table that nobody else holds.
        unsafe { raw::aps_table_new(&mut bytes) };
        Table(bytes)
    }

    /// Takes the units of a stream in the byte stream form, in order; `work` has at least the length of the longest RBSP that is read: none for
    /// a stream without sets, and `LONGEST_RBSP` bytes are always enough. Units whose RBSP is damaged or too long empty places, as `take_unit`
    /// says.
    pub fn take_stream(&mut self, bytes: &[u8], work: &mut [u8]) -> Result<Counts, Refusal> {
        let mut counts = [0; 3];
        let (from, len) = (bytes.as_ptr(), bytes.len());
        let (to, room) = (work.as_mut_ptr(), work.len());
        // SAFETY: both pointers are those of slices, with their own lengths, and the slices don't overlap.
        answer(unsafe { raw::aps_take_stream(&mut self.0, from, len, to, room, &mut counts) })?;
        let [accepted, refused, passed_over] = counts.map(|n| n as usize);
        Ok(Counts {
            accepted,
            refused,
            passed_over,
        })
    }

    /// Takes a unit alone; `work` has at least its RBSP's length, for which `LONGEST_RBSP` bytes are always enough. A unit whose RBSP is refused
    /// with `UnexpectedEnd` or `InvalidData`, or as longer with `InputTooLong`, empties the place that the RBSP's first byte names: what it should
    /// have replaced is out of date. A unit over `LONGEST_INPUT` bytes and a refused header empty none. Unless its RBSP is read, `work` stays as
    /// it was.
    pub fn take_unit(&mut self, unit: &[u8], work: &mut [u8]) -> Result<Taken, Refusal> {
        let (to, room) = (work.as_mut_ptr(), work.len());
        // SAFETY: both pointers are those of slices, with their own lengths, and the slices don't overlap.
        match unsafe { raw::aps_take_unit(&mut self.0, unit.as_ptr(), unit.len(), to, room) } {
            raw::PASSED_OVER => Ok(Taken::PassedOver),
            code => answer(code).map(|()| Taken::Accepted),
        }
    }

    /// The set held for a kind and an id, and its unit's header: those of the last unit that named them, if it was accepted.
    pub fn lookup(&self, kind: Kind, id: u8) -> Result<Held<Aps>, Refusal> {
        match kind {
            Kind::Alf => self.alf(id).map(|held| held.map(Aps::Alf)),
            Kind::Lmcs => self.lmcs(id).map(|held| held.map(Aps::Lmcs)),
            Kind::Scaling => self.scaling(id).map(|held| held.map(Aps::Scaling)),
        }
    }

    /// The ALF set held for an id, and its unit's header.
    pub fn alf(&self, id: u8) -> Result<Held<Alf>, Refusal> {
        let (mut set, mut header) = (Alf::default(), UnitHeader::default());
        // SAFETY: the box is a whole table; the library is proved to write only 0 or 1 into flags, which are bools.
        answer(unsafe { raw::aps_alf_lookup(&self.0, id, &mut set, &mut header) })?;
        Ok(Held { header, set })
    }

    /// The LMCS set held for an id, and its unit's header.
    pub fn lmcs(&self, id: u8) -> Result<Held<Lmcs>, Refusal> {
        let (mut set, mut header) = (Lmcs::default(), UnitHeader::default());
        // SAFETY: as for an ALF set.
        answer(unsafe { raw::aps_lmcs_lookup(&self.0, id, &mut set, &mut header) })?;
        Ok(Held { header, set })
    }

    /// The scaling set held for an id, and its unit's header.
    pub fn scaling(&self, id: u8) -> Result<Held<Scaling>, Refusal> {
        let (mut set, mut header) = (Scaling::default(), UnitHeader::default());
        // SAFETY: as for an ALF set.
        answer(unsafe { raw::aps_scaling_lookup(&self.0, id, &mut set, &mut header) })?;
        Ok(Held { header, set })
    }

    /// The kind, the id and the flags of the set held for a kind and an id, and its unit's header.
    pub fn head(&self, kind: Kind, id: u8) -> Result<Held<Head>, Refusal> {
        let (mut set, mut header) = (Head::default(), UnitHeader::default());
        // SAFETY: as for an ALF set; the kind is proved to be 0 to 2.
        answer(unsafe { raw::aps_head_lookup(&self.0, kind.number(), id, &mut set, &mut header) })?;
        Ok(Held { header, set })
    }

    /// Writes the list at a cut at the start of `out` and gives the length: each set held as a unit of its own header, by kind, then id.
    pub fn write_list(&self, out: &mut [u8]) -> Result<usize, Refusal> {
        let mut len = 0;
        // SAFETY: the box is a whole table, and the pointer is a slice's, with its own length.
        let code = unsafe { raw::aps_write_list(&self.0, out.as_mut_ptr(), out.len(), &mut len) };
        sized(code, len)
    }

    /// The list at a cut.
    pub fn list(&self) -> Result<Vec<u8>, Refusal> {
        let mut out = vec![0; LIST_BYTES];
        let len = self.write_list(&mut out)?;
        out.truncate(len);
        Ok(out)
    }

    /// Keeps all 20 places, with their headers, in a mark from 0 to 7, instead of what it kept before.
    pub fn set_mark(&self, marks: &mut Marks, mark: u8) -> Result<(), Refusal> {
        // SAFETY: the boxes are a whole table and whole marks.
        answer(unsafe { raw::aps_set_mark(&self.0, &mut marks.0, mark) })
    }

    /// Makes all 20 places what they were when the mark was last set.
    pub fn go_back(&mut self, marks: &Marks, mark: u8) -> Result<(), Refusal> {
        // SAFETY: as for `set_mark`.
        answer(unsafe { raw::aps_go_back(&mut self.0, &marks.0, mark) })
    }
}

impl Default for Table {
    fn default() -> Table {
        Table::new()
    }
}

/// The header and the head of each set held.
impl fmt::Debug for Table {
    fn fmt(&self, f: &mut fmt::Formatter<'_>) -> fmt::Result {
        let places = Kind::ALL
            .into_iter()
            .flat_map(|kind| (0..=kind.max_id()).map(move |id| (kind, id)));
        let heads = places.filter_map(|(kind, id)| self.head(kind, id).ok());
        f.debug_list().entries(heads).finish()
    }
}
