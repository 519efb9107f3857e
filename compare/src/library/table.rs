//! The table's calls, by the crate's declarations.

use std::hint::black_box;

use super::sets::{front, sized, Held, Lent};
use super::{ARRAY_CHANGED, MARK};
use kendwyra::raw::{self, PASSED_OVER};
use kendwyra::TABLE_BYTES;

/// What a unit alone comes to that is not refused.
#[derive(Debug, PartialEq)]
pub enum Taken {
    Accepted,
    PassedOver,
}

/// A call that changed the table where it may not, or wrote past it: a number that is expected nowhere.
const TABLE_CHANGED: u32 = 2000;

/// A head or a header that is not that of the set: a number that is expected nowhere.
const HEAD_DIFFERS: u32 = 3000;

/// The table's bytes, and after them some that no call may change.
#[derive(Clone, PartialEq)]
pub struct Table(Vec<u8>);

const AFTER: [u8; 8] = MARK.to_be_bytes();

impl Table {
    /// A new table in memory that held other bytes.
    pub fn new(before: &[u8]) -> Self {
        let mut table = Table([&before[..TABLE_BYTES], &AFTER].concat());
        unsafe { raw::aps_table_new(front(&mut table.0)) };
        table
    }

    /// The table's bytes, for a call that may not change them; nor may the compiler take that for granted.
    pub fn bytes(&self) -> &[u8; TABLE_BYTES] {
        let chunk = black_box(&self.0).first_chunk();
        chunk.expect("a table and the bytes after it")
    }

    /// The memory, for another table.
    pub fn memory(self) -> Vec<u8> {
        self.0
    }

    /// The table's bytes and those after it, for a call that may change the table.
    pub fn memory_mut(&mut self) -> &mut [u8] {
        &mut self.0
    }

    /// The code of a call, which may change the table or must leave it as it was.
    pub fn code(&self, code: u32, before: &Table, may_change: bool) -> u32 {
        let kept = if may_change {
            self.0[TABLE_BYTES..] == AFTER
        } else {
            self == before
        };
        if kept {
            code
        } else {
            TABLE_CHANGED + code
        }
    }

    /// The answer, and whether the table changed although the unit was refused, as it may with 1, 2 and 4.
    pub fn take_unit(&mut self, unit: &[u8], work: &mut [u8]) -> (Result<Taken, u32>, bool) {
        let before = self.clone();
        let table = front(&mut self.0);
        let code = unsafe { raw::aps_take_unit(table, unit.as_ptr(), unit.len(), work.as_mut_ptr(), work.len()) };
        match self.code(code, &before, code <= 2 || code == 4) {
            0 => (Ok(Taken::Accepted), false),
            PASSED_OVER => (Ok(Taken::PassedOver), false),
            code => (Err(code), *self != before),
        }
    }

    /// How many units were accepted, refused and passed over.
    pub fn take_stream(&mut self, bytes: &[u8], work: &mut [u8]) -> Result<[u64; 3], u32> {
        let before = self.clone();
        let mut counts = [MARK; 4];
        let (table, to, room) = (front(&mut self.0), work.as_mut_ptr(), work.len());
        let code = unsafe { raw::aps_take_stream(table, bytes.as_ptr(), bytes.len(), to, room, front(&mut counts)) };
        match (self.code(code, &before, code == 0), counts) {
            (0, [accepted, refused, passed, MARK]) => Ok([accepted, refused, passed]),
            (code, [MARK, MARK, MARK, MARK]) => Err(code),
            (code, _) => Err(ARRAY_CHANGED + code),
        }
    }

    /// The set held for a kind and an id, by the call of its kind, and its unit's header. The head that is looked up must be the set's, with
    /// the same header, or get the same refusal; a kind above 2 has only that.
    pub fn lookup(&self, lent: &mut Lent, kind: u8, id: u8) -> Result<Held, u32> {
        let head = lent.head_lookup(self.bytes(), kind, id);
        if kind > 2 {
            return head;
        }
        let set = lent.lookup(kind.into(), self.bytes(), id);
        if set.as_ref().map(Held::head) != head.as_ref().map(Held::head) {
            return Err(HEAD_DIFFERS + head.err().unwrap_or(0));
        }
        set
    }

    /// The length of the list.
    pub fn write_list(&self, out: &mut [u8]) -> Result<usize, u32> {
        let before = self.clone();
        let mut len = MARK;
        let code = unsafe { raw::aps_write_list(self.bytes(), out.as_mut_ptr(), out.len(), &mut len) };
        if *self != before {
            return Err(TABLE_CHANGED + code);
        }
        sized(code, len)
    }
}
