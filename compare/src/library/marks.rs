//! The calls of marks, by the crate's declarations.

use std::hint::black_box;

use super::sets::front;
use super::table::Table;
use super::MARK;
use kendwyra::{raw, MARKS_BYTES};

/// A call that changed marks where it may not, or wrote past them: a number that is expected nowhere.
const MARKS_CHANGED: u32 = 4000;

/// The marks' bytes, and after them some that no call may change.
#[derive(Clone, PartialEq)]
pub struct Marks(Vec<u8>);

const AFTER: [u8; 8] = MARK.to_be_bytes();

impl Marks {
    /// Marks that were never set, in memory that held other bytes.
    pub fn new(before: &[u8]) -> Self {
        let mut marks = Marks([&before[..MARKS_BYTES], &AFTER].concat());
        unsafe { raw::aps_marks_new(front(&mut marks.0)) };
        assert!(marks.0[MARKS_BYTES..] == AFTER, "new marks write nothing past them");
        marks
    }

    /// The memory, for other marks.
    pub fn memory(self) -> Vec<u8> {
        self.0
    }

    /// The marks' bytes, for a call that may not change them; nor may the compiler take that for granted.
    fn bytes(&self) -> &[u8; MARKS_BYTES] {
        let chunk = black_box(&self.0).first_chunk();
        chunk.expect("marks and the bytes after them")
    }

    /// Keeps the places of a table; no byte of it may change, and if the mark is refused none of the marks.
    pub fn set(&mut self, mark: u8, table: &Table) -> Result<(), u32> {
        let (before, table_before) = (self.clone(), table.clone());
        let code = unsafe { raw::aps_set_mark(table.bytes(), front(&mut self.0), mark) };
        let kept = if code == 0 {
            self.0[MARKS_BYTES..] == AFTER
        } else {
            *self == before
        };
        let code = table.code(code, &table_before, false);
        answer(if kept { code } else { MARKS_CHANGED + code })
    }

    /// Makes the places of a table what a mark keeps; no byte of the marks may change, and if the mark is refused none of the table.
    pub fn go_back(&self, mark: u8, table: &mut Table) -> Result<(), u32> {
        let (before, table_before) = (self.clone(), table.clone());
        let code = unsafe { raw::aps_go_back(front(table.memory_mut()), self.bytes(), mark) };
        let kept = *self == before;
        let code = table.code(code, &table_before, code == 0);
        answer(if kept { code } else { MARKS_CHANGED + code })
    }
}

fn answer(code: u32) -> Result<(), u32> {
    match code {
        0 => Ok(()),
        refusal => Err(refusal),
    }
}
