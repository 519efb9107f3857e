//! Marks of a table to come back to.

use crate::{raw, Table, MARKS, MARKS_BYTES};
use std::fmt;

/// Marks 0 to 7, each never set or with all places of a table as they were when it was last set (`Table::set_mark`, `Table::go_back`).
#[derive(Clone)]
pub struct Marks(pub(crate) Box<[u8; MARKS_BYTES]>);

impl Marks {
    /// Marks that were never set.
    pub fn new() -> Marks {
        // Made on the heap: an array would first be one of the stack.
        let bytes = vec![0; MARKS_BYTES].into_boxed_slice();
        let mut bytes: Box<[u8; MARKS_BYTES]> = bytes.try_into().expect("so many bytes");
        // SAFETY: the box is whole marks that nobody else holds.
        unsafe { raw::aps_marks_new(&mut bytes) };
        Marks(bytes)
    }
}

impl Default for Marks {
    fn default() -> Marks {
        Marks::new()
    }
}

/// Which marks are set.
impl fmt::Debug for Marks {
    fn fmt(&self, f: &mut fmt::Formatter<'_>) -> fmt::Result {
        let mut table = Table::new();
        let set = (0..MARKS).filter(|mark| table.go_back(self, *mark).is_ok());
        f.debug_set().entries(set).finish()
    }
}
