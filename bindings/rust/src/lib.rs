//! H.266 adaptation parameter sets (APS): read from a stream, held in a table, and written before a clip's first picture.
//!
//! Each call is one of Kendwyra's proved static library, libkendwyra.a; this crate only declares them. Sets are structs of C's layout, which
//! the library reads and writes where they are.
//!
//! ```
//! use kendwyra::{Kind, Marks, Refusal, Table, LONGEST_RBSP};
//!
//! // An LMCS set in a unit of type 17, then an ALF set in one of type 18.
//! let stream = [0, 0, 0, 1, 0x00, 0x89, 0x20, 0x42, 0x12, 0, 0, 0, 1, 0x00, 0x91, 0x00, 0x10];
//! let mut work = [0; LONGEST_RBSP];
//! let mut table = Table::new();
//! let counts = table.take_stream(&stream, &mut work)?;
//! assert_eq!(counts.accepted, 2);
//!
//! let held = table.lmcs(0)?;
//! assert_eq!(held.set.lmcs_delta_max_bin_idx, 15);
//! assert_eq!(held.header.nal_unit_type, 17);
//! assert_eq!(table.lookup(Kind::Scaling, 0), Err(Refusal::EmptyPlace));
//!
//! // The list at a cut, ALF before LMCS and each with its unit's header, and a second table that reads it.
//! let list = table.list()?;
//! assert_eq!(list, [0, 0, 0, 1, 0x00, 0x91, 0x00, 0x10, 0, 0, 0, 1, 0x00, 0x89, 0x20, 0x42, 0x12]);
//! let mut second = Table::new();
//! second.take_stream(&list, &mut work)?;
//! assert_eq!(second.lmcs(0)?, held);
//!
//! // A mark to come back to.
//! let mut marks = Marks::new();
//! table.set_mark(&mut marks, 0)?;
//! table.take_unit(&[0x00, 0x89, 0x03, 0x10], &mut work)?;
//! table.go_back(&marks, 0)?;
//! assert_eq!(table.list()?, list);
//! # Ok::<(), Refusal>(())
//! ```

#![deny(missing_docs)]

pub mod curve;
pub mod error;
pub mod escapes;
pub mod factors;
pub mod filters;
pub mod hevc;
pub mod marks;
pub mod raw;
pub mod sets;
pub mod table;

pub use curve::{Ends, LumaCurve};
pub use error::Refusal;
pub use filters::{CcFilters, ChromaFilters, LumaFilters, LumaWeights};
pub use marks::Marks;
pub use sets::{Alf, Aps, Head, Kind, Lmcs, Scaling, UnitHeader};
pub use table::{Counts, Held, Table, Taken};

/// Bytes of a table.
pub const TABLE_BYTES: usize = 23_228;

/// How many marks a table has: 0 to 7.
pub const MARKS: u8 = 8;

/// Bytes of its marks.
pub const MARKS_BYTES: usize = 185_832;

/// No list at a cut is longer, in bytes.
pub const LIST_BYTES: usize = 34_900;

/// The longest stream or unit that is taken, and the longest input of `escapes`, in bytes.
pub const LONGEST_INPUT: usize = 65_536;

/// The longest RBSP of a set that is read or written, in bytes; a work buffer of so many always suffices.
pub const LONGEST_RBSP: usize = 2_048;

/// The README's example, compiled with the tests.
#[cfg(doctest)]
#[doc = include_str!("../README.md")]
pub struct Readme;
