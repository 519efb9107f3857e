//! The crate's calls, by subject.

mod buffers;
mod bytes;
mod curve;
mod factors;
mod fields;
mod filters;
mod flags;
mod hevc;
mod layout;
mod longest;
mod made;
mod marked;
mod marks;
mod random;
mod refusals;
mod table;
mod written;
