//! Why a call refuses.

use std::fmt;

/// A refusal; it leaves outputs, tables and marks as they were, but for a unit whose RBSP is damaged or too long (`Table::take_unit`).
#[derive(Debug, Clone, Copy, PartialEq, Eq, Hash)]
#[repr(u32)]
pub enum Refusal {
    /// A unit under 2 bytes, or an RBSP that ends before its set does: cut off.
    UnexpectedEnd = 1,
    /// A wrong unit header, kind, id, range, stop bit, padding, stream split or value, an id that names no place, or a mark above 7.
    InvalidData = 2,
    /// A kind that has no syntax yet, or extension flag 1 to write.
    Unsupported = 3,
    /// An input over 65,536 bytes, or a set's RBSP over 2,048, read or written.
    InputTooLong = 4,
    /// An output or a work buffer that is too short.
    OutputTooShort = 5,
    /// The lookup of an empty place.
    EmptyPlace = 6,
    /// A bit depth outside 8 to 12.
    DepthOutOfRange = 7,
    /// A component that was not sent.
    NotSent = 8,
    /// Scaling lists with a factor or a DC of 0.
    ZeroFactor = 9,
    /// A codeword of a luma curve, with or without the chroma delta, that is too small or too large.
    CodewordOutOfRange = 10,
    /// Codewords of a luma curve whose sum reaches 2 to the power of the bit depth.
    CodewordsTooLarge = 11,
    /// A sample of 2 to the power of the bit depth or more, or a lower end above the upper.
    SampleOutOfRange = 12,
    /// H.265 lists with an element of 0.
    ZeroElement = 13,
    /// Going back to a mark that was never set.
    MarkNotSet = 14,
}

impl Refusal {
    /// Its number, 1 to 14.
    pub const fn number(self) -> u32 {
        self as u32
    }

    /// The refusal of a number.
    pub const fn from_number(number: u32) -> Option<Refusal> {
        match number {
            1 => Some(Refusal::UnexpectedEnd),
            2 => Some(Refusal::InvalidData),
            3 => Some(Refusal::Unsupported),
            4 => Some(Refusal::InputTooLong),
            5 => Some(Refusal::OutputTooShort),
            6 => Some(Refusal::EmptyPlace),
            7 => Some(Refusal::DepthOutOfRange),
            8 => Some(Refusal::NotSent),
            9 => Some(Refusal::ZeroFactor),
            10 => Some(Refusal::CodewordOutOfRange),
            11 => Some(Refusal::CodewordsTooLarge),
            12 => Some(Refusal::SampleOutOfRange),
            13 => Some(Refusal::ZeroElement),
            14 => Some(Refusal::MarkNotSet),
            _ => None,
        }
    }
}

impl fmt::Display for Refusal {
    fn fmt(&self, f: &mut fmt::Formatter<'_>) -> fmt::Result {
        f.write_str(match self {
            Refusal::UnexpectedEnd => "the bytes end inside the header or before the set does",
            Refusal::InvalidData => {
                "a unit header, kind, id, value, stop bit, padding, stream split, place or mark is wrong"
            }
            Refusal::Unsupported => "the kind has no syntax yet, or the set to write has extension flag 1",
            Refusal::InputTooLong => "the input is over 65,536 bytes, or the set's RBSP over 2,048",
            Refusal::OutputTooShort => "the output or the work buffer is too short",
            Refusal::EmptyPlace => "no set is held for this kind and id",
            Refusal::DepthOutOfRange => "the bit depth is outside 8 to 12",
            Refusal::NotSent => "the set does not send this component",
            Refusal::ZeroFactor => "a scaling factor or DC of the set is 0",
            Refusal::CodewordOutOfRange => "a codeword of the curve is too small or too large",
            Refusal::CodewordsTooLarge => "the codewords of the curve are too large together",
            Refusal::SampleOutOfRange => "a sample is too large, or a range's lower end above its upper",
            Refusal::ZeroElement => "an element of the H.265 lists is 0",
            Refusal::MarkNotSet => "the mark to go back to was never set",
        })
    }
}

impl std::error::Error for Refusal {}

/// A call's answer: 0, or the number of its refusal.
pub(crate) fn answer(code: u32) -> Result<(), Refusal> {
    match (code, Refusal::from_number(code)) {
        (0, _) => Ok(()),
        (_, Some(refusal)) => Err(refusal),
        _ => panic!("libkendwyra.a answered {code}, which is no refusal's number"),
    }
}

/// The same for a call that also gives a length or a bit.
pub(crate) fn sized(code: u32, size: u64) -> Result<usize, Refusal> {
    answer(code).map(|()| size as usize)
}
