//! The calls of sets, by the crate's declarations. Structs are lent as memory that holds marks, and flags are looked at as bytes.

use std::hint::black_box;

use super::structs::Struct;
use super::{ARRAY_CHANGED, MARK};
use crate::headers::Header;
use kendwyra::sets::UnitHeader;
use kendwyra::{raw, Alf, Head, Lmcs, Scaling, TABLE_BYTES};

/// A set as its numbers, in the order of `structs`; shown as those that are not 0, after the index of the first in a row.
#[derive(PartialEq)]
pub struct Numbers(pub Vec<i64>);

impl std::fmt::Debug for Numbers {
    fn fmt(&self, f: &mut std::fmt::Formatter<'_>) -> std::fmt::Result {
        let mut before = 0;
        for (i, &n) in self.0.iter().enumerate() {
            if n != 0 && before == 0 {
                write!(f, " [{i}]")?;
            }
            if n != 0 {
                write!(f, " {n}")?;
            }
            before = n;
        }
        Ok(())
    }
}

/// Kind, id, chroma flag and extension flag.
pub const HEAD: usize = 4;

impl Numbers {
    pub fn head(&self) -> Numbers {
        Numbers(self.0[..HEAD].to_vec())
    }
}

/// What a lookup answers: a set's numbers, or those of its head alone, and its unit's header.
#[derive(Debug, PartialEq)]
pub struct Held {
    pub set: Numbers,
    pub header: Header,
}

impl Held {
    pub fn head(&self) -> Held {
        Held {
            set: self.set.head(),
            header: self.header,
        }
    }
}

/// The numbers of a set and the bit where reading ended, or the refusal's number.
pub type Answer = Result<(Numbers, usize), u32>;

/// By which kind's call an RBSP is read: what its first three bits name, and where they name none that of ALF.
pub fn kind_of(first: Option<&u8>) -> usize {
    let kind = first.map_or(0, |byte| byte >> 5);
    if kind < 3 {
        kind.into()
    } else {
        0
    }
}

/// A unit's header with bytes after it, all marks.
const HEADER: [u8; 8] = MARK.to_be_bytes();

/// What is lent, marked before each call: a struct of each kind, a head and a header with bytes after them, and the end.
pub struct Lent {
    sets: [Struct; 3],
    head: [u8; HEAD + 4],
    header: [u8; 8],
    end: u64,
}

impl Lent {
    /// The structs must be as large as the crate's, which have C's layout.
    pub fn new() -> Self {
        let sets = [0, 1, 2].map(Struct::marked);
        let sizes = [size_of::<Alf>(), size_of::<Lmcs>(), size_of::<Scaling>()];
        assert!(sets.each_ref().map(Struct::size) == sizes, "{sizes:?}");
        assert!(size_of::<UnitHeader>() == size_of::<Header>());
        Lent {
            sets,
            head: [MARK as u8; HEAD + 4],
            header: HEADER,
            end: MARK,
        }
    }

    fn is_marked(&self, kind: usize) -> bool {
        self.end == MARK && self.sets[kind].is_marked()
    }

    /// A call's answer; after a refusal no byte of the struct and the end has changed.
    fn answer(&mut self, kind: usize, code: u32) -> Answer {
        if code != 0 && self.is_marked(kind) {
            return Err(code);
        }
        let set = std::mem::replace(&mut self.sets[kind], Struct::marked(kind));
        let end = std::mem::replace(&mut self.end, MARK);
        match set.numbers() {
            Some(numbers) if code == 0 => Ok((Numbers(numbers), end as usize)),
            _ => Err(ARRAY_CHANGED + code),
        }
    }

    fn head_answer(&mut self, code: u32) -> Answer {
        let Lent { head, end, .. } = *self;
        if code != 0 && end == MARK && head == [MARK as u8; HEAD + 4] {
            return Err(code);
        }
        (self.head, self.end) = ([MARK as u8; HEAD + 4], MARK);
        let (head, after) = head.split_at(HEAD);
        if code != 0 || after != [MARK as u8; 4] {
            return Err(ARRAY_CHANGED + code);
        }
        Ok((Numbers(head.iter().map(|&byte| byte.into()).collect()), end as usize))
    }

    /// The set of an RBSP by the call of a kind.
    pub fn parse_rbsp(&mut self, kind: usize, bytes: &[u8]) -> Answer {
        let (from, len) = (bytes.as_ptr(), bytes.len());
        let (set, end) = (self.sets[kind].pointer::<u8>(), &mut self.end);
        let code = unsafe {
            match kind {
                0 => raw::aps_alf_parse_rbsp(from, len, set.cast(), end),
                1 => raw::aps_lmcs_parse_rbsp(from, len, set.cast(), end),
                _ => raw::aps_scaling_parse_rbsp(from, len, set.cast(), end),
            }
        };
        self.answer(kind, code)
    }

    /// The set of a unit by the call of a kind.
    pub fn parse(&mut self, kind: usize, unit: &[u8], work: &mut [u8]) -> Answer {
        let (from, len, to, room) = (unit.as_ptr(), unit.len(), work.as_mut_ptr(), work.len());
        let (set, end) = (self.sets[kind].pointer::<u8>(), &mut self.end);
        let code = unsafe {
            match kind {
                0 => raw::aps_alf_parse(from, len, to, room, set.cast(), end),
                1 => raw::aps_lmcs_parse(from, len, to, room, set.cast(), end),
                _ => raw::aps_scaling_parse(from, len, to, room, set.cast(), end),
            }
        };
        self.answer(kind, code)
    }

    /// A lookup's answer; after a refusal no byte of the header has changed either.
    fn held(&mut self, code: u32, set: Answer) -> Result<Held, u32> {
        let lent = std::mem::replace(&mut self.header, HEADER);
        let (header, after) = lent.split_first_chunk().expect("a header and the bytes after it");
        match set {
            Err(code) if lent == HEADER => Err(code),
            Ok((set, _)) if *after == HEADER[3..] => Ok(Held { set, header: *header }),
            _ => Err(ARRAY_CHANGED + code),
        }
    }

    fn lent_header(&mut self) -> *mut UnitHeader {
        black_box(self.header.as_mut_ptr()).cast()
    }

    /// The set of a kind that is held for an id.
    pub(super) fn lookup(&mut self, kind: usize, table: &[u8; TABLE_BYTES], id: u8) -> Result<Held, u32> {
        let (set, header) = (self.sets[kind].pointer::<u8>(), self.lent_header());
        let code = unsafe {
            match kind {
                0 => raw::aps_alf_lookup(table, id, set.cast(), header),
                1 => raw::aps_lmcs_lookup(table, id, set.cast(), header),
                _ => raw::aps_scaling_lookup(table, id, set.cast(), header),
            }
        };
        let set = self.answer(kind, code);
        self.held(code, set)
    }

    fn lent_head(&mut self) -> *mut Head {
        black_box(self.head.as_mut_ptr()).cast()
    }

    /// The head of an RBSP's set.
    pub fn head_of_rbsp(&mut self, bytes: &[u8]) -> Answer {
        let head = self.lent_head();
        let code = unsafe { raw::aps_head_parse_rbsp(bytes.as_ptr(), bytes.len(), head, &mut self.end) };
        self.head_answer(code)
    }

    /// The head of a unit's set.
    pub fn head_of_unit(&mut self, unit: &[u8], work: &mut [u8]) -> Answer {
        let (head, to, room) = (self.lent_head(), work.as_mut_ptr(), work.len());
        let code = unsafe { raw::aps_head_parse(unit.as_ptr(), unit.len(), to, room, head, &mut self.end) };
        self.head_answer(code)
    }

    /// The head of the set held for a kind and an id.
    pub(super) fn head_lookup(&mut self, table: &[u8; TABLE_BYTES], kind: u8, id: u8) -> Result<Held, u32> {
        let (head, header) = (self.lent_head(), self.lent_header());
        let code = unsafe { raw::aps_head_lookup(table, kind, id, head, header) };
        let head = self.head_answer(code);
        self.held(code, head)
    }

    /// The bit where reading an RBSP's set ended, by the record of a kind.
    pub fn kind_end(&mut self, kind: usize, bytes: &[u8]) -> Result<usize, u32> {
        let call = [raw::aps_alf_end, raw::aps_lmcs_end, raw::aps_scaling_end][kind];
        let code = unsafe { call(bytes.as_ptr(), bytes.len(), &mut self.end) };
        sized(code, std::mem::replace(&mut self.end, MARK))
    }
}

pub fn nal_header(unit: &[u8]) -> Result<[u8; 5], u32> {
    let mut header = [MARK as u8; 6];
    match unsafe { raw::aps_parse_nal_header(unit.as_ptr(), unit.len(), front(&mut header)) } {
        0 if header[5] == MARK as u8 => Ok([header[0], header[1], header[2], header[3], header[4]]),
        code if header == [MARK as u8; 6] => Err(code),
        code => Err(ARRAY_CHANGED + code),
    }
}

/// The front of a longer array, for a call that may not reach what stands behind it; nor may the compiler take that for granted.
pub(super) fn front<T, const N: usize>(array: &mut [T]) -> &mut [T; N] {
    let chunk = black_box(array).first_chunk_mut();
    chunk.expect("an array with a mark behind it")
}

/// The one number that a call answers with, or the refusal's.
pub(super) fn sized(code: u32, len: u64) -> Result<usize, u32> {
    match code {
        0 => Ok(len as usize),
        _ if len == MARK => Err(code),
        _ => Err(ARRAY_CHANGED + code),
    }
}

/// A struct filled with the numbers and lent to a call, which may not change it.
fn written(numbers: &[i64], call: impl FnOnce(*const u8, &mut u64) -> u32) -> Result<usize, u32> {
    let mut set = Struct::of(numbers);
    let before = set.clone();
    let mut len = MARK;
    let code = call(set.pointer(), &mut len);
    if set != before {
        return Err(ARRAY_CHANGED + code);
    }
    sized(code, len)
}

/// A set as an RBSP, by the call of its kind.
pub fn write(numbers: &[i64], out: &mut [u8]) -> Result<usize, u32> {
    let (to, room) = (out.as_mut_ptr(), out.len());
    written(numbers, |set, len| unsafe {
        match numbers[0] {
            0 => raw::aps_alf_write(set.cast(), to, room, len),
            1 => raw::aps_lmcs_write(set.cast(), to, room, len),
            _ => raw::aps_scaling_write(set.cast(), to, room, len),
        }
    })
}

/// A header as the library's calls take it.
pub fn unit_header([nal_unit_type, nuh_layer_id, nuh_temporal_id_plus1]: Header) -> UnitHeader {
    UnitHeader {
        nal_unit_type,
        nuh_layer_id,
        nuh_temporal_id_plus1,
    }
}

/// A set as a unit with a header.
pub fn write_nal(numbers: &[i64], header: Header, out: &mut [u8]) -> Result<usize, u32> {
    let (header, to, room) = (unit_header(header), out.as_mut_ptr(), out.len());
    written(numbers, |set, len| unsafe {
        match numbers[0] {
            0 => raw::aps_alf_write_nal(set.cast(), header, to, room, len),
            1 => raw::aps_lmcs_write_nal(set.cast(), header, to, room, len),
            _ => raw::aps_scaling_write_nal(set.cast(), header, to, room, len),
        }
    })
}

pub fn rewrite(bytes: &[u8], out: &mut [u8]) -> Result<usize, u32> {
    let mut len = MARK;
    let code = unsafe { raw::aps_rewrite(bytes.as_ptr(), bytes.len(), out.as_mut_ptr(), out.len(), &mut len) };
    sized(code, len)
}

/// The same by its own kind.
pub fn kind_rewrite(kind: usize, bytes: &[u8], out: &mut [u8]) -> Result<usize, u32> {
    let mut len = MARK;
    let call = [raw::aps_alf_rewrite, raw::aps_lmcs_rewrite, raw::aps_scaling_rewrite][kind];
    let code = unsafe { call(bytes.as_ptr(), bytes.len(), out.as_mut_ptr(), out.len(), &mut len) };
    sized(code, len)
}
