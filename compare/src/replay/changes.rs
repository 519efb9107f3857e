//! Sets with one field changed, by its index in the order of library/structs.rs, written into an output of some length: what the Rust writes,
//! or 2 where the field can't hold the value or there is none.

use crate::expected;
use crate::expected::document::LONGEST_RBSP;
use crate::h266::aps::{self, VvcApsPayload};
use crate::library::structs::{types, Type};
use crate::random::Random;
use crate::sets::extended;
use crate::sets::long::scaling;
use crate::sets::make::{Maker, Style, STYLES};

pub struct Change {
    name: String,
    rbsp: Vec<u8>,
    index: usize,
    value: i64,
    room: usize,
}

fn hex(bytes: &[u8]) -> String {
    bytes.iter().map(|b| format!("{b:02X}")).collect()
}

impl Change {
    /// The index, the sign, the magnitude and the room, in 2, 1, 4 and 2 bytes.
    pub fn line(&self) -> String {
        let sign = u8::from(self.value < 0);
        let change = format!(
            "{:04X}{sign:02X}{:08X}{:04X}",
            self.index,
            self.value.unsigned_abs(),
            self.room
        );
        format!("{}: {} {change}", self.name, hex(&self.rbsp))
    }

    /// The set's numbers with the one changed.
    fn numbers(&self) -> Result<Vec<i64>, u32> {
        let (numbers, _) = expected::sets::parse_rbsp(&self.rbsp).expect("a set to change");
        let mut set = numbers.0;
        let kind = set[0];
        let types = types(kind as usize).into_iter().map(Type::range);
        let ranges: Vec<(i64, i64)> = [(kind, kind)].into_iter().chain(types).collect();
        let (low, high) = *ranges.get(self.index).ok_or(2u32)?;
        if self.value < low || self.value > high {
            return Err(2);
        }
        set[self.index] = self.value;
        Ok(set)
    }

    pub fn answer(&self) -> String {
        let set = self.numbers();
        let before = vec![0; self.room];
        let shown = |(answer, after): (Result<usize, u32>, Vec<u8>)| match answer {
            Ok(n) => format!("{n} bytes {}", hex(&after[..n])),
            Err(e) => format!("refused {e}"),
        };
        let [rbsp, unit] = match set {
            Ok(set) => [
                expected::written::write(&set, &before),
                expected::written::write_nal(&set, [17, 0, 1], &before),
            ],
            Err(e) => [(Err(e), Vec::new()), (Err(e), Vec::new())],
        }
        .map(shown);
        format!("{}: {rbsp}, unit {unit}", self.name)
    }
}

const NOTHING: [u8; 2] = [0x00, 0x10];
const ONE_BIN: [u8; 3] = [0x20, 0x42, 0x12];
const COPIES: [u8; 4] = [0x40, 0x7F, 0xFF, 0xE8];

fn made(kind: u8, style: Style, seed: u64) -> Vec<u8> {
    let mut random = Random::new(seed);
    let set = Maker {
        random: &mut random,
        style,
    }
    .set(kind);
    aps::write_aps(&set).expect("a set in range is written")
}

/// A long set of scaling lists with all copied but these.
fn lists(sent: &[usize], seed: u64) -> Vec<u8> {
    let mut random = Random::new(seed);
    let mut set = Maker {
        random: &mut random,
        style: Style::Long,
    }
    .set(2);
    let VvcApsPayload::ScalingList(d) = &mut set.payload else {
        panic!("scaling lists")
    };
    for id in (0..28).filter(|id| !sent.contains(id)) {
        d.copy_mode_flag[id] = true;
        d.pred_mode_flag[id] = false;
        d.scaling_list[id] = [0; 64];
        if id > 13 {
            d.dc_coef[id - 14] = 0;
        }
    }
    aps::write_aps(&set).expect("a set in range is written")
}

fn one(name: String, rbsp: &[u8], index: usize, value: i64, room: usize) -> Change {
    Change {
        name: format!("written, {name}"),
        rbsp: rbsp.to_vec(),
        index,
        value,
        room,
    }
}

/// One set with each of these fields changed.
fn each(before: &str, rbsp: &[u8], room: usize, changes: &[(&str, usize, i64)]) -> Vec<Change> {
    let changed = |&(what, index, value): &(&str, usize, i64)| one(format!("{before}{what}"), rbsp, index, value, room);
    changes.iter().map(changed).collect()
}

/// Outputs of every length, extension flag 1, and ids.
fn heads() -> Vec<Change> {
    let mut out = Vec::new();
    for room in [0, 1, 2, 3, 4, 5] {
        out.push(one(format!("ALF, nothing sent, {room} bytes"), &NOTHING, 0, 0, room));
    }
    out.push(one("ALF, extension flag 1".into(), &extended(&NOTHING), 3, 1, 100));
    out.push(one(
        "ALF, extension flag 1, no room".into(),
        &extended(&NOTHING),
        3,
        1,
        0,
    ));
    out.push(one(
        "ALF, extension flag 1 and id 8".into(),
        &extended(&NOTHING),
        1,
        8,
        100,
    ));
    for id in [7, 8, 31, 255] {
        out.push(one(format!("ALF id {id}"), &NOTHING, 1, id, 100));
        out.push(one(format!("scaling id {id}"), &COPIES, 1, id, 100));
    }
    for id in [3, 4, 255] {
        out.push(one(format!("LMCS id {id}"), &ONE_BIN, 1, id, 100));
    }
    out.push(one("id 8 and no room".into(), &NOTHING, 1, 8, 0));
    out
}

/// Something where nothing is sent.
fn nothing_sent() -> Vec<Change> {
    let changes = [
        ("a luma clip flag", 8, 1),
        ("a luma count", 9, 1),
        ("a luma index", 34, 1),
        ("a luma magnitude", 334, 1),
        ("a luma sign", 634, 1),
        ("a luma clip", 934, 1),
        ("a chroma flag without chroma", 5, 1),
        ("a chroma count", 936, 1),
        ("a chroma magnitude", 984, 1),
        ("a chroma clip", 1080, 1),
        ("a Cb magnitude", 1109, 1),
        ("a Cr sign", 1194, 1),
        ("a luma flag alone", 4, 1),
    ];
    each("ALF, nothing sent, with ", &NOTHING, 100, &changes)
}

/// Filters at and past their limits.
fn filters() -> Vec<Change> {
    let changes = [
        ("as it is", 0, 0),
        ("luma magnitude 128", 35, 128),
        ("luma magnitude 129", 35, 129),
        ("luma count 25", 9, 25),
        ("luma count 4,294,967,295", 9, 4_294_967_295),
        ("a luma index of 255", 10, 255),
        ("a surplus luma row", 334, 1),
        ("a surplus sign", 634, 1),
        ("a surplus clip", 934, 3),
        ("a clip of 4", 635, 4),
        ("a chroma count of 8", 936, 8),
    ];
    each("ALF ", &made(0, Style::Typical, 30), 3_000, &changes)
}

/// One bin, and what is inferred beside it.
fn bins() -> Vec<Change> {
    let changes = [
        ("a sign at 0", 23, 1),
        ("a codeword of 1", 7, 1),
        ("a codeword of 2", 7, 2),
        ("a bin outside", 8, 1),
        ("a sign outside", 38, 1),
        ("min 1", 4, 1),
        ("min 16", 4, 16),
        ("delta max 14", 5, 14),
        ("delta max 16", 5, 16),
        ("precision-1 14", 6, 14),
        ("precision-1 15", 6, 15),
        ("chroma delta without chroma", 39, 1),
        ("chroma sign without chroma", 40, 1),
        ("chroma flag", 2, 1),
    ];
    each("LMCS, ", &ONE_BIN, 100, &changes)
}

/// Copies, and what is not looked at.
fn copies() -> Vec<Change> {
    let changes = [
        ("an uncoded id not copied", 4, 0),
        ("an uncoded id predicted", 32, 1),
        ("an uncoded delta", 60, 7),
        ("a copied id predicted", 34, 1),
        ("a delta for id 2", 62, 1),
        ("a delta for id 8", 68, 1),
        ("a delta of 3 for id 5", 65, 3),
        ("a delta of 4 for id 5", 65, 4),
        ("a copied DC", 101, 5),
        ("a copied list", 102 + 64 * 2, 5),
        ("id 2 not copied", 6, 0),
        ("id 27 not copied", 31, 0),
        ("chroma flag", 2, 1),
    ];
    each("scaling, ", &COPIES, 100, &changes)
}

/// Entries at and past their limits.
fn entries() -> Vec<Change> {
    let list = |id: usize, i: usize| 102 + 64 * id + i;
    let changes = [
        ("as it is", 0, 2),
        ("DC 127", 101, 127),
        ("DC 128", 101, 128),
        ("DC -128", 101, -128),
        ("DC -129", 101, -129),
        ("the smallest entry", list(2, 3), -2_147_483_648),
        ("the largest entry", list(2, 3), 2_147_483_647),
        ("an entry past the matrix of id 0", list(0, 4), 9),
        ("an entry past the matrix of id 7", list(7, 16), 9),
        ("the last unread entry of id 27", list(27, 63), 9_999),
        ("the first unread entry of id 26", list(26, 39), 9_999),
    ];
    each("scaling ", &lists(&[0, 2, 7, 26, 27], 227), 3_000, &changes)
}

/// Values that the field can't hold, flags of 2 and more among them, other kinds, and indexes past the last field.
fn not_held() -> Vec<Change> {
    let alf = [
        ("kind 1", 0, 1),
        ("id -1", 1, -1),
        ("id 256", 1, 256),
        ("a chroma flag of 2", 2, 2),
        ("an extension flag of 255", 3, 255),
        ("a luma flag of -1", 4, -1),
        ("a luma count of -1", 9, -1),
        ("a luma index of 256", 10, 256),
        ("the last luma sign of 2", 634, 2),
        ("the last Cr sign of 255", 1194, 255),
        ("index 1195", 1195, 0),
        ("index 65,535", 65_535, 0),
    ];
    let lmcs = [
        ("kind 0", 0, 0),
        ("id 256", 1, 256),
        ("min -1", 4, -1),
        ("a sign of 2", 23, 2),
        ("a chroma delta of 256", 39, 256),
        ("a chroma sign of 255", 40, 255),
        ("index 41", 41, 0),
    ];
    let scaling = [
        ("kind 3", 0, 3),
        ("a copy flag of 2", 4, 2),
        ("the last prediction flag of 255", 59, 255),
        ("a delta of -1", 60, -1),
        ("a DC of 2,147,483,648", 88, 2_147_483_648),
        ("a last entry of -2,147,483,649", 1893, -2_147_483_649),
        ("index 1894", 1894, 0),
    ];
    let sets = [
        ("ALF, ", &NOTHING[..], &alf[..]),
        ("LMCS, ", &ONE_BIN, &lmcs),
        ("scaling, ", &COPIES, &scaling),
    ];
    sets.into_iter()
        .flat_map(|(before, rbsp, changes)| each(before, rbsp, 100, changes))
        .collect()
}

/// Scaling lists of the longest RBSP as they are, and with a step that takes more bits: 4, with room for it and with none.
fn longest() -> Vec<Change> {
    let set = scaling(&mut Random::new(43), LONGEST_RBSP);
    let rbsp = aps::write_aps(&set).expect("a set in range is written");
    let numbers = expected::sets::numbers(&set).0;
    let last = |id: usize| 102 + 64 * id + 63;
    let step = |id: usize| (last(id), numbers[last(id) - 1] - 128);
    let is_longer = |&(index, value): &(usize, i64)| {
        let mut longer = numbers.clone();
        longer[index] = value;
        expected::written::write(&longer, &[0; 3_000]).0 == Err(4)
    };
    let (index, value) = (8..26).map(step).find(is_longer).expect("a step that had few bits");
    vec![
        one("scaling of 2,048 bytes".into(), &rbsp, 0, 2, 2_048),
        one(
            "scaling of 2,048 bytes, a longer step".into(),
            &rbsp,
            index,
            value,
            3_000,
        ),
        one("the same and no room".into(), &rbsp, index, value, 0),
    ]
}

/// Sets of every kind and style into outputs around the bytes due; full scaling lists stand above.
fn rooms() -> Vec<Change> {
    let mut out = Vec::new();
    for (kind, name) in [(0, "ALF"), (1, "LMCS"), (2, "scaling")] {
        for (style, how) in STYLES.into_iter().zip(["sparse", "typical", "extreme", "full"]) {
            let rbsp = made(kind, style, 40 + u64::from(kind));
            let n = rbsp.len();
            let rooms = match (kind, style) {
                (2, Style::Full) => Vec::new(),
                (_, Style::Full) => vec![n - 1, n + 40],
                _ => vec![n, n - 1, n + 2, n + 40],
            };
            for room in rooms {
                out.push(one(format!("{how} {name}, {room} bytes"), &rbsp, 0, kind.into(), room));
            }
        }
    }
    out
}

pub fn sample() -> Vec<Change> {
    [
        heads(),
        nothing_sent(),
        filters(),
        bins(),
        copies(),
        entries(),
        not_held(),
        longest(),
        rooms(),
    ]
    .into_iter()
    .flatten()
    .collect()
}
