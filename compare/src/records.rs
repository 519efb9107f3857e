//! Records of the Rust that have no counterpart here, and the nearest numbers: what each side answers (docs/DIFFERENCES.md).

use crate::expected::{number, sets::numbers};
use crate::h266::aps::{write_aps, VvcAlfCcFilters, VvcAlfChroma, VvcAlfData, VvcAlfLuma, VvcAps, VvcApsPayload};
use crate::library::sets::write;
use crate::tally::Tally;

const PARTS: [&str; 4] = ["luma", "chroma", "Cb", "Cr"];

/// A record whose other numbers are 0: the count less 1, rows of coefficients, the clip flag, rows of clips.
type Rows = (u32, usize, bool, usize);

/// A signal flag and what stands under it.
struct Kind {
    name: &'static str,
    flag: bool,
    record: Option<Rows>,
    /// What is answered for each part that the kind applies to: the bytes written, or the refusal's number.
    ours: &'static [&'static str],
}

const fn kind(name: &'static str, flag: bool, record: Option<Rows>, ours: &'static [&'static str]) -> Kind {
    Kind {
        name,
        flag,
        record,
        ours,
    }
}

const ONE_ROW: [&str; 4] = ["00 5F FF 40", "00 A3 FA", "00 94 00 00 08", "00 8C 00 00 08"];
const TWO_ROWS: [&str; 4] = [
    "00 48 00 00 01 FF FF FE 80",
    "00 A1 7F FA",
    "00 92 00 00 00 00 00 10",
    "00 8A 00 00 00 00 00 10",
];
const CLIPS: [&str; 2] = ["00 7F FF 00 00 00 40", "00 A7 F8 00 20"];
const NOTHING: [&str; 4] = ["00 10", "00 82", "00 82", "00 82"];
const REFUSED: [&str; 4] = ["refused 2"; 4];

/// Records that both sides hold and write alike, to which the others are nearest.
const WHOLE: [Kind; 4] = [
    kind("1 row of 1", true, Some((0, 1, false, 0)), &ONE_ROW),
    kind("2 rows of 2", true, Some((1, 2, false, 0)), &TWO_ROWS),
    kind("clip flag with its clip row", true, Some((0, 1, true, 1)), &CLIPS),
    kind("flag 0 without a record", false, None, &NOTHING),
];

/// Records that the Rust refuses with 2.
const NO_COUNTERPART: [Kind; 8] = [
    kind("signal flag without its record", true, None, &ONE_ROW),
    kind("no row of 1", true, Some((0, 0, false, 0)), &ONE_ROW),
    kind("1 row of 2", true, Some((1, 1, false, 0)), &TWO_ROWS),
    kind("clip flag without clip rows", true, Some((0, 1, true, 0)), &CLIPS),
    kind("2 rows of 1", true, Some((0, 2, false, 0)), &ONE_ROW),
    kind(
        "clip row, clip flag 0",
        true,
        Some((0, 1, false, 1)),
        ONE_ROW.split_at(2).0,
    ),
    kind("zeros under flag 0", false, Some((0, 1, false, 0)), &NOTHING),
    kind("count-1 of 1 under flag 0", false, Some((1, 2, false, 0)), &REFUSED),
];

/// Prints a line for each record, and compares both answers with those written out above.
pub fn compare() -> Tally {
    let mut t = Tally::new("records with no counterpart, both answers");
    println!("{:<42}{:<29}ours", "records", "Rust");
    for kind in &WHOLE {
        each_part(&mut t, kind, kind.ours);
    }
    for kind in &NO_COUNTERPART {
        each_part(&mut t, kind, &REFUSED);
    }
    println!();
    t
}

fn each_part(t: &mut Tally, kind: &Kind, rust: &[&str]) {
    for (part, ours) in kind.ours.iter().enumerate() {
        let set = set(part, kind);
        let answers = [write_aps(&set).map_err(number), written(&set)].map(shown);
        let name = format!("{}, {}", PARTS[part], kind.name);
        println!("{name:<42}{:<29}{}", answers[0], answers[1]);
        let wanted = [rust[part], ours].map(String::from);
        t.same(|| format!("{name}: the Rust's answer and ours"), answers, wanted);
    }
}

/// The record's numbers, 0 where it has none, written by the library.
fn written(set: &VvcAps) -> Result<Vec<u8>, u32> {
    let mut out = vec![0; 3_000];
    let len = write(&numbers(set).0, &mut out)?;
    out.truncate(len);
    Ok(out)
}

fn shown(answer: Result<Vec<u8>, u32>) -> String {
    match answer {
        Ok(bytes) => bytes.iter().map(|b| format!("{b:02X}")).collect::<Vec<_>>().join(" "),
        Err(n) => format!("refused {n}"),
    }
}

/// ALF set 0, with the chroma flag for all parts but luma.
fn set(part: usize, kind: &Kind) -> VvcAps {
    VvcAps {
        aps_params_type: 0,
        aps_adaptation_parameter_set_id: 0,
        aps_chroma_present_flag: part > 0,
        payload: VvcApsPayload::Alf(Box::new(alf(part, kind.flag, kind.record))),
        aps_extension_flag: false,
    }
}

fn alf(part: usize, flag: bool, record: Option<Rows>) -> VvcAlfData {
    let mut d = VvcAlfData::default();
    match part {
        0 => (d.alf_luma_filter_signal_flag, d.luma) = (flag, record.map(luma)),
        1 => (d.alf_chroma_filter_signal_flag, d.chroma) = (flag, record.map(chroma)),
        2 => (d.alf_cc_cb_filter_signal_flag, d.cc_cb) = (flag, record.map(cross)),
        _ => (d.alf_cc_cr_filter_signal_flag, d.cc_cr) = (flag, record.map(cross)),
    }
    d
}

fn luma((minus1, rows, clip, clips): Rows) -> VvcAlfLuma {
    VvcAlfLuma {
        alf_luma_clip_flag: clip,
        alf_luma_num_filters_signalled_minus1: minus1,
        alf_luma_coeff_delta_idx: [0; 25],
        coeff_abs: vec![[0; 12]; rows],
        coeff_sign: vec![[false; 12]; rows],
        clip_idx: vec![[0; 12]; clips],
    }
}

fn chroma((minus1, rows, clip, clips): Rows) -> VvcAlfChroma {
    VvcAlfChroma {
        alf_chroma_clip_flag: clip,
        alf_chroma_num_alt_filters_minus1: minus1,
        coeff_abs: vec![[0; 6]; rows],
        coeff_sign: vec![[false; 6]; rows],
        clip_idx: vec![[0; 6]; clips],
    }
}

/// Cb and Cr have no clips.
fn cross((minus1, rows, _, _): Rows) -> VvcAlfCcFilters {
    VvcAlfCcFilters {
        filters_signalled_minus1: minus1,
        mapped_coeff_abs: vec![[0; 7]; rows],
        coeff_sign: vec![[false; 7]; rows],
    }
}
