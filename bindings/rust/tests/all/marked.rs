//! Marked bytes, short sequences whose meaning was fixed before the code, and RBSPs that end too early.

use crate::bytes::{example, example_list, hex};
use crate::made::header;
use kendwyra::escapes::{ebsp_to_rbsp, rbsp_to_ebsp};
use kendwyra::sets::{read, rewrite};
use kendwyra::{Alf, Aps, Counts, Held, Kind, Lmcs, Refusal, Scaling, Table, UnitHeader};

fn one_bin() -> Lmcs {
    Lmcs {
        lmcs_delta_max_bin_idx: 15,
        ..Lmcs::default()
    }
}

fn all_copied() -> Scaling {
    Scaling {
        scaling_list_copy_mode_flag: [true; 28],
        ..Scaling::default()
    }
}

#[test]
fn sets() {
    let chroma = Alf {
        aps_chroma_present_flag: true,
        ..Alf::default()
    };
    let extended = Alf {
        aps_extension_flag: true,
        ..Alf::default()
    };
    let rows = [
        ("00 10", Aps::Alf(Alf::default()), 16),
        ("00 82", Aps::Alf(chroma), 16),
        ("00 20", Aps::Alf(extended), 11),
        ("00 10 FF", Aps::Alf(Alf::default()), 16),
        ("20 42 12", Aps::Lmcs(one_bin()), 24),
        ("40 7F FF E8", Aps::Scaling(all_copied()), 32),
    ];
    for (rbsp, set, end) in rows {
        assert_eq!(read(&hex(rbsp)), Ok((set, end)), "{rbsp}");
    }
}

#[test]
fn refused() {
    let cut_off = ["", "08", "20", "24", "60", "08 54", "20 00 80"].map(|rbsp| (rbsp, 1));
    for (rbsp, number) in cut_off.into_iter().chain([("00 00", 2), ("24 00", 2), ("60 00", 3)]) {
        assert_eq!(read(&hex(rbsp)).map_err(Refusal::number), Err(number), "{rbsp}");
    }
    assert_eq!(rewrite(&hex("00 20"), &mut [0; 8]), Err(Refusal::Unsupported));
}

#[test]
fn escapes() {
    for (rbsp, ebsp) in [("00 00 01", "00 00 03 01"), ("00 00 00", "00 00 03 00")] {
        let mut out = [0; 4];
        assert_eq!(rbsp_to_ebsp(&hex(rbsp), &mut out), Ok(4));
        assert_eq!(out[..], hex(ebsp));
        assert_eq!(ebsp_to_rbsp(&hex(ebsp), &mut out), Ok(3));
        assert_eq!(out[..3], hex(rbsp));
    }
}

#[test]
fn stream_and_list() {
    let mut table = Table::new();
    let counts = table.take_stream(&example(), &mut [0; 3]);
    assert_eq!(
        counts,
        Ok(Counts {
            accepted: 2,
            refused: 0,
            passed_over: 0
        })
    );
    let alf = Held {
        header: header(18, 0, 1),
        set: Aps::Alf(Alf::default()),
    };
    assert_eq!(table.lookup(Kind::Alf, 0), Ok(alf));
    let lmcs = Held {
        header: UnitHeader::default(),
        set: Aps::Lmcs(one_bin()),
    };
    assert_eq!(table.lookup(Kind::Lmcs, 0), Ok(lmcs));
    assert_eq!(table.list(), Ok(example_list()));
}
