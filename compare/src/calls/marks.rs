//! Marks of the crate's table against those of the plain model.

use std::hint::black_box;

use super::table::{damage, filling, taken, Both};
use super::Row;
use crate::expected::document::LONGEST_RBSP;
use crate::expected::table::Marks as Model;
use crate::random::Random;
use crate::sets::make::Style;
use crate::speed::sets::calls;
use crate::tally::Tally;
use kendwyra::{Marks, Refusal};

const CASES: usize = 2_000;

pub fn rows() -> [Row; 2] {
    let mut t = ["mark set on 20 full sets", "return to 20 full sets"].map(Tally::new);
    let mut random = Random::new(75);
    let mut both = Both::new();
    let (mut ours, mut model) = (Marks::new(), Model::new());
    for case in 0..CASES {
        if case % 200 == 0 {
            (ours, model) = (Marks::new(), Model::new());
        }
        let mut stream = filling(&mut random, Style::Typical, None);
        damage(&mut random, &mut stream, case);
        both.take(&stream);
        set(&mut t[0], &both, (&mut ours, &mut model), number(&mut random));
        both.take(&filling(&mut random, Style::Sparse, None));
        go_back(&mut t[1], &mut both, (&ours, &model), number(&mut random));
    }
    times(t, both, &filling(&mut random, Style::Full, None))
}

impl Both {
    /// A stream with room enough; rows of streams compare it in full.
    fn take(&mut self, stream: &[u8]) {
        let [mut work, mut again] = [[0; LONGEST_RBSP]; 2];
        let counts = self.model.take_stream(stream, &mut work);
        assert!(
            taken(&mut self.ours, stream, &mut again) == counts,
            "both sides take the same units"
        );
    }

    /// The fields of every place, a case only where they differ.
    fn same_places(&self, t: &mut Tally, asked: impl FnOnce() -> String) {
        let (ours, model) = self.places();
        if ours != model {
            t.same(asked, ours, model);
        }
    }
}

/// One in eight is above 7.
fn number(random: &mut Random) -> u8 {
    match random.below(8) {
        0 => [8, 9, 255][random.below(3)],
        _ => random.below(8) as u8,
    }
}

fn set(t: &mut Tally, both: &Both, (ours, model): (&mut Marks, &mut Model), mark: u8) {
    t.same(
        || format!("mark {mark} set"),
        both.ours.set_mark(ours, mark).map_err(Refusal::number),
        model.set(mark, &both.model),
    );
    both.same_places(t, || format!("places after mark {mark} was set"));
}

fn go_back(t: &mut Tally, both: &mut Both, (ours, model): (&Marks, &Model), mark: u8) {
    t.same(
        || format!("return to mark {mark}"),
        both.ours.go_back(ours, mark).map_err(Refusal::number),
        model.go_back(mark, &mut both.model),
    );
    both.same_places(t, || format!("places after the return to mark {mark}"));
}

/// Setting a mark on a full table again and again, and going back to it from the same sets.
fn times([set, returned]: [Tally; 2], mut both: Both, stream: &[u8]) -> [Row; 2] {
    both.take(stream);
    let (mut ours, mut model) = (Marks::new(), Model::new());
    let set = Row::new(
        set,
        &mut || {
            calls(&[0; 400], |_| {
                black_box(&mut model).set(3, black_box(&both.model)).is_err().into()
            })
        },
        &mut || {
            calls(&[0; 400], |_| {
                black_box(&both.ours).set_mark(black_box(&mut ours), 3).is_err().into()
            })
        },
    );
    let Both {
        ours: table,
        model: places,
        ..
    } = &mut both;
    let returned = Row::new(
        returned,
        &mut || {
            calls(&[0; 400], |_| {
                black_box(&model).go_back(3, black_box(&mut *places)).is_err().into()
            })
        },
        &mut || {
            calls(&[0; 400], |_| {
                black_box(&mut *table).go_back(black_box(&ours), 3).is_err().into()
            })
        },
    );
    [set, returned]
}
