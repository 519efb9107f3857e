//! Sets whose meaning is asked for: those that the Rust writes, and others near them.

use super::{sets, written};
use crate::h266::aps::VvcAps;
use crate::library::meanings::plain;
use crate::library::sets::HEAD;
use crate::library::structs::{flags, types};
use crate::random::Random;
use crate::sets::make::{Maker, Style, STYLES};

/// The Rust's record of a set's numbers, none where the Rust would not write it were its extension flag 0. A set that is too long for us, and
/// gets 4, is written by the Rust.
pub fn record_of(numbers: &[i64]) -> Option<VvcAps> {
    let plain = plain(numbers);
    if flags(plain[0] as usize).iter().any(|&(i, _)| numbers[i] > 1) {
        return None;
    }
    match written::write(&plain, &[0; 3_000]).0 {
        Ok(_) | Err(4) => Some(written::record(&plain)),
        Err(_) => None,
    }
}

/// The numbers that are not 0.
pub fn changed(set: &[i64]) -> Vec<(usize, i64)> {
    set.iter().copied().enumerate().filter(|&(_, n)| n != 0).collect()
}

/// Sets of a kind: of each style in turn, some with extension flag 1, a number changed, or a flag that is neither 0 nor 1.
pub struct Sets {
    pub random: Random,
    kind: u8,
}

impl Sets {
    pub fn new(seed: u64, kind: u8) -> Self {
        Sets {
            random: Random::new(seed),
            kind,
        }
    }

    /// A set in range.
    pub fn good(&mut self, style: Style) -> Vec<i64> {
        let random = &mut self.random;
        let mut numbers = sets::numbers(&Maker { random, style }.set(self.kind)).0;
        if self.random.below(8) == 0 {
            numbers[HEAD - 1] = 1;
        }
        numbers
    }

    pub fn next(&mut self, round: usize) -> Vec<i64> {
        let mut set = self.good(STYLES[round % STYLES.len()]);
        if self.random.below(12) == 0 {
            let i = 1 + self.random.below(set.len() - 1);
            let (low, high) = types(self.kind.into())[i - 1].range();
            let near = [set[i] + 1, set[i] - 1, 1, 2, 3, 4, 25, 128, 129];
            set[i] = near[self.random.below(near.len())].clamp(low, high);
        }
        if self.random.below(40) == 0 {
            let flags = flags(self.kind.into());
            set[flags[self.random.below(flags.len())].0] = [2, 255][self.random.below(2)];
        }
        set
    }
}
