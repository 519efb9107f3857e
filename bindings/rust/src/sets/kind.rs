//! The three kinds of sets.

/// The kind of a set (`aps_params_type`, H.266 Table 6).
#[derive(Debug, Clone, Copy, Default, PartialEq, Eq, Hash)]
#[repr(u8)]
pub enum Kind {
    /// Adaptive loop filters.
    #[default]
    Alf = 0,
    /// Luma mapping with chroma scaling.
    Lmcs = 1,
    /// Scaling lists.
    Scaling = 2,
}

impl Kind {
    /// Every kind, by number.
    pub const ALL: [Kind; 3] = [Kind::Alf, Kind::Lmcs, Kind::Scaling];

    /// Its number, 0 to 2.
    pub const fn number(self) -> u8 {
        self as u8
    }

    /// Its largest id: 7, 3, 7.
    pub const fn max_id(self) -> u8 {
        match self {
            Kind::Alf | Kind::Scaling => 7,
            Kind::Lmcs => 3,
        }
    }

    /// The kind of a number.
    pub const fn from_number(number: u8) -> Option<Kind> {
        match number {
            0 => Some(Kind::Alf),
            1 => Some(Kind::Lmcs),
            2 => Some(Kind::Scaling),
            _ => None,
        }
    }
}
