//! Units and streams for a table: whole, damaged, foreign, short and long.

mod streams;

use crate::h266::aps;
use crate::headers;
use crate::nal;
use crate::random::Random;
use crate::sets::make::{Maker, Style};
use crate::sets::{extended, flip, long};

/// Makes what the calls of a sequence bring.
pub struct Bytes {
    random: Random,
    /// The last unit of a set.
    last: Vec<u8>,
    /// All sets are of this kind.
    kind: Option<u8>,
    /// All ids are below this.
    ids: u8,
    /// There are sets with extension flag 1; a table that holds one gives no list.
    extensions: bool,
}

/// Short RBSPs of each kind, taken and refused, two that end where a ue begins, and one of no kind.
const MARKED: [&[u8]; 16] = [
    &[],
    &[0x00, 0x10],
    &[0x00, 0x82],
    &[0x00, 0x20],
    &[0x00, 0x10, 0xFF],
    &[0x00, 0x00],
    &[0x08],
    &[0x08, 0x54],
    &[0x20],
    &[0x20, 0x00, 0x80],
    &[0x20, 0x42, 0x12],
    &[0x20, 0x04, 0x32],
    &[0x24],
    &[0x40, 0x7F, 0xFF, 0xE8],
    &[0x60],
    &[0xFF, 0xFF],
];

impl Bytes {
    pub fn new() -> Self {
        Bytes {
            random: Random::new(31),
            last: Vec::new(),
            kind: None,
            ids: 8,
            extensions: true,
        }
    }

    /// Another sequence: sets for all places, or for few of them so that they replace each other.
    pub fn choose(&mut self) {
        self.kind = (self.random.below(4) == 0).then(|| self.random.below(3) as u8);
        self.ids = [8, 8, 8, 2, 1][self.random.below(5)];
        self.extensions = self.random.below(3) == 0;
    }

    fn style(&mut self) -> Style {
        match self.random.below(32) {
            0 => [Style::Full, Style::Long][self.random.below(2)],
            1 => Style::Largest,
            2..=4 => Style::Extreme,
            5..=12 => Style::Typical,
            _ => Style::Sparse,
        }
    }

    /// A set that the Rust wrote, some with extension flag 1.
    fn set(&mut self) -> Vec<u8> {
        let kind = self.kind.unwrap_or(self.random.below(3) as u8);
        let style = self.style();
        let random = &mut self.random;
        let mut set = Maker { random, style }.set(kind);
        set.aps_adaptation_parameter_set_id %= self.ids;
        let bytes = aps::write_aps(&set).expect("a set in range is written");
        if self.extensions && self.random.below(4) == 0 {
            extended(&bytes)
        } else {
            bytes
        }
    }

    /// About as long as an RBSP that is read, or up to the largest set.
    fn long_rbsp(&mut self) -> usize {
        let lengths = long::lengths(&mut self.random);
        lengths[self.random.below(lengths.len())]
    }

    /// Scaling lists of just so many bytes.
    fn scaling(&mut self, len: usize) -> Vec<u8> {
        let mut set = long::scaling(&mut self.random, len);
        set.aps_adaptation_parameter_set_id %= self.ids;
        aps::write_aps(&set).expect("a set in range is written")
    }

    /// A set whole, or damaged, or with bytes after it, or bytes that hardly are a set; some are long.
    pub fn rbsp(&mut self) -> Vec<u8> {
        let mut set = self.set();
        let bits = set.len() * 8;
        match self.random.below(26) {
            0 | 1 => {
                let flips = 1 + self.random.below(3);
                (0..flips).for_each(|_| flip(&mut set, self.random.below(bits)));
            }
            2 => flip(&mut set, self.random.below(bits.min(24))),
            3 => set.truncate(self.random.below(set.len())),
            4 | 5 => {
                let more = 1 + self.random.below(6);
                set.extend(self.random.escapable(more));
            }
            6 => {
                set.truncate(1);
                let more = self.random.below(30);
                set.extend(self.random.bytes(more));
            }
            7 => return MARKED[self.random.below(MARKED.len())].to_vec(),
            8 => set.truncate(1),
            9 => self.rename(&mut set),
            10 => {
                self.rename(&mut set);
                set.truncate(1 + self.random.below(set.len()));
            }
            11 => {
                let len = self.long_rbsp();
                match self.random.below(4) {
                    0 => set = self.scaling(len),
                    1 => self.rename(&mut set),
                    _ => (),
                }
                let len = len.max(set.len());
                set = long::followed(&mut self.random, &set, len);
            }
            _ => (),
        }
        set
    }

    /// Another kind and id before the same bits: any, an id that is 8, 16 or 24 too large, or a kind from 3 to 7.
    fn rename(&mut self, set: &mut [u8]) {
        set[0] = match self.random.below(3) {
            0 => self.random.next() as u8,
            1 => set[0] + 8 * (1 + self.random.below(3) as u8),
            _ => 32 * (3 + self.random.below(5) as u8) + set[0] % 32,
        };
    }

    fn aps_header(&mut self) -> [u8; 2] {
        let unit_type = headers::aps_type(&mut self.random);
        headers::any(&mut self.random, unit_type)
    }

    fn foreign_header(&mut self) -> [u8; 2] {
        let unit_type = match self.random.below(30) as u8 {
            n @ 0..=16 => n,
            n => n + 2,
        };
        headers::any(&mut self.random, unit_type)
    }

    fn aps_unit(&mut self) -> Vec<u8> {
        let rbsp = self.rbsp();
        let body = match self.random.below(24) {
            0 => rbsp,
            _ => nal::rbsp_to_ebsp(&rbsp),
        };
        self.last = [&self.aps_header()[..], &body].concat();
        self.last.clone()
    }

    /// The last unit of a set with another header.
    fn again(&mut self) -> Vec<u8> {
        let body = self.last.get(2..).unwrap_or_default().to_vec();
        [&self.aps_header()[..], &body].concat()
    }

    fn foreign_unit(&mut self) -> Vec<u8> {
        let body = match self.random.below(3) {
            0 => self.rbsp(),
            1 => self.random.bytes(20),
            _ => self.random.escapable(12),
        };
        [&self.foreign_header()[..], &nal::rbsp_to_ebsp(&body)].concat()
    }

    pub fn unit(&mut self) -> Vec<u8> {
        match self.random.below(24) {
            0 => Vec::new(),
            1 => vec![[0, 1, 0x89, 0x91, 0xFF][self.random.below(5)]],
            2 => self.aps_header().to_vec(),
            3..=5 => self.foreign_unit(),
            6 => [&self.aps_header()[..], &self.random.escapable(10)].concat(),
            7 => self.again(),
            _ => self.aps_unit(),
        }
    }

    /// About as long as a call may bring.
    fn long(&mut self) -> usize {
        match self.random.below(3) {
            0 => 65_536,
            1 => 65_537,
            _ => 65_530 + self.random.below(11),
        }
    }

    /// A unit of 65,530 to 65,540 bytes.
    pub fn long_unit(&mut self) -> Vec<u8> {
        let mut unit = match self.random.below(4) {
            0 => self.foreign_unit(),
            _ => self.aps_unit(),
        };
        let more = self.long() - unit.len();
        unit.extend(match self.random.below(3) {
            0 => self.random.bytes(more),
            1 => self.random.escapable(more),
            _ => vec![0; more],
        });
        unit
    }
}
