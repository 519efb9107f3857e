//! Streams of these units: short, long, and one that fills every place.

use super::Bytes;
use crate::expected::table::names;
use crate::h266::aps;
use crate::headers;
use crate::nal;
use crate::sets::make::Style;
use crate::sets::{flip, long};

impl Bytes {
    /// Zero bytes before a start code or at the end.
    fn zeros(&mut self) -> Vec<u8> {
        let more = self.random.below(6);
        vec![0; [0, 1, 1, more][self.random.below(4)]]
    }

    /// Bytes that may not stand between units, some of which a unit takes as its own.
    fn garbage(&mut self) -> Vec<u8> {
        let zeros = self.random.below(5);
        let byte = 1 + self.random.below(255) as u8;
        let last = [1, 2, 3, byte][self.random.below(4)];
        [vec![0; zeros], vec![last]].concat()
    }

    /// Units after start codes of three bytes or four, with zeros around them and rarely something else.
    fn joined(&mut self, units: usize) -> Vec<u8> {
        let mut stream = Vec::new();
        for _ in 0..units {
            if self.random.below(40) == 0 {
                stream.extend(self.garbage());
            }
            stream.extend(self.zeros());
            stream.extend([0, 0, 1]);
            stream.extend(self.unit());
        }
        if self.random.below(60) == 0 {
            stream.extend(self.garbage());
        }
        if self.random.below(2) == 0 {
            stream.extend(self.zeros());
        }
        stream
    }

    pub fn stream(&mut self) -> Vec<u8> {
        let units = self.random.below(7);
        let mut stream = self.joined(units);
        let len = stream.len();
        match self.random.below(40) {
            0 => stream.truncate(self.random.below(len + 1)),
            1 => _ = stream.drain(..self.random.below(len + 1)),
            2 if len > 0 => flip(&mut stream, self.random.below(len * 8)),
            3 => stream = self.random.escapable(24),
            _ => (),
        }
        stream
    }

    /// A stream of 65,530 to 65,540 bytes: more units, then a long one, zeros, or bytes that break the split.
    pub fn long_stream(&mut self) -> Vec<u8> {
        let mut stream = match self.random.below(2) {
            0 => self.joined(3),
            _ => self.joined(40),
        };
        stream.truncate(65_000);
        let len = self.long();
        stream.extend(match self.random.below(4) {
            0 => vec![0; len - stream.len()],
            1 => vec![0xFF; len - stream.len()],
            2 => self.random.escapable(len - stream.len()),
            _ => {
                let body = self.random.bytes(65_000);
                let header = [self.aps_header(), self.foreign_header()][self.random.below(2)];
                [&[0, 0, 1][..], &header, &nal::rbsp_to_ebsp(&body)].concat()
            }
        });
        stream.resize(len, 0xFF);
        stream
    }

    /// A stream that fills every place, with the largest sets that are taken or with any.
    pub fn filling_stream(&mut self) -> Vec<u8> {
        let largest = self.random.below(2) == 0;
        let mut stream = Vec::new();
        for name in names() {
            let style = if largest { Style::Largest } else { self.style() };
            let set = long::taken(&mut self.random, style, name);
            let rbsp = aps::write_aps(&set).expect("a set in range is written");
            let unit_type = headers::aps_type(&mut self.random);
            let header = headers::bytes(headers::good(&mut self.random, unit_type));
            stream.extend([&[0, 0, 0, 1][..], &header, &nal::rbsp_to_ebsp(&rbsp)].concat());
        }
        stream
    }
}
