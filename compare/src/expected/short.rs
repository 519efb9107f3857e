//! A reading that stops at the first missing bit, where a set must get 1: the fields of a set in the order of the Rust's
//! `parse_aps_rbsp` and of what it calls. It refuses with 1 where a bit is missing, and else with the number of the first broken rule.

use crate::sets::make::diagonal_scan;

/// The bytes, and the next bit.
pub struct Reader<'a> {
    bytes: &'a [u8],
    at: usize,
}

impl Reader<'_> {
    fn bit(&mut self) -> Result<u32, u32> {
        let byte = self.bytes.get(self.at / 8).ok_or(1u32)?;
        let bit = byte >> (7 - self.at % 8) & 1;
        self.at += 1;
        Ok(bit.into())
    }

    pub fn u(&mut self, n: u32) -> Result<u32, u32> {
        (0..n).try_fold(0, |value, _| Ok(value << 1 | self.bit()?))
    }

    /// Zeros up to a 1 bit, then as many bits as zeros; 32 zeros are refused before any more is read.
    pub fn ue(&mut self) -> Result<u32, u32> {
        let mut zeros = 0;
        while self.bit()? == 0 {
            zeros += 1;
            rule(zeros < 32)?;
        }
        Ok((1 << zeros) - 1 + self.u(zeros)?)
    }

    pub fn se(&mut self) -> Result<i32, u32> {
        let code = self.ue()?;
        let half = code.div_ceil(2) as i32;
        Ok(if code % 2 == 1 { half } else { -half })
    }

    fn flag(&mut self) -> Result<bool, u32> {
        Ok(self.bit()? == 1)
    }

    /// A ue of at most `most`.
    fn upto(&mut self, most: u32) -> Result<u32, u32> {
        let value = self.ue()?;
        rule(value <= most)?;
        Ok(value)
    }

    /// An se from -128 to 127.
    fn step(&mut self) -> Result<(), u32> {
        let value = self.se()?;
        rule((-128..=127).contains(&value))
    }

    /// A magnitude's sign, which is there only if it is not 0.
    fn sign(&mut self, magnitude: u32) -> Result<(), u32> {
        self.u(u32::from(magnitude > 0)).map(drop)
    }

    /// The stop bit, and zeros to the byte's end.
    fn trailing(&mut self) -> Result<(), u32> {
        rule(self.flag()?)?;
        while self.at % 8 != 0 {
            rule(!self.flag()?)?;
        }
        Ok(())
    }
}

/// A rule of the syntax, judged where it stands.
fn rule(kept: bool) -> Result<(), u32> {
    if kept {
        Ok(())
    } else {
        Err(2)
    }
}

/// One field at a bit: its value and the bit after it.
pub fn field<T: Into<i64>>(
    bytes: &[u8],
    at: usize,
    read: impl Fn(&mut Reader<'_>) -> Result<T, u32>,
) -> Result<(i64, usize), u32> {
    let mut r = Reader { bytes, at };
    let value = read(&mut r)?.into();
    Ok((value, r.at))
}

/// A set: the bit where reading ended.
pub fn rbsp(bytes: &[u8]) -> Result<usize, u32> {
    let mut r = Reader { bytes, at: 0 };
    let kind = r.u(3)?;
    let id = r.u(5)?;
    let chroma = r.flag()?;
    match kind {
        0 => alf(&mut r, chroma)?,
        1 => {
            rule(id <= 3)?;
            lmcs(&mut r, chroma)?;
        }
        2 => scaling(&mut r, chroma)?,
        _ => return Err(3),
    }
    rule(id <= 7)?;
    if !r.flag()? {
        r.trailing()?;
    }
    Ok(r.at)
}

fn alf(r: &mut Reader<'_>, chroma: bool) -> Result<(), u32> {
    let luma = r.flag()?;
    let [alternatives, cb, cr] = if chroma {
        [r.flag()?, r.flag()?, r.flag()?]
    } else {
        [false; 3]
    };
    if luma {
        alf_luma(r)?;
    }
    if alternatives {
        alf_chroma(r)?;
    }
    for _ in [cb, cr].into_iter().filter(|&sent| sent) {
        for _ in 0..7 * (r.upto(3)? + 1) {
            let magnitude = r.u(3)?;
            r.sign(magnitude)?;
        }
    }
    Ok(())
}

fn alf_luma(r: &mut Reader<'_>) -> Result<(), u32> {
    let clip = r.flag()?;
    let last = r.upto(24)?;
    if last > 0 {
        let width = (last + 1).next_power_of_two().ilog2();
        for _ in 0..25 {
            rule(r.u(width)? <= last)?;
        }
    }
    let coefficients = 12 * (last + 1);
    magnitudes(r, coefficients)?;
    clips(r, if clip { coefficients } else { 0 })
}

fn alf_chroma(r: &mut Reader<'_>) -> Result<(), u32> {
    let clip = r.flag()?;
    for _ in 0..=r.upto(7)? {
        magnitudes(r, 6)?;
        clips(r, if clip { 6 } else { 0 })?;
    }
    Ok(())
}

fn magnitudes(r: &mut Reader<'_>, count: u32) -> Result<(), u32> {
    for _ in 0..count {
        let magnitude = r.upto(128)?;
        r.sign(magnitude)?;
    }
    Ok(())
}

fn clips(r: &mut Reader<'_>, count: u32) -> Result<(), u32> {
    (0..count).try_for_each(|_| r.u(2).map(drop))
}

/// The three values of the head are read, then judged.
fn lmcs(r: &mut Reader<'_>, chroma: bool) -> Result<(), u32> {
    let min = r.ue()?;
    let delta_max = r.ue()?;
    let precision = r.ue()?;
    rule(min <= 15)?;
    rule(delta_max <= 15 && min <= 15 - delta_max)?;
    rule(precision <= 14)?;
    for _ in min..=15 - delta_max {
        let codeword = r.u(precision + 1)?;
        r.sign(codeword)?;
    }
    if chroma {
        let delta = r.u(3)?;
        r.sign(delta)?;
    }
    Ok(())
}

fn scaling(r: &mut Reader<'_>, chroma: bool) -> Result<(), u32> {
    let scan = diagonal_scan();
    for id in (0..28).filter(|id| chroma || id % 3 == 2 || *id == 27) {
        let copied = r.flag()?;
        let predicted = !copied && r.flag()?;
        let (first, size) = match id {
            0..2 => (0, 2),
            2..8 => (2, 4),
            _ => (8, 8),
        };
        if (copied || predicted) && id != first {
            r.upto(id - first)?;
        }
        if copied {
            continue;
        }
        if id > 13 {
            r.step()?;
        }
        let is_read = |&(x, y): &(usize, usize)| id < 26 || x < 4 || y < 4;
        for _ in scan[..size * size].iter().filter(|place| is_read(place)) {
            r.step()?;
        }
    }
    Ok(())
}
