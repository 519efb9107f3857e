//! Fields read and written, compared at scale.

use crate::random::Random;
use crate::tally::Tally;
use crate::{expected, library};

pub fn compare() -> Vec<Tally> {
    vec![
        every_two_bytes(),
        every_length(),
        long_inputs(),
        every_place(),
        every_width_and_place(),
        codes_written(),
        fields_written(),
    ]
}

/// u of each width, ue, se and the trailing bits at one place: the value, the bit after it, and whether bits were lacking.
fn reads(t: &mut Tally, bytes: &[u8], at: usize) {
    for n in 0..=33 {
        let asked = || format!("u {n} at {at} of {bytes:02X?}");
        t.same(asked, library::u(bytes, at, n), expected::u(bytes, at, n));
    }
    both_ways(t, bytes, at);
    t.same(
        || format!("trailing at {at} of {bytes:02X?}"),
        library::trailing(bytes, at),
        expected::trailing(bytes, at),
    );
}

/// ue and se at one place, each in clause 9.2's order and by the table of short codes.
fn both_ways(t: &mut Tally, bytes: &[u8], at: usize) {
    let asked = |call| move || format!("{call} at {at} of {bytes:02X?}");
    let (ue, se) = (expected::ue(bytes, at), expected::se(bytes, at));
    t.same(asked("ue"), library::ue(bytes, at), ue);
    t.same(asked("ue by table"), library::ue_by_table(bytes, at), ue);
    t.same(asked("se"), library::se(bytes, at), se);
    t.same(asked("se by table"), library::se_by_table(bytes, at), se);
}

fn every_two_bytes() -> Tally {
    let mut t = Tally::new("reads of every 2 bytes at bits 0 to 24");
    for x in 0..=u16::MAX {
        for at in 0..=24 {
            reads(&mut t, &x.to_be_bytes(), at);
        }
    }
    t
}

fn every_length() -> Tally {
    let mut t = Tally::new("reads of 0 to 20 bytes at any bit");
    let mut random = Random::new(1);
    for len in 0..=20 {
        for _ in 0..4000 {
            let dense = random.bytes(len);
            let sparse = random.sparse(len);
            for _ in 0..3 {
                let at = random.below(len * 8 + 40);
                reads(&mut t, &dense, at);
                reads(&mut t, &sparse, at);
            }
        }
        let zeros = vec![0; len];
        for at in 0..len * 8 + 40 {
            reads(&mut t, &zeros, at);
        }
    }
    t
}

fn long_inputs() -> Tally {
    let mut t = Tally::new("reads of the longest inputs and starts");
    let mut random = Random::new(2);
    for len in [65_535, 65_536, 65_537, 70_000] {
        let dense = random.bytes(len);
        let sparse = random.sparse(len);
        let end = len * 8;
        let near_end = (0..100).map(|back| end + 20 - back);
        let near_limit = (0..100).map(|back| 1_048_620 - back);
        let anywhere: Vec<usize> = (0..2000).map(|_| random.below(end)).collect();
        for at in near_end.chain(near_limit).chain(anywhere) {
            reads(&mut t, &dense, at);
            reads(&mut t, &sparse, at);
        }
    }
    for len in [0, 1, 7, 8, 9] {
        for at in [1_048_575, 1_048_576, 1_048_577, usize::MAX - 64, usize::MAX] {
            reads(&mut t, &random.bytes(len), at);
        }
    }
    t
}

fn every_place() -> Tally {
    let mut t = Tally::new("ue and se both ways, every place of 10,000");
    let mut random = Random::new(6);
    for i in 0..10_000 {
        let len = random.below(33);
        let bytes = if i % 2 == 0 {
            random.bytes(len)
        } else {
            random.sparse(len)
        };
        for at in 0..len * 8 + 70 {
            both_ways(&mut t, &bytes, at);
        }
    }
    t
}

/// A field to write.
#[derive(Clone, Copy, Debug)]
enum Field {
    Bits(u32, u32),
    Ue(u32),
    Se(i32),
    Trailing,
}

impl Field {
    fn library(self, out: &mut [u8], at: usize) -> Result<usize, u32> {
        match self {
            Field::Bits(v, n) => library::write_bits(out, at, v, n),
            Field::Ue(v) => library::write_ue(out, at, v),
            Field::Se(v) => library::write_se(out, at, v),
            Field::Trailing => library::write_trailing(out, at),
        }
    }

    fn expected(self, out: &[u8], at: usize) -> Result<(Vec<u8>, usize), u32> {
        match self {
            Field::Bits(v, n) => expected::write_bits(out, at, v, n),
            Field::Ue(v) => expected::write_ue(out, at, v),
            Field::Se(v) => expected::write_se(out, at, v),
            Field::Trailing => expected::write_trailing(out, at),
        }
    }
}

/// The answer and every byte of the output after one write; a refusal leaves the output as it was.
fn write(t: &mut Tally, field: Field, out: &[u8], at: usize) {
    let mut after = out.to_vec();
    let answer = field.library(&mut after, at);
    let expected = match field.expected(out, at) {
        Ok((bytes, q)) => (Ok(q), bytes),
        Err(e) => (Err(e), out.to_vec()),
    };
    t.same(
        || format!("{field:?} at {at} into {out:02X?}"),
        (answer, after),
        expected,
    );
}

/// One write into each room from none to more than enough, so just enough and one byte short among them.
fn write_into_each_room(t: &mut Tally, field: Field, out: &[u8], at: usize) {
    let due = match field.expected(out, at) {
        Ok((_, q)) => q.div_ceil(8),
        Err(_) => 1,
    };
    for room in [due.saturating_sub(1), due, due + 2] {
        write(t, field, &out[..room.min(out.len())], at);
    }
}

fn every_width_and_place() -> Tally {
    let mut t = Tally::new("write_bits of every width at bits 0 to 40");
    let mut random = Random::new(3);
    let ones = [0xFF; 12];
    for n in 0..=34 {
        for at in 0..=40 {
            for value in [0, 1, u32::MAX, random.next() as u32] {
                write_into_each_room(&mut t, Field::Bits(value, n), &ones, at);
                write_into_each_room(&mut t, Field::Bits(value, n), &random.bytes(12), at);
            }
        }
    }
    t
}

fn codes_written() -> Tally {
    let mut t = Tally::new("write_ue and write_se of small and edge values");
    let mut random = Random::new(4);
    let edges = (0..=32).flat_map(|k| (-3..=3).map(move |d| ((1i64 << k) + d) as u32));
    for value in (0..=20_000).chain(edges) {
        let out = random.bytes(12);
        let at = random.below(24);
        write_into_each_room(&mut t, Field::Ue(value), &out, at);
        write_into_each_room(&mut t, Field::Se(value as i32), &out, at);
        write_into_each_room(&mut t, Field::Se((value as i32).wrapping_neg()), &out, at);
    }
    t
}

fn fields_written() -> Tally {
    let mut t = Tally::new("random fields written at any bit");
    let mut random = Random::new(5);
    for _ in 0..400_000 {
        let value = random.number();
        let field = match random.below(4) {
            0 => Field::Bits(random.next() as u32, random.below(33) as u32),
            1 => Field::Ue(value),
            2 => Field::Se(if random.below(2) == 0 {
                value as i32
            } else {
                (value as i32).wrapping_neg()
            }),
            _ => Field::Trailing,
        };
        let at = random.below(160);
        let out = random.bytes(30);
        write_into_each_room(&mut t, field, &out, at);
    }
    for at in [1_048_575, 1_048_576, 1_048_577, usize::MAX] {
        let long = random.bytes(131_090);
        for field in [
            Field::Bits(0x1234_5678, 32),
            Field::Bits(1, 0),
            Field::Bits(1, 33),
            Field::Ue(99),
            Field::Se(-99),
            Field::Trailing,
        ] {
            write(&mut t, field, &long, at);
            write(&mut t, field, &long[..40], at);
        }
    }
    t
}
