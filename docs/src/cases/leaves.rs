//! Calls of the leaves: a field of every width at every start bit of a byte, and drawn ones, most of them a field or a register that
//! there is, and some that is none.

use crate::drawing::Maker;
use crate::rules::frames::{FAR, NEAR};
use crate::rules::leaves::{greatest, replace};

/// Few bytes or some, at times all of one sort, so that a bit of the other sort shows.
fn part(maker: &mut Maker) -> Vec<u8> {
    let length = maker.between(0, 24);
    match maker.between(0, 5) {
        0 => vec![0; length],
        1 => vec![0xFF; length],
        _ => (0..length).map(|_| maker.byte()).collect(),
    }
}

/// Mostly the distances of the frames, or any that are allowed.
fn register(maker: &mut Maker) -> (u32, u32, u32) {
    let start = maker.draw() as u32;
    let far = maker.between(2, 32);
    match maker.between(0, 5) {
        0 | 1 => (NEAR as u32, FAR as u32, start),
        2 => (maker.between(0, 40) as u32, maker.between(0, 40) as u32, start),
        _ => (maker.between(1, far - 1) as u32, far as u32, start),
    }
}

/// Start and width of a field, inside but for the last bits, or anywhere.
fn place(maker: &mut Maker, bytes: &[u8]) -> (u32, u32) {
    let width = maker.between(1, 32);
    match maker.between(0, 7) {
        0 => (maker.between(0, 200) as u32, maker.between(0, 40) as u32),
        1 => ((8 * bytes.len()).saturating_sub(width) as u32 + 1, width as u32),
        _ => (maker.between(0, (8 * bytes.len()).saturating_sub(width)) as u32, width as u32),
    }
}

pub fn any_leaf(maker: &mut Maker) {
    let bytes = part(maker);
    let (start, width) = place(maker, &bytes);
    let register = register(maker);
    match maker.between(0, 8) {
        0 => maker.checksum(&bytes),
        1 | 2 => maker.scramble(register, &bytes),
        3 | 4 => maker.unscramble(register, &bytes),
        5 | 6 => maker.field(start, width, &bytes),
        _ => {
            let value = maker.draw() as u32;
            maker.replace(start, width, value, &bytes);
        }
    }
}

/// Six bytes, and the field begins in the second of them: so even one of 32 bits has a bit ahead of it and one behind it.
fn field_at(maker: &mut Maker, start: usize, width: usize) {
    let (from, wide) = (start as u32, width as u32);
    let drawn: Vec<u8> = (0..6).map(|_| maker.byte()).collect();
    maker.field(from, wide, &drawn);
    for (around, value) in [(0xFF, 0), (0x00, greatest(width))] {
        let mut bytes = [around; 6];
        maker.replace(from, wide, value, &bytes);
        replace(&mut bytes, start, width, value);
        maker.field(from, wide, &bytes);
    }
}

pub fn every_field(maker: &mut Maker) {
    maker.heading("leaves: a field of every width, 1 to 32, at every start bit of a byte");
    maker.remark("read among drawn bits; made 0 among ones, and the greatest among zeros, and read back");
    for start in 8..16 {
        for width in 1..=32 {
            field_at(maker, start, width);
        }
    }
}

pub fn drawn(maker: &mut Maker) {
    maker.heading("leaves: checksum, scrambler and fields, drawn");
    for _ in 0..300 {
        any_leaf(maker);
    }
}
