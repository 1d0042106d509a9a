//! Frames damaged anywhere, cut, lengthened, mislabelled and offered as another satellite's.

use crate::drawing::{all_rows, is_long, Maker};
use crate::rules::table::{Row, Satellite, TABLE};

fn fitting_edit(maker: &mut Maker, satellite: u32, row: &Row, frame: &[u8]) {
    let field = maker.between(0, row.fields() - 1);
    let value = maker.value(row.widths().nth(field).unwrap_or(0));
    maker.edit(satellite, field as u32, value, frame);
}

/// A byte's place among those that all senders of a row have. A size byte is not among them: whoever sends one damages it.
fn place_of_all(sender: &Satellite, place: usize) -> Option<usize> {
    let size = sender.type_place() - 1;
    match sender.has_size {
        true if place == size => None,
        true if place > size => Some(place - 1),
        _ => Some(place),
    }
}

fn each_byte(maker: &mut Maker) {
    for (satellite, sender, row) in all_rows() {
        let right = maker.right_frame(sender, row);
        let body = sender.type_place() + 1..right.len() - 2;
        for place in 0..right.len() {
            let left_out = is_long(row) && body.contains(&place) && place % 3 != 0;
            let has_turn = place_of_all(sender, place).map_or(true, |k| maker.has_turn(satellite, row, k));
            if left_out || !has_turn {
                continue;
            }
            let mut frame = right.clone();
            frame[place] ^= if place % 2 == 0 { 1 << maker.between(0, 7) } else { maker.change() };
            maker.read(satellite, row.fields(), &frame);
            if place % 11 == 3 {
                fitting_edit(maker, satellite, row, &frame);
            }
        }
    }
}

/// The front of one frame of the row, and the back of another.
fn spliced(maker: &mut Maker, satellite: u32, row: &Row) -> Vec<u8> {
    let sender = &TABLE[satellite as usize];
    let (mut front, back) = (maker.right_frame(sender, row), maker.right_frame(sender, row));
    let cut = maker.between(sender.type_place() + 1, front.len() - 1);
    front.truncate(cut);
    front.extend_from_slice(&back[cut..]);
    front
}

fn swapped(maker: &mut Maker, satellite: u32, row: &Row) -> Vec<u8> {
    let sender = &TABLE[satellite as usize];
    let mut frame = maker.right_frame(sender, row);
    let place = maker.between(sender.type_place() - 2, frame.len() - 2);
    let apart = maker.one_of(&[1, 1, 2, 4]).min(frame.len() - 1 - place);
    frame.swap(place, place + apart);
    frame
}

/// What a reader that does not compute the checksum, or not all of it, might take.
fn other_checksums(maker: &mut Maker, satellite: u32, row: &Row) {
    let mut frame = maker.right_frame(&TABLE[satellite as usize], row);
    let end = frame.len() - 2;
    let (high, low) = (frame[end], frame[end + 1]);
    let sums = [[0, 0], [255, 255], [!high, !low], [low, high], [high, 0], [0, low]];
    for (k, sum) in sums.into_iter().enumerate() {
        if maker.has_turn(satellite, row, k) {
            frame[end..].copy_from_slice(&sum);
            maker.read(satellite, row.fields(), &frame);
            fitting_edit(maker, satellite, row, &frame);
        }
    }
}

fn other_training(maker: &mut Maker) {
    for (satellite, sender) in (0u32..).zip(&TABLE) {
        let row = &sender.rows[0];
        let mut frame = maker.right_frame(sender, row);
        for byte in [0x55, 0x00, 0xFF, 0xAB] {
            frame[..sender.training].fill(byte);
            maker.read(satellite, row.fields(), &frame);
            fitting_edit(maker, satellite, row, &frame);
        }
    }
}

pub fn damaged(maker: &mut Maker) {
    maker.heading("damage: other training, all of it");
    other_training(maker);
    maker.heading("damage: another checksum, 0000, FFFF, inverted, its bytes changed over or one of them 0");
    for (satellite, _, row) in all_rows().filter(|(_, _, row)| !is_long(row)) {
        other_checksums(maker, satellite, row);
    }
    maker.heading("damage: one byte changed, each byte of each row's frame, of a long body each third");
    each_byte(maker);
    maker.heading("damage: two frames of a row spliced");
    damaged_by(maker, spliced);
    maker.heading("damage: two bytes of a frame swapped");
    damaged_by(maker, swapped);
}

fn damaged_by(maker: &mut Maker, damage: fn(&mut Maker, u32, &Row) -> Vec<u8>) {
    for (satellite, _, row) in all_rows() {
        let frame = damage(maker, satellite, row);
        maker.read(satellite, row.fields(), &frame);
        if maker.has_turn(satellite, row, 0) {
            let frame = damage(maker, satellite, row);
            fitting_edit(maker, satellite, row, &frame);
        }
    }
}

pub fn lengths(maker: &mut Maker) {
    maker.heading("lengths 0 to 200, above 40 by the satellites in turn: the front of a right frame, or one with bytes behind it");
    for (satellite, sender) in (0u32..).zip(&TABLE) {
        for length in (0..=200).filter(|&length| length <= 40 || length % 7 == satellite as usize) {
            let row = &sender.rows[length % sender.rows.len()];
            let mut frame = maker.right_frame(sender, row);
            maker.resize(&mut frame, length);
            maker.read(satellite, row.fields(), &frame);
            if length % 8 == 1 || length < 25 {
                fitting_edit(maker, satellite, row, &frame);
            }
        }
    }
}

fn types_and_addresses(maker: &mut Maker) {
    for (satellite, sender) in (0u32..).zip(&TABLE) {
        for number in 0..16 {
            let row = sender.row(number);
            let is_taken = |&address: &u8| address == sender.address || (number + u32::from(address) + satellite) % 4 == 0;
            for address in (0..16).filter(is_taken) {
                let bytes = row.map_or_else(|| maker.between(3, 9), |row| row.bytes);
                let frame = maker.frame(sender, number, address, bytes);
                maker.read(satellite, row.map_or(10, Row::fields), &frame);
            }
        }
    }
}

fn other_satellites(maker: &mut Maker) {
    for (number, sender, row) in all_rows() {
        let frame = maker.right_frame(sender, row);
        for satellite in 0..TABLE.len() as u32 {
            if !is_long(row) || maker.has_turn(number, row, 0) {
                maker.read(satellite, row.fields(), &frame);
            }
            if !is_long(row) && maker.has_turn(number, row, satellite as usize) {
                fitting_edit(maker, satellite, row, &frame);
            }
        }
    }
}

fn all_sizes(maker: &mut Maker) {
    for (satellite, sender, row) in all_rows().filter(|(_, sender, _)| sender.has_size) {
        let mut frame = maker.right_frame(sender, row);
        let is_first = row.number == sender.rows[0].number;
        let is_near = |size: u8| sender.rows.iter().any(|any| any.bytes.abs_diff(usize::from(size)) < 2);
        for size in (0..=255u8).filter(|&size| is_first || is_near(size) || u32::from(size) % 8 == row.number % 8) {
            frame[sender.type_place() - 1] = size;
            maker.read(satellite, row.fields(), &frame);
            if size % 16 == 1 {
                fitting_edit(maker, satellite, row, &frame);
            }
        }
    }
}

pub fn mislabelled(maker: &mut Maker) {
    maker.heading("types and addresses: all 16 of each for every satellite, its own address with all types");
    types_and_addresses(maker);
    maker.heading("satellites: each row's frame offered as each of the seven");
    other_satellites(maker);
    maker.heading("sizes: all 256 size bytes for type 1 of HADES-SA, some for each other type");
    all_sizes(maker);
}
