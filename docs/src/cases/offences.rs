//! Each refusal by itself, and each pair of offences that one call can have together.
//!
//! Pairs that cannot be had, by 01, "What is refused, and in which order":
//! - 2 with 4, 5 or 9: a frame with offence 2 ends before the type byte, so it has no address, type or checksum.
//! - 11 with 13 (editing): a field that is none has no width. Such calls with great values are among those of 13 itself.
//! - 6 with a satellite other than HADES-SA; 2 with 6 needs just the 19 bytes that end with the size byte.
//!
//! All pairs of writing can be had. 2 never comes without 7, as every frame is longer than its head. With offence 1, 2
//! or 5 no row is known: there the other offence is one against every row, in a frame or call that was made for the
//! satellite which the number's low bits (or its remainder) give.

use crate::drawing::{all_rows, is_long, Maker};
use crate::rules::table::{Row, Satellite, SYNC, TABLE};

/// Which offences each call can have. Only membership counts: the order here is that in which cases are made, and says nothing about
/// which of two offences is refused, which the rules alone decide.
pub const READING: [u32; 9] = [1, 2, 3, 4, 5, 6, 7, 8, 9];
pub const EDITING: [u32; 10] = [1, 2, 3, 4, 5, 6, 7, 9, 13, 11];
pub const WRITING: [u32; 5] = [1, 5, 10, 11, 12];

fn least_of_rows(number: fn(&Satellite, &Row) -> usize) -> usize {
    all_rows().map(|(_, sender, row)| number(sender, row)).min().expect("a row")
}

fn most_of_rows(number: fn(&Satellite, &Row) -> usize) -> usize {
    all_rows().map(|(_, sender, row)| number(sender, row)).max().expect("a row")
}

/// The first field number that no row has.
fn field_of_none() -> usize {
    most_of_rows(|_, row| row.fields())
}

/// Every row has a field 1, and none one of 32 bits.
fn widest_field_1() -> usize {
    most_of_rows(|_, row| row.widths().nth(1).expect("a field 1"))
}

/// The most places, and the most bytes, that are too few for every row.
fn room_for_none() -> usize {
    least_of_rows(|_, row| row.fields()) - 1
}

fn output_for_none() -> usize {
    least_of_rows(Satellite::frame_length) - 1
}

pub fn can_be_had(one: u32, other: u32) -> bool {
    !matches!((one.min(other), one.max(other)), (2, 4) | (2, 5) | (2, 9) | (11, 13))
}

fn row_unknown(offences: &[u32]) -> bool {
    offences.iter().any(|offence| matches!(offence, 1 | 2 | 5))
}

/// A call of reading or editing, right but for the offences.
pub struct FrameCall {
    pub satellite: u32,
    pub frame: Vec<u8>,
    pub room: usize,
    pub field: u32,
    pub value: u32,
}

pub struct WriteCall {
    pub satellite: u32,
    pub number: u32,
    pub output: usize,
    pub values: Vec<u32>,
}

/// Numbers above 6 that give back `satellite` when cut to 8, 16 or 31 bits, or taken modulo 7, 8 or 2^32 - 7.
fn above_six(maker: &mut Maker, satellite: u32) -> u32 {
    satellite + maker.one_of(&[256, 65536, 1 << 31, 7, 8, u32::MAX - 6])
}

fn other_type(maker: &mut Maker, sender: &Satellite, for_all: bool) -> u32 {
    loop {
        let number = maker.between(0, 15) as u32;
        let carried = for_all && all_rows().any(|(_, _, row)| row.number == number);
        if !carried && sender.row(number).is_none() {
            return number;
        }
    }
}

fn other_address(maker: &mut Maker, sender: &Satellite, for_all: bool) -> u8 {
    loop {
        let address = maker.byte() & 15;
        let owned = for_all && TABLE.iter().any(|any| any.address == address);
        if !owned && address != sender.address {
            return address;
        }
    }
}

fn other_size(maker: &mut Maker, row: &Row, for_all: bool) -> u8 {
    let right = row.bytes as u8;
    loop {
        let drawn = maker.byte();
        let size = maker.one_of(&[right - 1, right + 1, right - 3, right + 18, 0, 255, drawn]);
        let owned = for_all && all_rows().any(|(_, _, any)| any.bytes == usize::from(size));
        if !owned && size != right {
            return size;
        }
    }
}

/// A length that is not the frame's (no frame's at all), with room for the head, and for a checksum that is wrong.
fn other_length(maker: &mut Maker, sender: &Satellite, row: &Row, offences: &[u32]) -> usize {
    let for_all = row_unknown(offences);
    let right = sender.frame_length(row);
    let least = sender.type_place() + if offences.contains(&9) { 3 } else { 1 };
    loop {
        let drawn = maker.between(least, (right + 20).min(200));
        let length = maker.one_of(&[right - 1, right + 1, right - 2, right + 2, least, drawn]);
        let owned = for_all && all_rows().any(|(_, any, row)| any.frame_length(row) == length);
        if !owned && length != right {
            return length;
        }
    }
}

fn short_length(maker: &mut Maker, sender: &Satellite, offences: &[u32], damaged: usize) -> usize {
    let last = sender.type_place();
    let most = if offences.contains(&1) { least_of_rows(|any, _| any.type_place()) } else { last };
    let least = if offences.contains(&3) { damaged + 1 } else { 0 };
    if offences.contains(&6) {
        return last;
    }
    let drawn = maker.between(least, most.max(least));
    maker.one_of(&[least, most.max(least), drawn])
}

fn wrong_checksum(maker: &mut Maker, sender: &Satellite, frame: &mut [u8]) {
    let end = frame.len();
    let body = maker.between(sender.type_place() + 1, end - 3);
    let place = maker.one_of(&[end - 1, end - 2, body]);
    frame[place] ^= maker.change();
}

/// The frame with its offences; `turn` says which byte of training and sync is damaged.
fn offending_frame(maker: &mut Maker, sender: &Satellite, row: &Row, offences: &[u32], turn: usize) -> Vec<u8> {
    let has = |offence: u32| offences.contains(&offence);
    let (start, right) = (sender.type_place(), sender.frame_length(row));
    let number = if has(5) { other_type(maker, sender, has(1)) } else { row.number };
    let address = if has(4) { other_address(maker, sender, has(1)) } else { sender.address };
    let length = if has(7) && !has(2) { other_length(maker, sender, row, offences) } else { right };
    // Cutting would take the checksum away, so without offence 9 it is made where the frame ends, or bytes put behind.
    let behind = length > right && !has(5) && maker.once_in(2);
    let bytes = if has(9) || behind { row.bytes } else { (length - start).max(3) };
    let mut frame = maker.frame(sender, number, address, bytes);
    if has(9) {
        wrong_checksum(maker, sender, &mut frame);
    }
    if sender.has_size {
        let size = if has(6) { other_size(maker, row, row_unknown(offences)) } else { row.bytes as u8 };
        frame[start - 1] = size;
    }
    maker.resize(&mut frame, length);
    let damaged = turn % (sender.training + SYNC.len());
    if has(3) {
        frame[damaged] ^= maker.change();
    }
    if has(2) {
        let length = short_length(maker, sender, offences, damaged);
        frame.truncate(length);
    }
    frame
}

pub fn frame_call(maker: &mut Maker, satellite: u32, row: &Row, offences: &[u32], turn: usize) -> FrameCall {
    let sender = &TABLE[satellite as usize];
    let has = |offence: u32| offences.contains(&offence);
    let for_all = row_unknown(offences);
    let frame = offending_frame(maker, sender, row, offences, turn);
    let count = row.fields();
    let mut room = count + maker.one_of(&[0, 0, 1, 5]);
    if has(8) {
        let drawn = maker.between(0, count - 1);
        room = if for_all { maker.between(0, room_for_none()) } else { maker.one_of(&[0, count - 1, drawn]) };
    }
    let mut field = maker.between(0, count - 1) as u32;
    let mut value = maker.value(row.widths().nth(field as usize).unwrap_or(0));
    if has(13) {
        let least = if for_all { field_of_none() } else { count } as u32;
        field = maker.one_of(&[least, least + 1, least + 7, 256, 256 + field, u32::MAX]);
        value = maker.one_of(&[0, 1, value, u32::MAX]);
    } else if has(11) {
        field = if for_all { 1 } else { maker.narrow_field(row) };
        let width = if for_all { widest_field_1() } else { row.widths().nth(field as usize).unwrap_or(0) };
        value = maker.misfit(width);
    }
    let satellite = if has(1) { above_six(maker, satellite) } else { satellite };
    FrameCall { satellite, frame, room, field, value }
}

fn other_count(maker: &mut Maker, row: &Row, for_all: bool, least: usize) -> usize {
    let right = row.fields();
    loop {
        let drawn = maker.between(0, 30);
        let count = maker.one_of(&[0, 1, right - 1, right + 1, 128, drawn]);
        let owned = for_all && all_rows().any(|(_, _, any)| any.fields() == count);
        if !owned && count != right && count >= least {
            return count;
        }
    }
}

pub fn write_call(maker: &mut Maker, satellite: u32, row: &Row, offences: &[u32]) -> WriteCall {
    let sender = &TABLE[satellite as usize];
    let has = |offence: u32| offences.contains(&offence);
    let for_all = row_unknown(offences);
    let number = if has(5) { other_type(maker, sender, has(1)) } else { row.number };
    let mut values = maker.digits(row);
    let field = if for_all { 1 } else { maker.narrow_field(row) as usize };
    if has(10) {
        let least = if has(11) { field + 1 } else { 0 };
        values.resize(other_count(maker, row, for_all, least), 0);
    }
    if has(11) {
        let width = if for_all { widest_field_1() } else { row.widths().nth(field).unwrap_or(0) };
        values[field] = maker.misfit(width);
    }
    let length = sender.frame_length(row);
    let mut output = length + maker.one_of(&[0, 0, 1, 5]);
    if has(12) {
        let drawn = maker.between(0, length - 1);
        output = if for_all { drawn % (output_for_none() + 1) } else { maker.one_of(&[0, length - 1, drawn]) };
    }
    let satellite = if has(1) { above_six(maker, satellite) } else { satellite };
    WriteCall { satellite, number, output, values }
}

/// Which bytes of training and sync are damaged in turn. By itself offence 3 damages all of them, in the first two rows, which are
/// short. In other rows and in a pair it damages three, others in each row.
fn turns(satellite: u32, sender: &Satellite, place: usize, offences: &[u32]) -> std::ops::Range<usize> {
    let heads = sender.training + SYNC.len();
    let in_pair = (5 * satellite as usize + 7 * place + 3 * offences.iter().sum::<u32>() as usize) % heads;
    match (offences.contains(&3), offences.len(), place) {
        (true, 1, 0) => 0..heads - 4,
        (true, 1, 1) => heads - 4..heads,
        (true, ..) => in_pair..in_pair + 3,
        _ => 0..if offences.contains(&6) { 5 } else { 1 },
    }
}

/// Runs over the rows. A pair takes the long rows of one satellite, and every second of the others.
fn over_rows(maker: &mut Maker, offences: &[u32], make: fn(&mut Maker, u32, &Row, &[u32], usize)) {
    let sum: u32 = offences.iter().sum();
    for (satellite, sender, row) in all_rows() {
        let place = sender.rows.iter().position(|any| any.number == row.number).unwrap_or(0);
        let left_out = if is_long(row) { sum % 5 + 1 != satellite } else { (place as u32 + satellite + sum) % 2 == 1 };
        if offences.contains(&6) && !sender.has_size || offences.len() > 1 && left_out {
            continue;
        }
        for turn in turns(satellite, sender, place, offences) {
            make(maker, satellite, row, offences, turn);
        }
    }
}

fn all_offences(maker: &mut Maker, call: &str, tests: &[u32], make: fn(&mut Maker, u32, &Row, &[u32], usize)) {
    for &one in tests {
        maker.heading(&format!("{call}: offence {one} by itself"));
        over_rows(maker, &[one], make);
    }
    for (place, &one) in tests.iter().enumerate() {
        for &other in &tests[place + 1..] {
            if can_be_had(one, other) {
                maker.heading(&format!("{call}: offences {one} and {other} together"));
                over_rows(maker, &[one, other], make);
            }
        }
    }
}

pub fn make_read(maker: &mut Maker, satellite: u32, row: &Row, offences: &[u32], turn: usize) {
    let call = frame_call(maker, satellite, row, offences, turn);
    maker.read(call.satellite, call.room, &call.frame);
}

pub fn make_edit(maker: &mut Maker, satellite: u32, row: &Row, offences: &[u32], turn: usize) {
    let call = frame_call(maker, satellite, row, offences, turn);
    maker.edit(call.satellite, call.field, call.value, &call.frame);
}

pub fn make_write(maker: &mut Maker, satellite: u32, row: &Row, offences: &[u32], _turn: usize) {
    let call = write_call(maker, satellite, row, offences);
    maker.write(call.satellite, call.number, call.output, &call.values);
}

pub fn refusals(maker: &mut Maker) {
    all_offences(maker, "reading", &READING, make_read);
    all_offences(maker, "writing", &WRITING, make_write);
    all_offences(maker, "editing", &EDITING, make_edit);
}
