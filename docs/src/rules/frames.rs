//! Frames read, written and edited: 01, "From antenna order to bytes" and "What is refused, and in which order".

use super::leaves::{checksum, field, fits, replace, scramble, unscramble};
use super::table::{Row, Satellite, LONGEST, SYNC, TABLE, TRAINING};

/// 01, "What is refused, and in which order": the meaning of those that a frame can show.
pub const REFUSALS: [(u32, &str); 7] = [
    (2, "fewer bytes than training, sync, size byte if any, and type byte"),
    (3, "training or sync differs"),
    (4, "address is another's"),
    (5, "type not carried by this satellite"),
    (6, "size byte differs from the table"),
    (7, "buffer length is not the frame's length"),
    (9, "checksum differs"),
];

// 01, "Scrambler": the distances of the two earlier sent bits, and the number whose low bits are those before the body.
pub const NEAR: usize = 12;
pub const FAR: usize = 17;
const START: u32 = 0x2C35_0000;

fn scramble_body(body: &mut [u8]) {
    scramble(NEAR, FAR, START, body);
}

fn unscramble_body(body: &mut [u8]) {
    unscramble(NEAR, FAR, START, body);
}

/// The type byte: the type in the high four bits, the address in the low four.
#[inline]
pub fn type_byte(number: u32, address: u8) -> u8 {
    (number << 4) as u8 | address
}

/// The inverse: the type and the address in a type byte.
#[inline]
pub fn type_and_address(byte: u8) -> (u32, u8) {
    (u32::from(byte >> 4), byte & 0xF)
}

/// Fills the bytes ahead of the type byte: training, sync, and the size byte, if any, for so many bytes from type byte to checksum.
#[inline]
pub fn fill_head(sender: &Satellite, bytes: usize, head: &mut [u8]) {
    head[..sender.training].fill(TRAINING);
    head[sender.training..sender.training + SYNC.len()].copy_from_slice(&SYNC);
    if sender.has_size { head[sender.type_place() - 1] = bytes as u8; }
}

/// Takes type byte, clear body and two bytes of room; leaves them as they are sent.
pub fn seal(part: &mut [u8]) {
    let end = part.len() - 2;
    let sum = checksum(&part[..end]);
    part[end..].copy_from_slice(&sum.to_be_bytes());
    scramble_body(&mut part[1..end]);
}

/// Takes type byte, body and checksum as they are sent, and leaves the body clear. Answers the checksum that was sent and the one that
/// the rest has.
pub fn unseal(part: &mut [u8]) -> (u16, u16) {
    let (covered, sum) = part.split_at_mut(part.len() - 2);
    unscramble_body(&mut covered[1..]);
    (u16::from_be_bytes([sum[0], sum[1]]), checksum(covered))
}

/// The clear copy of type byte, body and checksum, if the checksum agrees.
fn open<'a>(part: &[u8], copy: &'a mut [u8; LONGEST]) -> Option<&'a mut [u8]> {
    let clear = &mut copy[..part.len()];
    clear.copy_from_slice(part);
    let (sent, computed) = unseal(clear);
    if sent == computed { Some(clear) } else { None }
}

/// Tests 1 to 7 in that order.
fn recognise(satellite: u32, frame: &[u8]) -> Result<(&'static Satellite, &'static Row), u32> {
    let sender = TABLE.get(satellite as usize).ok_or(1u32)?;
    let start = sender.type_place();
    if frame.len() < start + 1 { return Err(2); }
    if !sender.begins(frame) { return Err(3); }
    let (number, address) = type_and_address(frame[start]);
    if address != sender.address { return Err(4); }
    let row = sender.row(number).ok_or(5u32)?;
    if sender.has_size && usize::from(frame[start - 1]) != row.bytes { return Err(6); }
    if frame.len() != sender.frame_length(row) { return Err(7); }
    Ok((sender, row))
}

fn reading(satellite: u32, frame: &[u8], room: &mut [u32]) -> Result<&'static Row, u32> {
    let (sender, row) = recognise(satellite, frame)?;
    if room.len() < row.fields() { return Err(8); }
    let mut copy = [0; LONGEST];
    let clear = open(&frame[sender.type_place()..], &mut copy).ok_or(9u32)?;
    let mut start = 0;
    for (value, width) in room.iter_mut().zip(row.widths()) {
        *value = field(&clear[1..], start, width);
        start += width;
    }
    Ok(row)
}

/// Answers refusal, type and field count.
pub fn read(satellite: u32, frame: &[u8], room: &mut [u32]) -> (u32, u32, u32) {
    match reading(satellite, frame, room) {
        Ok(row) => (0, row.number, row.fields() as u32),
        Err(refusal) => (refusal, 0, 0),
    }
}

fn writing(satellite: u32, number: u32, values: &[u32], output: &mut [u8]) -> Result<usize, (u32, u32)> {
    let sender = TABLE.get(satellite as usize).ok_or((1u32, 0u32))?;
    let row = sender.row(number).ok_or((5u32, 0u32))?;
    let (start, length) = (sender.type_place(), sender.frame_length(row));
    if values.len() != row.fields() { return Err((10, 0)); }
    if let Some(field) = row.lowest_misfit(values) { return Err((11, field as u32)); }
    if output.len() < length { return Err((12, 0)); }
    let (head, part) = output[..length].split_at_mut(start);
    fill_head(sender, row.bytes, head);
    part[0] = type_byte(row.number, sender.address);
    let mut place = 0;
    for (&value, width) in values.iter().zip(row.widths()) {
        replace(&mut part[1..], place, width, value);
        place += width;
    }
    seal(part);
    Ok(length)
}

/// Answers refusal and length; with refusal 11 the lowest field number that does not fit.
pub fn write(satellite: u32, number: u32, values: &[u32], output: &mut [u8]) -> (u32, u32) {
    match writing(satellite, number, values, output) {
        Ok(length) => (0, length as u32),
        Err(refused) => refused,
    }
}

fn editing(satellite: u32, frame: &mut [u8], number: u32, value: u32) -> Result<usize, (u32, u32)> {
    let (sender, row) = recognise(satellite, frame).map_err(|refusal| (refusal, 0))?;
    let part = &mut frame[sender.type_place()..];
    let mut copy = [0; LONGEST];
    let clear = open(part, &mut copy).ok_or((9u32, 0u32))?;
    let (start, width) = row.place(number).ok_or((13u32, 0u32))?;
    if !fits(value, width) { return Err((11, number)); }
    replace(&mut clear[1..], start, width, value);
    seal(clear);
    part.copy_from_slice(clear);
    Ok(frame.len())
}

/// Answers refusal and length; with refusal 11 the field's number.
pub fn edit(satellite: u32, frame: &mut [u8], number: u32, value: u32) -> (u32, u32) {
    match editing(satellite, frame, number, value) {
        Ok(length) => (0, length as u32),
        Err(refused) => refused,
    }
}
