//! Each row of the table written, read and edited, with values at both ends of each width. What all senders of a row would do alike
//! is done by them in turn.

use crate::drawing::{all_greatest, all_rows, is_long, values_of, written, Maker};
use crate::rules::leaves::greatest;
use crate::rules::table::{Row, Satellite};

/// The numbers a wrongly kept field number, or one behind the last, would be.
fn fields_that_are_none(count: u32, field: u32) -> [u32; 8] {
    [count, count + 1, 256, 256 + field, 65536 + field, (1 << 24) + field, (1 << 31) + field, u32::MAX]
}

fn accepted_values(maker: &mut Maker, satellite: u32, row: &Row, values: &[u32], longer: usize) {
    let frame = written(satellite, row, values);
    let count = values.len();
    maker.write(satellite, row.number, frame.len() + longer, values);
    maker.read(satellite, count + longer, &frame);
    let field = maker.between(0, count - 1);
    let value = maker.value(row.widths().nth(field).unwrap_or(0));
    maker.edit(satellite, field as u32, value, &frame);
}

/// A frame that no writer made: its values are read, written, and must give it back.
fn accepted_body(maker: &mut Maker, satellite: u32, sender: &Satellite, row: &Row) {
    let frame = maker.right_frame(sender, row);
    let values = values_of(satellite, row, &frame);
    maker.read(satellite, values.len(), &frame);
    maker.write(satellite, row.number, frame.len(), &values);
}

fn accepted(maker: &mut Maker) {
    maker.heading("accepted: every satellite and type written, read, edited, with rooms and outputs exact and longer");
    for (satellite, sender, row) in all_rows() {
        let (drawn, short, any) = (maker.wide_values(row), maker.short_values(row), maker.short_values(row));
        let longer = maker.between(2, 9);
        let sets = [(vec![0; row.fields()], 0), (all_greatest(row), 0), (drawn, 0), (short, longer)];
        for (k, (values, longer)) in sets.iter().enumerate() {
            if maker.has_turn(satellite, row, k) {
                accepted_values(maker, satellite, row, values, *longer);
            }
        }
        accepted_values(maker, satellite, row, &any, 1);
        accepted_body(maker, satellite, sender, row);
    }
}

fn shorter(maker: &mut Maker) {
    maker.heading("accepted but for the buffer: every type, rooms and outputs longer, exact and shorter");
    for (satellite, sender, row) in all_rows() {
        let (count, length) = (row.fields(), sender.frame_length(row));
        let frame = maker.right_frame(sender, row);
        for (k, room) in [0, 1, count / 2, count - 2, count - 1, 200].into_iter().enumerate() {
            if maker.has_turn(satellite, row, k) {
                maker.read(satellite, room, &frame);
            }
        }
        let values = maker.digits(row);
        let start = sender.type_place();
        let outputs = [0, 1, start, start + 1, length - 2, length - 1, length, length + 1, 255];
        for (k, output) in outputs.into_iter().enumerate() {
            if maker.has_turn(satellite, row, k) {
                maker.write(satellite, row.number, output, &values);
            }
        }
    }
}

pub fn accepted_rows(maker: &mut Maker) {
    accepted(maker);
    shorter(maker);
}

/// Of a long row the first field and every third, the last among them: the others are as wide as their neighbours.
fn is_taken(row: &Row, field: usize) -> bool {
    !is_long(row) || field == 0 || (row.fields() - 1 - field) % 3 == 0
}

/// Writes, for each field of each row that is at most so wide, what `change` makes of the row's values.
fn each_field(maker: &mut Maker, widest: usize, change: fn(&mut Maker, &Row, usize, usize) -> Vec<u32>) {
    for (satellite, sender, row) in all_rows() {
        for (field, width) in row.widths().enumerate().filter(|&(_, width)| width <= widest) {
            if maker.has_turn(satellite, row, field) && is_taken(row, field) {
                let values = change(maker, row, field, width);
                maker.write(satellite, row.number, sender.frame_length(row), &values);
            }
        }
    }
}

fn several_too_large(maker: &mut Maker) {
    for (satellite, sender, row) in all_rows() {
        for k in 0..8 {
            if !maker.has_turn(satellite, row, k) {
                continue;
            }
            let mut values = maker.digits(row);
            for _ in 0..maker.between(2, 4) {
                let field = maker.narrow_field(row) as usize;
                values[field] = u32::MAX - maker.between(0, 9) as u32;
            }
            maker.write(satellite, row.number, sender.frame_length(row), &values);
        }
    }
}

pub fn both_ends(maker: &mut Maker) {
    maker.heading("widths: a field greatest, the others 0");
    each_field(maker, 32, |_, row, field, width| {
        let mut values = vec![0; row.fields()];
        values[field] = greatest(width);
        values
    });
    maker.heading("widths: a field 0, the others greatest or drawn");
    each_field(maker, 32, |maker, row, field, _| {
        let mut values = if field % 8 == 1 { all_greatest(row) } else { maker.short_values(row) };
        values[field] = 0;
        values
    });
    maker.heading("widths: a field one too large, the others drawn");
    each_field(maker, 31, |maker, row, field, width| {
        let mut values = maker.short_values(row);
        values[field] = greatest(width) + 1;
        values
    });
    maker.heading("widths: a field at 2^32 - 1, the others drawn");
    each_field(maker, 32, |maker, row, field, _| {
        let mut values = maker.short_values(row);
        values[field] = u32::MAX;
        values
    });
    maker.heading("widths: several fields too large at once");
    several_too_large(maker);
}

/// A field to a drawn value, and to the value it has, one too large, 0 and the greatest; of a long row at most one of these four. One
/// too large for 32 bits is 0.
fn edit_field(maker: &mut Maker, satellite: u32, row: &Row, frame: &[u8], (field, width, has): (usize, usize, u32)) {
    let changed = if width == 1 { 1 - has } else { maker.draw() as u32 & greatest(width) };
    maker.edit(satellite, field as u32, changed, frame);
    for (k, value) in [has, greatest(width).wrapping_add(1), 0, greatest(width)].into_iter().enumerate() {
        if !is_long(row) || field % 8 == 2 * k {
            maker.edit(satellite, field as u32, value, frame);
        }
    }
}

fn edit_each_field(maker: &mut Maker) {
    for (satellite, sender, row) in all_rows() {
        let frame = maker.right_frame(sender, row);
        let values = values_of(satellite, row, &frame);
        for (field, width) in row.widths().enumerate() {
            if maker.has_turn(satellite, row, field) {
                edit_field(maker, satellite, row, &frame, (field, width, values[field]));
            }
        }
    }
}

pub fn edits(maker: &mut Maker) {
    maker.heading("edits: each field to a drawn value, the value it has, one too large, 0 and the greatest");
    maker.remark("in the long types 6 and 7 to the drawn value and at most one of the others; one too large for 32 bits is 0");
    edit_each_field(maker);
    maker.heading("edits: fields that are none");
    for (satellite, sender, row) in all_rows() {
        let frame = maker.right_frame(sender, row);
        let field = maker.between(0, row.fields() - 1) as u32;
        for (k, none) in fields_that_are_none(row.fields() as u32, field).into_iter().enumerate() {
            if maker.has_turn(satellite, row, k) {
                let value = maker.between(0, 1) as u32;
                maker.edit(satellite, none, value, &frame);
            }
        }
    }
}

/// Both ends of a field among others that are drawn: written, read, and edited to the other end, so that the second edit gives back the
/// first frame; and one too large.
fn end_to_end(maker: &mut Maker, satellite: u32, row: &Row, field: usize, width: usize) {
    let mut values = maker.wide_values(row);
    let (first, last) = (0, greatest(width));
    for (value, other) in [(first, last), (last, first)] {
        values[field] = value;
        let frame = written(satellite, row, &values);
        maker.write(satellite, row.number, frame.len(), &values);
        maker.read(satellite, values.len(), &frame);
        maker.edit(satellite, field as u32, other, &frame);
    }
    let frame = written(satellite, row, &values);
    maker.edit(satellite, field as u32, last + 1, &frame);
    values[field] = last + 1;
    maker.write(satellite, row.number, frame.len(), &values);
}

/// No turns here: every satellite has such a field at both ends.
pub fn shared_bytes(maker: &mut Maker) {
    maker.heading("shared bytes: each field that begins or ends in the middle of a byte, of every satellite");
    maker.remark("0 and the greatest written and read, edited from one to the other and back, and one too large");
    for (satellite, _, row) in all_rows() {
        let mut start = 0;
        for (field, width) in row.widths().enumerate() {
            if start % 8 != 0 || (start + width) % 8 != 0 {
                end_to_end(maker, satellite, row, field, width);
            }
            start += width;
        }
    }
}

pub fn counts(maker: &mut Maker) {
    maker.heading("counts: 0, one fewer, one more and 128 values");
    for (satellite, sender, row) in all_rows() {
        let length = sender.frame_length(row);
        let counts = [0, 1, row.fields() - 1, row.fields() + 1, 2 * row.fields(), 128];
        for (k, count) in counts.into_iter().enumerate() {
            if maker.has_turn(satellite, row, k) {
                let mut values = maker.digits(row);
                values.resize(count.min(128), 0);
                maker.write(satellite, row.number, length, &values);
            }
        }
    }
}
