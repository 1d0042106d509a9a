//! Satellites and types far out of range, temperatures, and days of frames.

use crate::drawing::{all_rows, written, Maker};
use crate::rules::table::TABLE;
use crate::rules::temperatures::{temperature_fields, TEN_TEMPERATURES};

/// Cut to fewer bits, many of these would be a satellite's number.
const FAR: [u32; 14] = [
    7, 8, 255, 256, 256 + 3, 65536 + 3, 1 << 31,
    u32::MAX - 6, u32::MAX - 5, u32::MAX - 4, u32::MAX - 3, u32::MAX - 2, u32::MAX - 1, u32::MAX,
];

fn far_satellites(maker: &mut Maker) {
    for (turn, &far) in FAR.iter().enumerate() {
        for satellite in 0..TABLE.len() as u32 {
            let sender = &TABLE[satellite as usize];
            let row = &sender.rows[turn % sender.rows.len()];
            let values = maker.digits(row);
            let frame = written(satellite, row, &values);
            match (turn + satellite as usize) % 3 {
                0 => maker.read(far, values.len(), &frame),
                1 => maker.write(far, row.number, frame.len(), &values),
                _ => maker.edit(far, 0, values[0], &frame),
            }
        }
    }
}

/// The number of values is right for the row that the type's low four bits give, if there is one.
fn far_types(maker: &mut Maker) {
    for (satellite, sender) in (0u32..).zip(&TABLE) {
        let mut numbers: Vec<u32> = (0..=17).chain([256 + 2, 65536 + 2, u32::MAX]).collect();
        for (k, high) in [16, 240, 256, 65536, 1 << 28, 1 << 31].into_iter().enumerate() {
            let rows = sender.rows.iter().filter(|row| maker.has_turn(satellite, row, k));
            numbers.extend(rows.map(|row| high + row.number));
        }
        for number in numbers {
            let row = sender.row(number & 15).unwrap_or(&sender.rows[0]);
            let values = maker.digits(row);
            maker.write(satellite, number, sender.frame_length(row), &values);
        }
    }
}

pub fn far_numbers(maker: &mut Maker) {
    maker.heading("numbers: satellites far out of range in each call");
    far_satellites(maker);
    maker.heading("numbers: types in and far out of range in writing");
    far_types(maker);
}

/// A code of 255, the sensor error, comes often.
fn code(maker: &mut Maker) -> u32 {
    if maker.once_in(3) { 255 } else { maker.between(0, 255) as u32 }
}

fn too_large(maker: &mut Maker) -> u32 {
    let drawn = maker.draw() as u32 | 256;
    maker.one_of(&[256, 257, 511, 512 + 80, 65536 + 80, (1 << 31) + 80, u32::MAX, drawn])
}

pub fn codes(maker: &mut Maker, count: usize) -> Vec<u32> {
    (0..count).map(|_| code(maker)).collect()
}

/// Puts codes above 255 at drawn places; `codes` must not be empty.
pub fn spoil(maker: &mut Maker, codes: &mut [u32], times: usize) {
    for _ in 0..times {
        let place = maker.between(0, codes.len() - 1);
        codes[place] = too_large(maker);
    }
}

fn accepted_summaries(maker: &mut Maker) {
    maker.heading("summaries: all errors, one answering, equal codes, the ends, all above zero and all below");
    maker.summary(&[255; 10]);
    for place in 0..10 {
        for answering in [0, 79, 80, 81, 254, maker.between(0, 254) as u32] {
            let mut codes = [255; 10];
            codes[place] = answering;
            maker.summary(&codes);
        }
    }
    for equal in [0, 1, 79, 80, 81, 160, 253, 254] {
        maker.summary(&[equal; 10]);
    }
    for place in 0..10 {
        let mut codes = codes(maker, 10);
        codes[place] = 0;
        codes[9 - place] = 254;
        maker.summary(&codes);
        for (coldest, warmest) in [(81, 254), (0, 79)] {
            let codes: Vec<u32> = (0..10).map(|_| maker.between(coldest, warmest) as u32).collect();
            maker.summary(&codes);
        }
    }
    maker.heading("summaries: drawn, with many sensor errors");
    for _ in 0..100 {
        let codes = codes(maker, 10);
        maker.summary(&codes);
    }
}

fn refused_summaries(maker: &mut Maker) {
    maker.heading("summaries: offence 10 by itself, and ten codes");
    for count in (0..=13).chain([20, 128]) {
        for _ in 0..3 {
            let codes = codes(maker, count);
            maker.summary(&codes);
        }
    }
    maker.heading("summaries: offence 11 by itself, one, two and many codes above 255");
    for first in 0..10 {
        for second in first..10 {
            let mut codes = codes(maker, 10);
            codes[first] = too_large(maker);
            codes[second] = too_large(maker);
            maker.summary(&codes);
        }
    }
    for _ in 0..30 {
        let mut codes = codes(maker, 10);
        spoil(maker, &mut codes, 6);
        maker.summary(&codes);
    }
    // Without codes there is none too large, so a count of 0 has no offence 11.
    maker.heading("summaries: offences 10 and 11 together");
    for count in (1..=9).chain(11..=13).chain([20, 128]) {
        for times in 1..4 {
            let mut codes = codes(maker, count);
            spoil(maker, &mut codes, times);
            maker.summary(&codes);
        }
    }
}

pub fn temperatures(maker: &mut Maker) {
    maker.heading("temperatures: codes 0 to 300 and far above");
    for code in (0..=300).chain([511, 512 + 80, 65536 + 80, 1 << 31, u32::MAX]) {
        maker.temperature(code);
    }
    accepted_summaries(maker);
    refused_summaries(maker);
}

/// Frames of type 2 with codes of 255 among them, each satellite's other frames, and refused ones.
pub fn days(maker: &mut Maker) {
    maker.heading("days: the temperatures of frames, of frames that have none, and of refused ones");
    for (satellite, sender, row) in all_rows() {
        let mut frame = maker.right_frame(sender, row);
        if row.number == TEN_TEMPERATURES {
            for _ in 0..5 {
                let mut values = maker.wide_values(row);
                values.truncate(temperature_fields(row.number, row.fields()).start);
                values.extend(codes(maker, 10));
                maker.day(satellite, &written(satellite, row, &values));
            }
        }
        maker.day(satellite, &frame);
        maker.day(FAR[(frame.len() + row.fields()) % FAR.len()], &frame);
        let place = maker.between(0, frame.len() - 1);
        frame[place] ^= maker.change();
        maker.day(satellite, &frame);
    }
}
