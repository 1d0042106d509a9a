//! The satellites and the rows of their types: 01, "From antenna order to bytes" and "The field tables", and type 1 of 02, "One".

use super::leaves::fits;
use super::temperatures::SENSORS;

/// So many fields side by side, each of so many bits.
pub type Run = (usize, usize);

/// One type as a satellite sends it: its number, its fields, and its bytes from type byte to checksum.
pub struct Row {
    pub number: u32,
    pub runs: &'static [Run],
    pub bytes: usize,
}

pub struct Satellite {
    pub address: u8,
    pub training: usize,
    pub has_size: bool,
    pub rows: &'static [Row],
}

const fn row(number: u32, runs: &'static [Run], bytes: usize) -> Row {
    Row { number, runs, bytes }
}

const fn satellite(address: u8, training: usize, has_size: bool, rows: &'static [Row]) -> Satellite {
    Satellite { address, training, has_size, rows }
}

// 01, "The field tables", line by line; `_OF_0` and `_OF_6` where one satellite has a layout of its own. 01 has no line for type 1: its
// widths are those of documents 000, 002 and 004 (documents.rs), its bytes those of 02.
const CLOCK: Run = (1, 32);
const TEN: Run = (SENSORS, 8);
const TYPE_1: Row = row(1, &[CLOCK, (4, 8), (1, 16), (3, 12), (1, 16), (5, 12), (4, 8)], 31);
const TYPE_2_OF_0: Row = row(2, &[TEN], 13);
const TYPE_2: Row = row(2, &[CLOCK, TEN], 17);
const TYPE_5_OF_0: Row = row(5, &[TEN, TEN, TEN], 33);
const TYPE_5: Row = row(5, &[CLOCK, TEN, TEN], 27);
const TYPE_6: Row = row(6, &[(6, 16), (48, 16), (8, 16), (8, 8)], 135);
const TYPE_7: Row = row(7, &[CLOCK, (1, 8), (93, 8)], 101);
const TYPE_8_OF_0: Row = row(8, &[(8, 16), (1, 32), (1, 16), (1, 4), (1, 2), (1, 1), (1, 1), (2, 8)], 28);
const TYPE_8_OF_6: Row = row(8, &[(8, 16), (1, 32), (1, 16), (6, 8)], 31);
const TYPE_10: Row = row(10, &[CLOCK, (1, 8), (1, 8), (8, 8)], 17);
const TYPE_11: Row = row(11, &[CLOCK, (2, 8)], 9);
const TYPE_12: Row = row(12, &[(1, 32), (1, 16), (12, 32), (3, 16), (1, 8)], 64);

/// Addresses, training lengths and size byte from 01, "From antenna order to bytes".
pub static TABLE: [Satellite; 7] = [
    satellite(0x8, 8, false, &[TYPE_2_OF_0, TYPE_5_OF_0, TYPE_8_OF_0]), // 0 HADES-D
    satellite(0x2, 16, false, &[TYPE_1, TYPE_2, TYPE_5, TYPE_6, TYPE_7, TYPE_12]), // 1 HADES-ICM
    satellite(0xB, 16, false, &[TYPE_1, TYPE_2, TYPE_5, TYPE_6, TYPE_11, TYPE_12]), // 2 MARIA-G
    satellite(0xC, 16, false, &[TYPE_1, TYPE_2, TYPE_5, TYPE_6, TYPE_10, TYPE_12]), // 3 UNNE-1
    satellite(0xD, 16, false, &[TYPE_1, TYPE_2, TYPE_5, TYPE_6, TYPE_12]), // 4 HADES-R
    satellite(0xC, 16, false, &[TYPE_1, TYPE_2, TYPE_5, TYPE_6, TYPE_10, TYPE_12]), // 5 UNNE-1B
    satellite(0x3, 16, true, &[TYPE_1, TYPE_2, TYPE_5, TYPE_8_OF_6, TYPE_12]), // 6 HADES-SA
];

/// The most bytes any row has from type byte to checksum.
pub const LONGEST: usize = TYPE_6.bytes;
pub const TRAINING: u8 = 0xAA;
pub const SYNC: [u8; 2] = [0xBF, 0x35];

impl Row {
    pub fn widths(&self) -> impl Iterator<Item = usize> {
        self.runs.iter().flat_map(|&(fields, width)| std::iter::repeat(width).take(fields))
    }

    pub fn fields(&self) -> usize {
        self.runs.iter().map(|&(fields, _)| fields).sum()
    }

    /// Where in the body a field starts, and its width, in bits.
    pub fn place(&self, field: u32) -> Option<(usize, usize)> {
        let mut start = 0;
        for (number, width) in self.widths().enumerate() {
            if number == field as usize {
                return Some((start, width));
            }
            start += width;
        }
        None
    }

    pub fn lowest_misfit(&self, values: &[u32]) -> Option<usize> {
        self.widths().zip(values).position(|(width, &value)| !fits(value, width))
    }
}

impl Satellite {
    /// Where the type byte is.
    pub fn type_place(&self) -> usize {
        self.training + SYNC.len() + usize::from(self.has_size)
    }

    pub fn row(&self, number: u32) -> Option<&'static Row> {
        self.rows.iter().find(|row| row.number == number)
    }

    /// The length of this satellite's frames of a row.
    pub fn frame_length(&self, row: &Row) -> usize {
        self.type_place() + row.bytes
    }

    pub fn begins(&self, frame: &[u8]) -> bool {
        let (training, rest) = frame.split_at(self.training);
        training.iter().all(|&byte| byte == TRAINING) && rest.starts_with(&SYNC)
    }
}
