//! What the cases are made of: the seeded generator, and contents drawn from it.

use crate::rules::frames;
use crate::rules::leaves::greatest;
use crate::rules::table::{Row, Satellite, TABLE};

/// Rows whose lines are kept few or short, as each takes several hundred characters.
pub fn is_long(row: &Row) -> bool {
    row.bytes > 100
}

pub fn all_greatest(row: &Row) -> Vec<u32> {
    row.widths().map(greatest).collect()
}

/// Every satellite's number with each of its rows, in the order of 01, "The printed table".
pub fn all_rows() -> impl Iterator<Item = (u32, &'static Satellite, &'static Row)> {
    (0u32..).zip(&TABLE).flat_map(|(number, sender)| sender.rows.iter().map(move |row| (number, sender, row)))
}

/// The frame the writer gives; for values that fit.
pub fn written(satellite: u32, row: &Row, values: &[u32]) -> Vec<u8> {
    let mut frame = vec![0; TABLE[satellite as usize].frame_length(row)];
    frames::write(satellite, row.number, values, &mut frame);
    frame
}

/// The values that the reader gives; for a right frame.
pub fn values_of(satellite: u32, row: &Row, frame: &[u8]) -> Vec<u32> {
    let mut values = vec![0; row.fields()];
    frames::read(satellite, frame, &mut values);
    values
}

/// The generator is splitmix64, so that a seed gives the same cases on every machine.
pub struct Maker {
    seed: u64,
    state: u64,
    /// The lines that are not written yet.
    pub text: String,
    pub made: u64,
}

impl Maker {
    pub fn new(seed: u64) -> Maker {
        Maker { seed, state: seed, text: String::new(), made: 0 }
    }

    /// Each group draws from the seed and its own name, so that a change of one leaves the others as they are.
    pub fn draw_for(&mut self, name: &str) {
        self.state = name.bytes().fold(self.seed, |state, byte| state.wrapping_mul(31).wrapping_add(u64::from(byte)));
    }

    /// Whether it is this sender's turn to do the k-th of what every sender of the row could do alike. With another seed another
    /// sender has the turn.
    pub fn has_turn(&self, satellite: u32, row: &Row, k: usize) -> bool {
        let alike = |any: &Row| any.number == row.number && any.runs == row.runs;
        let senders: Vec<u32> = all_rows().filter(|(_, _, any)| alike(any)).map(|(number, _, _)| number).collect();
        senders[(k + self.seed as usize % senders.len()) % senders.len()] == satellite
    }

    pub fn draw(&mut self) -> u64 {
        self.state = self.state.wrapping_add(0x9E37_79B9_7F4A_7C15);
        let mut mixed = self.state;
        mixed = (mixed ^ mixed >> 30).wrapping_mul(0xBF58_476D_1CE4_E5B9);
        mixed = (mixed ^ mixed >> 27).wrapping_mul(0x94D0_49BB_1331_11EB);
        mixed ^ mixed >> 31
    }

    /// A number from `low` to `high`, both possible.
    pub fn between(&mut self, low: usize, high: usize) -> usize {
        low + (self.draw() % (high - low + 1) as u64) as usize
    }

    pub fn once_in(&mut self, times: usize) -> bool {
        self.between(1, times) == 1
    }

    pub fn one_of<T: Copy>(&mut self, choice: &[T]) -> T {
        choice[self.between(0, choice.len() - 1)]
    }

    pub fn byte(&mut self) -> u8 {
        self.draw() as u8
    }

    /// Never 0, so what it is xored into changes.
    pub fn change(&mut self) -> u8 {
        self.between(1, 255) as u8
    }

    /// A fitting value; its own number of bits is drawn first, so that small ones are frequent and lines short.
    pub fn value(&mut self, width: usize) -> u32 {
        let bits = self.between(0, width);
        self.draw() as u32 & greatest(bits)
    }

    pub fn values(&mut self, row: &Row) -> Vec<u32> {
        row.widths().map(|width| self.value(width)).collect()
    }

    /// Drawn values, of one digit where the row is long.
    pub fn short_values(&mut self, row: &Row) -> Vec<u32> {
        if is_long(row) { self.digits(row) } else { self.values(row) }
    }

    /// Values over the whole range of each width.
    pub fn wide_values(&mut self, row: &Row) -> Vec<u32> {
        row.widths().map(|width| self.draw() as u32 & greatest(width)).collect()
    }

    /// Values of one digit, for the short lines.
    pub fn digits(&mut self, row: &Row) -> Vec<u32> {
        row.widths().map(|width| self.draw() as u32 & greatest(width.min(3))).collect()
    }

    /// A value that does not fit a width below 32: one too large, the greatest of all, or another.
    pub fn misfit(&mut self, width: usize) -> u32 {
        assert!(width < 32, "every value fits 32 bits");
        let least = greatest(width) + 1;
        let other = least + self.draw() as u32 % (u32::MAX - least);
        self.one_of(&[least, u32::MAX, other, least | 1 << 31])
    }

    /// A field of the row that is narrower than 32 bits; each row has one.
    pub fn narrow_field(&mut self, row: &Row) -> u32 {
        let narrow: Vec<u32> = (0u32..).zip(row.widths()).filter(|&(_, width)| width < 32).map(|(at, _)| at).collect();
        self.one_of(&narrow)
    }

    pub fn any_row(&mut self) -> (u32, &'static Satellite, &'static Row) {
        let satellite = self.between(0, TABLE.len() - 1);
        let sender = &TABLE[satellite];
        (satellite as u32, sender, &sender.rows[self.between(0, sender.rows.len() - 1)])
    }

    /// A frame with any type and address, a drawn body, a right checksum and a fitting size byte.
    pub fn frame(&mut self, sender: &Satellite, number: u32, address: u8, part_bytes: usize) -> Vec<u8> {
        let start = sender.type_place();
        let mut frame = vec![0; start];
        frames::fill_head(sender, part_bytes, &mut frame);
        frame.push(frames::type_byte(number, address));
        frame.extend((1..part_bytes).map(|_| self.byte()));
        frames::seal(&mut frame[start..]);
        frame
    }

    pub fn right_frame(&mut self, sender: &Satellite, row: &Row) -> Vec<u8> {
        self.frame(sender, row.number, sender.address, row.bytes)
    }

    /// Cuts the frame or puts bytes behind it: a drawn one again and again, for the sake of short lines.
    pub fn resize(&mut self, frame: &mut Vec<u8>, length: usize) {
        let byte = self.byte();
        frame.resize(length, byte);
    }
}
