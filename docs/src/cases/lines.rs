//! The lines: a call, and behind a bar what the rules answer and leave.

use crate::drawing::Maker;
use crate::rules::table::TABLE;
use crate::rules::temperatures::{summary, temperature, temperature_fields, TEN_TEMPERATURES};
use crate::rules::{frames, leaves};
use crate::words::{put_bytes, put_digits, put_list};
use std::fmt::Write as _;
use std::io::Write as _;

fn room_mark(place: usize) -> u32 {
    4_000_000_000 + place as u32
}

/// Neither training nor sync nor a type byte has this value at its place, so that each of these shows.
fn output_mark(place: usize) -> u8 {
    208 + (place % 47) as u8
}

/// How many places there are up to and including the last one that does not hold its mark.
fn touched<T: PartialEq>(lent: &[T], mark: fn(usize) -> T) -> usize {
    (0..lent.len()).rev().find(|&place| lent[place] != mark(place)).map_or(0, |place| place + 1)
}

/// Scrambling or unscrambling: the distances, the start and the bytes.
type Pass = fn(usize, usize, u32, &mut [u8]) -> u32;

/// How lines are put together.
impl Maker {
    fn put(&mut self, words: std::fmt::Arguments<'_>) {
        self.text.write_fmt(words).expect("a string takes all");
    }

    /// The name of the group that follows.
    pub fn heading(&mut self, name: &str) {
        self.remark(name);
        self.draw_for(name);
    }

    /// Says more of the group, and changes nothing that is drawn.
    pub fn remark(&mut self, said: &str) {
        self.put(format_args!("# {said}\n"));
    }

    /// The bytes that end a call; a dash where there are none.
    fn given_bytes(&mut self, bytes: &[u8]) {
        put_bytes(&mut self.text, bytes);
        self.text.push_str(if bytes.is_empty() { "- | " } else { " | " });
    }

    /// The list that ends a call, likewise.
    fn given_list(&mut self, values: &[u32]) {
        put_list(&mut self.text, values);
        self.text.push_str(if values.is_empty() { "- | " } else { " | " });
    }

    /// What bytes have become that a call may change.
    fn left(&mut self, before: &[u8], after: &[u8]) {
        if before == after {
            self.text.push('=');
        } else {
            put_digits(&mut self.text, after);
        }
        self.end_line();
    }

    fn end_line(&mut self) {
        self.text.push('\n');
        self.made += 1;
        if self.text.len() > 1 << 20 {
            self.flush();
        }
    }

    /// Whoever closed the pipe early wants no more cases.
    pub fn flush(&mut self) {
        let mut output = std::io::stdout();
        if output.write_all(self.text.as_bytes()).and_then(|()| output.flush()).is_err() {
            std::process::exit(1);
        }
        self.text.clear();
    }
}

/// Frames and temperatures.
impl Maker {
    pub fn read(&mut self, satellite: u32, room: usize, frame: &[u8]) {
        let mut lent: Vec<u32> = (0..room).map(room_mark).collect();
        let (refusal, number, count) = frames::read(satellite, frame, &mut lent);
        let end = touched(&lent, room_mark);
        self.put(format_args!("read {satellite} {room} "));
        self.given_bytes(frame);
        self.put(format_args!("{refusal} {number} {count} "));
        put_list(&mut self.text, &lent[..end]);
        self.put(format_args!("+{}", room - end));
        self.end_line();
    }

    pub fn write(&mut self, satellite: u32, number: u32, output: usize, values: &[u32]) {
        let mut lent: Vec<u8> = (0..output).map(output_mark).collect();
        let (refusal, answer) = frames::write(satellite, number, values, &mut lent);
        let end = touched(&lent, output_mark);
        self.put(format_args!("write {satellite} {number} {output} "));
        self.given_list(values);
        self.put(format_args!("{refusal} {answer} "));
        put_digits(&mut self.text, &lent[..end]);
        self.put(format_args!("+{}", output - end));
        self.end_line();
    }

    pub fn edit(&mut self, satellite: u32, field: u32, value: u32, frame: &[u8]) {
        let mut lent = frame.to_vec();
        let (refusal, answer) = frames::edit(satellite, &mut lent, field, value);
        self.put(format_args!("edit {satellite} {field} {value} "));
        self.given_bytes(frame);
        self.put(format_args!("{refusal} {answer} "));
        self.left(frame, &lent);
    }

    pub fn temperature(&mut self, code: u32) {
        let (refusal, kind, degrees) = temperature(code);
        self.put(format_args!("temperature {code} | {refusal} {kind} {:08X}", degrees.to_bits()));
        self.end_line();
    }

    fn day_told(&mut self, (refusal, place, coldest, warmest, count): (u32, u32, f32, f32, u32)) {
        let (coldest, warmest) = (coldest.to_bits(), warmest.to_bits());
        self.put(format_args!("{refusal} {place} {coldest:08X} {warmest:08X} {count}"));
        self.end_line();
    }

    pub fn summary(&mut self, codes: &[u32]) {
        self.text.push_str("summary ");
        self.given_list(codes);
        self.day_told(summary(codes));
    }

    /// From a frame to its day.
    pub fn day(&mut self, satellite: u32, frame: &[u8]) {
        let mut room = [0; 128];
        let (refusal, number, count) = frames::read(satellite, frame, &mut room);
        self.put(format_args!("day {satellite} "));
        self.given_bytes(frame);
        if refusal != 0 {
            self.day_told((refusal, 0, 0.0, 0.0, 0));
        } else if number == TEN_TEMPERATURES {
            self.day_told(summary(&room[temperature_fields(number, count as usize)]));
        } else {
            self.text.push_str("no temperatures");
            self.end_line();
        }
    }
}

/// The leaves.
impl Maker {
    pub fn checksum(&mut self, bytes: &[u8]) {
        self.text.push_str("checksum ");
        self.given_bytes(bytes);
        self.put(format_args!("{:04X}", leaves::checksum(bytes)));
        self.end_line();
    }

    fn pass(&mut self, word: &str, pass: Pass, (near, far, start): (u32, u32, u32), bytes: &[u8]) {
        let mut lent = bytes.to_vec();
        let sent = pass(near as usize, far as usize, start, &mut lent);
        self.put(format_args!("{word} {near} {far} {start:08X}{}", if bytes.is_empty() { " | " } else { "," }));
        if !bytes.is_empty() {
            self.given_bytes(bytes);
        }
        self.put(format_args!("{sent:08X} "));
        self.left(bytes, &lent);
    }

    pub fn scramble(&mut self, register: (u32, u32, u32), bytes: &[u8]) {
        self.pass("scramble", leaves::scramble, register, bytes);
    }

    pub fn unscramble(&mut self, register: (u32, u32, u32), bytes: &[u8]) {
        self.pass("unscramble", leaves::unscramble, register, bytes);
    }

    pub fn field(&mut self, start: u32, width: u32, bytes: &[u8]) {
        self.put(format_args!("field {start} {width} "));
        self.given_bytes(bytes);
        self.put(format_args!("{}", leaves::field(bytes, start as usize, width as usize)));
        self.end_line();
    }

    pub fn replace(&mut self, start: u32, width: u32, value: u32, bytes: &[u8]) {
        let mut lent = bytes.to_vec();
        leaves::replace(&mut lent, start as usize, width as usize, value);
        self.put(format_args!("replace {start} {width} {value} "));
        self.given_bytes(bytes);
        self.left(bytes, &lent);
    }

    pub fn satellite(&mut self, number: u32) {
        self.put(format_args!("satellite {number} | "));
        match TABLE.get(number as usize) {
            None => self.text.push_str("none"),
            Some(own) => {
                let first = own.row(TEN_TEMPERATURES).map_or(0, |row| temperature_fields(row.number, row.fields()).start);
                let (size, type_byte) = (u8::from(own.has_size), own.type_place());
                self.put(format_args!("{} {} {size} {type_byte} {first}", own.address, own.training));
            }
        }
        self.end_line();
    }
}
