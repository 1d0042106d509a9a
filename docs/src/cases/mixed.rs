//! Any call, satellites mostly 0 to 6, frames mostly nearly right; and controls.

use crate::drawing::Maker;
use crate::leaves::any_leaf;
use crate::numbers::{codes, spoil};
use crate::offences::{can_be_had, frame_call, write_call, FrameCall, EDITING, READING, WRITING};
use crate::rules::table::{Row, TABLE};

/// None, one or two offences that the satellite can have together.
fn offences(maker: &mut Maker, tests: &[u32], satellite: u32) -> Vec<u32> {
    let (one, other) = (maker.one_of(tests), maker.one_of(tests));
    let mut chosen = match maker.between(0, 3) {
        0 | 1 => vec![],
        2 => vec![one],
        _ if can_be_had(one, other) => vec![one, other],
        _ => vec![other],
    };
    chosen.retain(|&offence| offence != 6 || TABLE[satellite as usize].has_size);
    chosen
}

/// Most rows of more bytes give way to one of the first two, for the sake of short lines.
const SHORT: usize = 40;

fn shorter_row(maker: &mut Maker) -> (u32, &'static Row) {
    let (satellite, _, row) = maker.any_row();
    if row.bytes < SHORT || maker.once_in(6) {
        return (satellite, row);
    }
    let sender = &TABLE[satellite as usize];
    (satellite, &sender.rows[maker.between(0, 1)])
}

/// Changes, now and then, what no list of offences would.
fn stray(maker: &mut Maker, call: &mut FrameCall) {
    let length = call.frame.len();
    match maker.between(0, 11) {
        0 if length > 0 => call.frame[maker.between(0, length - 1)] ^= 1 << maker.between(0, 7),
        1 if length > 1 => call.frame.swap(maker.between(0, length - 1), maker.between(0, length - 1)),
        2 => call.satellite = maker.between(0, TABLE.len() - 1) as u32,
        3 => call.satellite = maker.draw() as u32,
        4 => call.room = maker.between(0, 200),
        5 => call.field = maker.between(0, 130) as u32,
        6 => call.value = maker.draw() as u32,
        7 => {
            let length = maker.between(0, 200);
            maker.resize(&mut call.frame, length);
        }
        _ => (),
    }
}

fn any_frame_call(maker: &mut Maker, tests: &[u32]) -> FrameCall {
    let (satellite, row) = shorter_row(maker);
    let offences = offences(maker, tests, satellite);
    let turn = maker.between(0, 17);
    let mut call = frame_call(maker, satellite, row, &offences, turn);
    if maker.once_in(2) {
        stray(maker, &mut call);
    }
    if maker.once_in(60) {
        call.frame = (0..maker.between(0, 60)).map(|_| maker.byte()).collect();
    }
    call
}

fn any_write(maker: &mut Maker) {
    let (satellite, row) = shorter_row(maker);
    let offences = offences(maker, &WRITING, satellite);
    let mut call = write_call(maker, satellite, row, &offences);
    if offences.is_empty() && maker.once_in(2) {
        call.values = maker.values(row);
    }
    match maker.between(0, 15) {
        0 => call.satellite = maker.between(0, TABLE.len() - 1) as u32,
        1 => call.satellite = maker.draw() as u32,
        2 => call.number = maker.between(0, 16) as u32,
        3 => call.output = maker.between(0, 255),
        4 if !call.values.is_empty() => {
            let place = maker.between(0, call.values.len() - 1);
            call.values[place] = maker.draw() as u32;
        }
        _ => (),
    }
    maker.write(call.satellite, call.number, call.output, &call.values);
}

fn any_summary(maker: &mut Maker) {
    let count = if maker.once_in(6) { maker.between(0, 20) } else { 10 };
    let mut codes = codes(maker, count);
    if count > 0 && maker.once_in(4) {
        let times = maker.between(1, 3);
        spoil(maker, &mut codes, times);
    }
    maker.summary(&codes);
}

fn any_call(maker: &mut Maker) {
    match maker.between(0, 9) {
        0..=3 => {
            let call = any_frame_call(maker, &READING);
            maker.read(call.satellite, call.room, &call.frame);
        }
        4..=6 => {
            let call = any_frame_call(maker, &EDITING);
            maker.edit(call.satellite, call.field, call.value, &call.frame);
        }
        7 | 8 => any_write(maker),
        _ if maker.once_in(8) => {
            let code = maker.draw() as u32 >> maker.between(0, 31);
            maker.temperature(code);
        }
        _ => any_summary(maker),
    }
}

pub fn until(maker: &mut Maker, count: u64) {
    if maker.made < count {
        maker.heading("mixed: any call, drawn");
    }
    while maker.made < count {
        any_call(maker);
    }
}

/// Another character for one of an answer.
fn another(character: char) -> char {
    match character {
        '9' => '0',
        '0'..='8' | 'A'..='F' => char::from(character as u8 + 1),
        _ => '-',
    }
}

/// A line whose answer is wrong in one place, with a mark ahead: who compares must tell the two apart.
fn control(maker: &mut Maker, call: fn(&mut Maker)) {
    maker.flush();
    call(maker);
    let line = std::mem::take(&mut maker.text);
    let answer = line.find(" | ").map_or(0, |bar| bar + 3);
    let place = maker.between(answer, line.len() - 2);
    let wrong = line.char_indices().map(|(at, any)| if at == place { another(any) } else { any });
    maker.text.push('!');
    maker.text.extend(wrong);
}

pub fn controls(maker: &mut Maker) {
    maker.heading("controls: one character of the answer is wrong on purpose");
    for k in 0..120 {
        control(maker, if k % 6 == 5 { any_leaf } else { any_call });
    }
}
