//! Calls that are given, answered: those that were picked by hand, and those of standard input.

use crate::drawing::Maker;
use crate::words::{bytes, list, number, output, places};

/// Lines picked by hand, with the edges of 01 among them; headings tell what each shows.
pub const PICKED: &str = include_str!("picked.txt");

/// Checksum, scrambler, fields and satellites: the documents' examples, values known from elsewhere, and drawn ones.
pub const LEAVES: &str = include_str!("leaves.txt");

/// Answers each line; an answer that is there already, behind a bar, is not looked at.
pub fn answer(maker: &mut Maker, text: &str) -> Result<(), String> {
    for (number, line) in (1..).zip(text.lines()) {
        if let Some(name) = line.strip_prefix('#') {
            maker.heading(name.trim_start());
        } else if !line.is_empty() {
            let call = line.split(" | ").next().unwrap_or("");
            answer_call(maker, call).ok_or_else(|| format!("cases: line {number} is no call: {call}"))?;
        }
    }
    Ok(())
}

/// The call stays as it was given, since bytes can be written in more than one way.
fn answer_call(maker: &mut Maker, call: &str) -> Option<()> {
    maker.flush();
    ask(maker, call)?;
    let bar = maker.text.find(" | ")?;
    maker.text.replace_range(..bar, call);
    Some(())
}

fn ask(maker: &mut Maker, call: &str) -> Option<()> {
    let words: Vec<&str> = call.split(' ').collect();
    match *words.as_slice() {
        ["read", satellite, room, frame] => maker.read(number(satellite)?, places(room)?, &bytes(frame)?),
        ["write", satellite, kind, room, values] => {
            maker.write(number(satellite)?, number(kind)?, output(room)?, &list(values)?)
        }
        ["edit", satellite, field, value, frame] => {
            maker.edit(number(satellite)?, number(field)?, number(value)?, &bytes(frame)?)
        }
        ["temperature", code] => maker.temperature(number(code)?),
        ["summary", codes] => maker.summary(&list(codes)?),
        ["day", satellite, frame] => maker.day(number(satellite)?, &bytes(frame)?),
        _ => return ask_leaf(maker, &words),
    }
    Some(())
}

fn ask_leaf(maker: &mut Maker, words: &[&str]) -> Option<()> {
    match *words {
        ["checksum", given] => maker.checksum(&bytes(given)?),
        ["scramble", near, far, given] => {
            let (start, part) = start_and_part(given)?;
            maker.scramble((number(near)?, number(far)?, start), &part)
        }
        ["unscramble", near, far, given] => {
            let (start, part) = start_and_part(given)?;
            maker.unscramble((number(near)?, number(far)?, start), &part)
        }
        ["field", start, width, given] => maker.field(number(start)?, number(width)?, &bytes(given)?),
        ["replace", start, width, value, given] => {
            maker.replace(number(start)?, number(width)?, number(value)?, &bytes(given)?)
        }
        ["satellite", satellite] => maker.satellite(number(satellite)?),
        _ => return None,
    }
    Some(())
}

/// The first four bytes, the highest first, and those behind them.
fn start_and_part(word: &str) -> Option<(u32, Vec<u8>)> {
    let mut given = bytes(word)?;
    if given.len() < 4 {
        return None;
    }
    let part = given.split_off(4);
    Some((u32::from_be_bytes(given.try_into().ok()?), part))
}
