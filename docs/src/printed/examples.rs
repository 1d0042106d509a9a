//! A second program for examples/: makes the frames there, the damaged ones too, and tells what `./tolimbar json` prints for each.
//!
//! ```text
//! examples make VALUES     NAME FRAME, a line for each file, from the file examples/values
//! examples json FILE..     for each file the line that `json` must print, the satellite being the one that the file's name tells
//! examples cases FILE..    for each file a case (docs/CASES.md) that reads it, with a room of 96 places
//! ```
//!
//! Frames, refusals, degrees and names are those of the rules.

#[allow(dead_code)]
#[path = "../cases/drawing.rs"]
mod drawing;
mod json;
#[allow(dead_code)]
#[path = "../cases/lines.rs"]
mod lines;
#[allow(dead_code)]
#[path = "../rules/mod.rs"]
mod rules;
#[allow(dead_code)]
#[path = "../cases/words.rs"]
mod words;

use drawing::Maker;
use json::{json_line, ROOM};
use rules::frames;
use rules::names::SATELLITES;
use rules::table::{Satellite, TABLE};
use std::io::Write;
use std::path::Path;
use std::process::ExitCode;

/// `hades-d-2.hex` is HADES-D's, `refused-4-hades-r.hex` was offered as HADES-R's.
fn satellite_of(file: &str) -> Option<usize> {
    let name = Path::new(file).file_stem()?.to_str()?;
    let satellite = match name.strip_prefix("refused-") {
        Some(rest) => rest.split_once('-')?.1,
        None => name.rsplit_once('-')?.0,
    };
    SATELLITES.iter().position(|(name, _)| name.eq_ignore_ascii_case(satellite))
}

/// The satellite that a file's name tells, and its frame.
fn offered(file: &String) -> Result<(usize, Vec<u8>), String> {
    let satellite = satellite_of(file).ok_or_else(|| format!("examples: {file}: its name tells no satellite"))?;
    let text = content(file)?;
    let frame = text.strip_suffix('\n').and_then(words::bytes);
    Ok((satellite, frame.ok_or_else(|| format!("examples: {file} is no line of hexadecimal bytes"))?))
}

fn json_lines(files: &[String]) -> Result<String, String> {
    let mut text = String::new();
    for file in files {
        let (satellite, frame) = offered(file)?;
        text += &format!("{}\n", json_line(satellite, &frame));
    }
    Ok(text)
}

fn cases(files: &[String]) -> Result<String, String> {
    let mut maker = Maker::new(0);
    for file in files {
        let (satellite, frame) = offered(file)?;
        maker.read(satellite as u32, 96, &frame);
    }
    Ok(maker.text)
}

// How the frames are made.

struct Example {
    satellite: usize,
    number: u32,
    frame: Vec<u8>,
}

/// The words behind satellite and type, which must be those of the row whose turn it is.
fn values_of(line: &str, satellite: usize, number: u32) -> Option<Vec<u32>> {
    let mut words = line.split(' ');
    if words.next()? != SATELLITES[satellite].0 || words.next()?.parse() != Ok(number) {
        return None;
    }
    words.map(|word| word.parse().ok()).collect()
}

fn example(line: &str, satellite: usize, number: u32) -> Result<Example, String> {
    let turn = || format!("{} type {number}", SATELLITES[satellite].0);
    let values = values_of(line, satellite, number).ok_or_else(|| format!("examples: no values of {}: {line}", turn()))?;
    let mut frame = vec![0; ROOM];
    let (refusal, length) = frames::write(satellite as u32, number, &values, &mut frame);
    if refusal != 0 {
        return Err(format!("examples: writing {} is refused with {refusal} ({length})", turn()));
    }
    frame.truncate(length as usize);
    Ok(Example { satellite, number, frame })
}

/// One for each line of the printed table, in its order.
fn examples(values: &str) -> Result<Vec<Example>, String> {
    let mut lines = values.lines().filter(|line| !line.is_empty() && !line.starts_with('#'));
    let mut made = vec![];
    for (satellite, sender) in TABLE.iter().enumerate() {
        for row in sender.rows {
            made.push(example(lines.next().unwrap_or("nothing"), satellite, row.number)?);
        }
    }
    lines.next().map_or(Ok(made), |line| Err(format!("examples: a line too many: {line}")))
}

/// The refusal, the satellite that the frame is offered as, whose frame of which type it is, and what is done to it.
type Damage = (u32, usize, usize, u32, fn(&Satellite, &mut Vec<u8>));

const DAMAGES: [Damage; 9] = [
    (2, 0, 0, 2, |sender, frame| frame.truncate(sender.type_place())), // cut ahead of the type byte
    (3, 2, 2, 11, |sender, frame| frame[sender.training] ^= 1), // a bit of sync
    (4, 4, 3, 2, |_, _| ()), // a good one, offered as another's
    (5, 3, 3, 10, |sender, frame| relabel(sender, frame, 11)), // the type that is MARIA-G's alone
    (5, 0, 1, 1, |sender, frame| {
        frame.drain(..sender.training - TABLE[0].training);
        relabel(&TABLE[0], frame, 1)
    }), // the type that all the others send, with HADES-D's training and address
    (6, 6, 6, 2, |sender, frame| frame[sender.type_place() - 1] -= 1), // the size byte
    (7, 6, 6, 2, |_, frame| frame.truncate(frame.len() - 1)), // a byte too few
    (7, 1, 1, 7, |_, frame| frame.push(0)), // a byte too many
    (9, 5, 5, 2, |sender, frame| frame[sender.type_place() + 6] ^= 0x10), // a bit of the body
];

/// The sender's address and another type on the same body, under a right checksum.
fn relabel(sender: &Satellite, frame: &mut [u8], number: u32) {
    let part = &mut frame[sender.type_place()..];
    frames::unseal(part);
    part[0] = frames::type_byte(number, sender.address);
    frames::seal(part);
}

/// The damaged frame, if it is refused as it is meant to be.
fn damaged(good: &[Example], damage: &Damage) -> Result<Vec<u8>, String> {
    let &(refusal, offered, satellite, number, apply) = damage;
    let of = good.iter().find(|example| example.satellite == satellite && example.number == number);
    let mut frame = of.expect("a row of the table").frame.clone();
    apply(&TABLE[satellite], &mut frame);
    match frames::read(offered as u32, &frame, &mut [0; ROOM]).0 {
        told if told == refusal => Ok(frame),
        told => Err(format!("examples: the frame for refusal {refusal} as {} gets {told}", SATELLITES[offered].0)),
    }
}

fn file_line(name: &str, frame: &[u8]) -> String {
    let mut line = format!("{}.hex ", name.to_ascii_lowercase());
    words::put_digits(&mut line, frame);
    line + "\n"
}

fn make(values: &str) -> Result<String, String> {
    let good = examples(values)?;
    let mut text = String::new();
    for example in &good {
        text += &file_line(&format!("{}-{}", SATELLITES[example.satellite].0, example.number), &example.frame);
    }
    for damage in &DAMAGES {
        let name = format!("refused-{}-{}", damage.0, SATELLITES[damage.1].0);
        text += &file_line(&name, &damaged(&good, damage)?);
    }
    Ok(text)
}

fn content(file: &str) -> Result<String, String> {
    std::fs::read_to_string(file).map_err(|cause| format!("examples: {file}: {cause}"))
}

fn run(words: &[String]) -> Result<String, String> {
    match words {
        [word, values] if word == "make" => make(&content(values)?),
        [word, files @ ..] if word == "json" => json_lines(files),
        [word, files @ ..] if word == "cases" => cases(files),
        _ => Err("usage: examples make VALUES | examples json FILE.. | examples cases FILE..".to_string()),
    }
}

fn main() -> ExitCode {
    let words: Vec<String> = std::env::args().skip(1).collect();
    match run(&words) {
        Ok(text) if std::io::stdout().write_all(text.as_bytes()).is_ok() => ExitCode::SUCCESS,
        Ok(_) => ExitCode::FAILURE,
        Err(complaint) => {
            eprintln!("{complaint}");
            ExitCode::from(2)
        }
    }
}
